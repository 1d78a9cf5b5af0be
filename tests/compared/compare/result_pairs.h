/*
**  Families of pairs of result files: rows of each kind, row counts, and files damaged in every way on either side or on both.
*/
#ifndef RESULT_PAIRS_H
#define RESULT_PAIRS_H

#include "pair_makers.h"

#define MOST_RESULT_ROWS 1500

/* A family makes pairs; the turn counts them, so that a list is gone through in order. */
struct pair_family {
    struct family its;
    void (*make)(struct pair *pair, uint64_t turn);
};

/* The family of an input and its turn, which go by the input's number. */
const struct pair_family *pair_family(uint64_t number, uint64_t *turn);

/* What the family makes; of every second pair the sides are exchanged. */
void make_pair(const struct pair_family *family, struct pair *pair, uint64_t turn);

/* Prints how many inputs each was asked for. */
void pair_families_tell(void);

#endif
