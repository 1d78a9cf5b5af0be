/*
**  Files of rows to compare with: rows of each kind, and files damaged in every way.
*/
#ifndef ROW_FILES_H
#define ROW_FILES_H

#include "compared/shared/sections.h"
#include "row_makers.h"

#define ROW_BYTES (8 * ROW_WORDS)

/* A family makes rows, some of which are a file, or a file; the turn counts them, so that a list is gone through in order. */
struct row_family {
    struct family its;
    int accepted;     /* whether each of its rows has to be */
    void (*row)(uint64_t *row, uint64_t turn);
    void (*file)(struct file *file, uint64_t turn);
};

/* The family of an input and its turn, which go by the input's number. */
const struct row_family *row_family(uint64_t number, uint64_t *turn);

void make_rows(const struct row_family *family, struct file *file, uint64_t turn);

/* Prints how many inputs each was asked for. */
void row_families_tell(void);

/* The words of a row of a file, by its number from 0. */
void take_row(const struct file *file, uint64_t which, uint64_t *row);
void set_row(struct file *file, uint64_t which, const uint64_t *row);

#endif
