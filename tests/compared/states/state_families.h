/*
**  The families of inputs to propagate and partials, and which of them an input's number takes.
*/
#ifndef STATE_FAMILIES_H
#define STATE_FAMILIES_H

#include "compared/shared/drive.h"

#include <stdint.h>

struct state_family {
    struct family its;
    int aimed;     /* whether its aims are looked at */
    void (*make)(uint64_t *words);
};

/* The family of an input; it goes by the number, so that every run of some length has all. */
const struct state_family *state_family(uint64_t number);

/* Prints how many inputs each was asked for. */
void state_families_tell(void);

#endif
