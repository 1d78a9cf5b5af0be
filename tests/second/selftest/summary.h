/* What the self-test of the summary and of the changes share. */
#ifndef SUMMARY_H
#define SUMMARY_H

#include "selftest.h"

#define SECTION 4000u
#define ENTRIES 17u
#define MINUS_ONE 0xBFF0000000000000u
#define TWO 0x4000000000000000u
#define MINUS_TWO 0xC000000000000000u
#define ALL_ONES 0xFFFFFFFFFFFFFFFFu

/* What is lent, with a word behind each run. */
struct lent {
    uint64_t states[SECTION + 1];
    uint64_t list[4 * ENTRIES + 1];
};

extern struct lent lent, was; /* and what it was before the last call */
extern uint64_t answer[3];    /* with a word behind it */

/* Any words everywhere: no state is in use yet, and no entry is right. */
void start(void);
void put_state(size_t number, uint64_t centre, uint64_t epoch);

/* Centres 0 1 2 0 1 2 and so on; the epoch is the state's number. */
void put_states(size_t count);

/* Calls with the right lengths. */
uint64_t summary(uint64_t count, uint64_t centres);
uint64_t append(const uint64_t record[8], uint64_t count, uint64_t centres);
uint64_t withdraw(uint64_t which, uint64_t count, uint64_t centres);

int answered(uint64_t number, uint64_t count);
int entry_is(size_t centre, uint64_t numbers, uint64_t nans,
             uint64_t earliest, uint64_t latest);

/* Nothing of the list but this entry is another than before. */
int others_kept(size_t entry);

/* The records from one to before another are as before. */
int states_kept(size_t from, size_t end);

#endif
