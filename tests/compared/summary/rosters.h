/*
**  Rosters to compare the summary's calls with: the states of a section, the list beside them, and the calls
**  that are made on both, one after another.
**
**  A call is given by how it differs from a right one, so that it means the same whatever was called before it.
*/
#ifndef ROSTERS_H
#define ROSTERS_H

#include "compared/shared/sections.h"

#define RECORDS 500
#define SECTION (RECORDS * STATE)     /* words of a section */
#define ENTRY 4
#define MOST_LISTED 260     /* centres with an entry */
#define LIST_ROOM (ENTRY * MOST_LISTED + ENTRY)
#define MOST_CALLS 40

enum call_name { SUMMARY, APPEND, WITHDRAW, CALL_NAMES };

/* Words alone, so that a call is packed as it stands. */
struct call {
    uint64_t name;     /* one of the three */
    uint64_t which;     /* state to withdraw */
    uint64_t back;     /* odd where it is counted back from the count */
    uint64_t record[STATE];     /* state to append */
    uint64_t r, words, count, centres, k, n;     /* what is added to the right ones */
};

#define CALL_WORDS (sizeof(struct call) / 8)

struct roster {
    uint64_t count, centres;     /* as the calls are told */
    uint64_t fill;     /* the words that are not given follow from it */
    size_t records, list_words, calls;     /* that are given */
    uint64_t states[SECTION], list[LIST_ROOM];
    struct call call[MOST_CALLS];
};

/* A family makes a roster; the turn counts its inputs, so that a list is gone through in order. */
struct roster_family {
    struct family its;
    void (*make)(struct roster *roster, uint64_t turn);
};

/* The family of an input and its turn, which go by the input's number. */
const struct roster_family *roster_family(uint64_t number, uint64_t *turn);

/* Prints how many inputs each was asked for. */
void roster_families_tell(void);

/* Calls on the roster, of which one in so many is wrong in a length, a count or a number, or in two. */
void any_calls(struct roster *roster, uint64_t wrong);

#endif
