/*
**  What the library and the second program hold while the calls of one roster are made, each in copies of its
**  own, and how the two are compared after every call.
*/
#ifndef HELD_BY_BOTH_H
#define HELD_BY_BOTH_H

#include "rosters.h"

#define MARGIN 4     /* words before and behind what is lent */
#define COUNTED 2     /* words of an answer */
#define ANSWER_ROOM 8
#define RECORD_ROOM 16
#define SECTION_ROOM (SECTION + STATE)

struct held {
    uint64_t status;
    uint64_t answer[MARGIN + ANSWER_ROOM + MARGIN];
    uint64_t record[MARGIN + RECORD_ROOM + MARGIN];
    uint64_t states[MARGIN + SECTION_ROOM + MARGIN];
    uint64_t list[MARGIN + LIST_ROOM + MARGIN];
};

/* A call as it is made: its name, and what it is given. */
struct made {
    enum call_name name;
    uint64_t which, count, centres;
    const uint64_t *record;
    size_t r, words, k, n;
};

/* The library's, the second program's, and the library's as they were before the call. */
extern struct held library_held, second_held, held_before;

/* Before the first call. */
void hold_roster(const char *family, const struct roster *roster);

/* Before each call: the answers and the record anew, and a copy of the rest. */
void hold_call(const struct made *made);

/* The run that is lent, null where the length is 0. */
uint64_t *lent_run(uint64_t *held, size_t length);

/* After each call: statuses, answers and both runs alike, nothing beside them written, the record kept. */
void compare_held(void);

/* Whether both runs are what they were before the call. */
int all_held(void);

/* Ends the program with the roster, the call, and what both hold. */
void held_differs(const char *what);

#endif
