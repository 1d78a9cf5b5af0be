/*
**  roster.h: the rows about the summary: their fixed set, 16 centres and 480 states in use, those of each centre at epochs before and after
**  zero, with a list for them; and what a row's program does with it.
*/
#ifndef ROSTER_H
#define ROSTER_H

#include "kelubashi.h"

enum { IN_USE = 480, LIST = KELUBASHI_MOST_CENTRES * KELUBASHI_ENTRY };

struct roster {
    uint64_t states[KELUBASHI_STATE_RUN], list[LIST], answer[KELUBASHI_CHANGE_ANSWER];
};

/*
**  The program of a row that makes one call a pass, on the set as it was at first. Of the columns, whose last is empty calls, all others have to leave the
**  same states, list and answer.
*/
int roster_run(const char *name, const char *const *columns, uint64_t (*ask)(size_t column, struct roster *roster),
               int count, char **words);

#endif
