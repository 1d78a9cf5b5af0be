/*
**  The row of a state appended to 480, with 30 of them at its centre.
*/
#include "plain.h"
#include "roster.h"
#include "row.h"

static const char *const columns[] = { "library", "plain", "empty", NULL };

static uint64_t (*const calls[])(const uint64_t *, size_t, uint64_t *, size_t, uint64_t, uint64_t, uint64_t *, size_t, uint64_t *, size_t) = {
    kelubashi1_append, plain_append, empty_append
};

static uint64_t ask(size_t column, struct roster *roster)
{
    static const uint64_t record[KELUBASHI_STATE] = { 3, 0, 1, 2, 3, 4, 5, 6 };

    return calls[column](record, KELUBASHI_STATE, roster->states, KELUBASHI_STATE_RUN, IN_USE, KELUBASHI_MOST_CENTRES, roster->list,
                         LIST, roster->answer, KELUBASHI_CHANGE_ANSWER);
}

int main(int count, char **words)
{
    return roster_run("append", columns, ask, count, words);
}
