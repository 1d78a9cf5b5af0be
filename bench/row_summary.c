/*
**  The row of a whole list worked out: 16 centres and 480 states.
*/
#include "plain.h"
#include "roster.h"
#include "row.h"

static const char *const columns[] = { "library", "plain", "one_walk", "empty", NULL };

static uint64_t (*const calls[])(const uint64_t *, size_t, uint64_t, uint64_t, uint64_t *, size_t, uint64_t *, size_t) = {
    kelubashi1_summary, plain_summary, one_walk_summary, empty_summary
};

static uint64_t ask(size_t column, struct roster *roster)
{
    return calls[column](roster->states, KELUBASHI_STATE_RUN, IN_USE, KELUBASHI_MOST_CENTRES, roster->list, LIST, roster->answer,
                         KELUBASHI_CHANGE_ANSWER);
}

int main(int count, char **words)
{
    return roster_run("summary", columns, ask, count, words);
}
