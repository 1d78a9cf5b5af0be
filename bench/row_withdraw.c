/*
**  The row of a state withdrawn from the middle of 480, with 29 others at its centre.
*/
#include "plain.h"
#include "roster.h"
#include "row.h"

static const char *const columns[] = { "library", "plain", "empty", NULL };

static uint64_t (*const calls[])(uint64_t, uint64_t *, size_t, uint64_t, uint64_t, uint64_t *, size_t, uint64_t *, size_t) = {
    kelubashi1_withdraw, plain_withdraw, empty_withdraw
};

static uint64_t ask(size_t column, struct roster *roster)
{
    return calls[column](IN_USE / 2, roster->states, KELUBASHI_STATE_RUN, IN_USE, KELUBASHI_MOST_CENTRES, roster->list, LIST,
                         roster->answer, KELUBASHI_CHANGE_ANSWER);
}

int main(int count, char **words)
{
    return roster_run("withdraw", columns, ask, count, words);
}
