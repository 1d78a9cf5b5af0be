/*
**  The set of the rows about the summary, and their program.
*/
#include "roster.h"

#include "row.h"

#include <stdio.h>

static const char *name;
static const char *const *columns;
static uint64_t (*ask)(size_t column, struct roster *roster);
static struct roster kept, other;

static void fill(struct roster *roster)
{
    uint64_t i;

    memset(roster, 0, sizeof *roster);
    for (i = 0; i < IN_USE; i++) {
        uint64_t *state = roster->states + KELUBASHI_STATE * i;

        state[0] = i * 7 % KELUBASHI_MOST_CENTRES;
        state[1] = kelubashi_word((double)(i * 37 % 101) * 864.5 - 40000);
        state[2] = i;
    }
}

/* What it takes to fill the set falls out, as the empty calls take it too. */
static void pass(size_t column)
{
    fill(&kept);
    ask(column, &kept);
}

static void check(void)
{
    size_t column;

    fill(&kept);
    if (ask(0, &kept) != 0)
        row_differs("the library refuses the call", 0);
    for (column = 1; columns[column + 1] != NULL; column++) {
        fill(&other);
        if (ask(column, &other) != 0 || memcmp(&kept, &other, sizeof kept) != 0)
            row_differs("states, list or answer differ", column);
    }
    printf("%s: library and plain C leave the same states, list and answer\n", name);
}

int roster_run(const char *its_name, const char *const *its_columns, uint64_t (*its_call)(size_t column, struct roster *roster),
               int count, char **words)
{
    struct row row = { NULL, 1, pass, check };

    name = its_name;
    columns = row.columns = its_columns;
    ask = its_call;
    return row_run(&row, count, words);
}
