/*
**  The row of long intervals: those states of the fixed set that come round, each over eight intervals from a month to five years. All of them lose
**  revolutions. The propagation stands in the row; beside it are the same in plain C without T-04, and the partials.
*/
#include "kelubashi.h"
#include "orbits.h"
#include "plain.h"
#include "row.h"

#include <stdio.h>
#include <string.h>

#define YEARS 40          /* the orbits of the first five states; those behind them do not come round */
#define DAY 86400.0       /* s */

static const double intervals[8] = {
    30 * DAY, -60 * DAY, 91 * DAY, -182.5 * DAY, 365.25 * DAY, -500 * DAY, 1000.125 * DAY, -1826.25 * DAY
};

static const char *const columns[] = { "library", "plain", "whole", "empty", "library partials", "plain partials", "empty partials", NULL };

enum { PARTIALS = 4 };     /* the first column with partials */

static uint64_t (*const calls[])(uint64_t, uint64_t, uint64_t, uint64_t, uint64_t, uint64_t, uint64_t, uint64_t,
                                 uint64_t *, size_t) = {
    kelubashi1_propagate, plain_propagate, whole_propagate, empty_propagate
};

static uint64_t (*const partials[])(uint64_t, uint64_t, uint64_t, uint64_t, uint64_t, uint64_t, uint64_t, uint64_t,
                                    uint64_t *, size_t, uint64_t *, size_t) = {
    kelubashi1_partials, plain_partials, empty_partials
};

static void fill(void)
{
    size_t i;

    orbits_fill();
    for (i = 0; i < YEARS; i++)
        orbits[i][7] = kelubashi_word(intervals[i % 8]);
}

static void pass(size_t column)
{
    uint64_t answer[15], run[36];
    size_t i;

    if (column >= PARTIALS)
        for (i = 0; i < YEARS; i++)
            partials[column - PARTIALS](ORBIT(i), answer, 15, run, 36);
    else
        for (i = 0; i < YEARS; i++)
            calls[column](ORBIT(i), answer, 15);
}

static void check(void)
{
    uint64_t library[15 + 36], plain[15 + 36], whole[15], points = 0, before = 0;
    size_t i;

    for (i = 0; i < YEARS; i++) {
        if (kelubashi1_partials(ORBIT(i), library, 15, library + 15, 36) != 0
            || plain_partials(ORBIT(i), plain, 15, plain + 15, 36) != 0 || whole_propagate(ORBIT(i), whole, 15) != 0)
            row_differs("an orbit of years is refused", i);
        if (memcmp(library, plain, sizeof plain) != 0)
            row_differs("the partials differ", i);
        if (kelubashi1_propagate(ORBIT(i), library, 15) != 0 || plain_propagate(ORBIT(i), plain, 15) != 0)
            row_differs("an orbit of years is refused", i);
        if (memcmp(library, plain, 15 * sizeof plain[0]) != 0)
            row_differs("the results differ", i);
        if (plain[KELUBASHI_PSI] == whole[KELUBASHI_PSI])
            row_differs("an orbit of years loses no revolutions", i);
        points += plain[1];
        before += whole[1];
    }
    printf("years: %d orbits, %.1f trial points a call, where the whole interval took %.1f; library and plain C answer alike\n",
           YEARS, (double)points / YEARS, (double)before / YEARS);
}

int main(int count, char **words)
{
    const struct row row = { columns, YEARS, pass, check };

    fill();
    return row_run(&row, count, words);
}
