/*
**  The row of a request's interval: 64 times and epochs, in seconds of a century with digits behind the point; two of the pairs are not finite.
*/
#include "kelubashi.h"
#include "plain.h"
#include "row.h"

#include <math.h>
#include <stdio.h>

enum { PAIRS = 64 };

static const char *const columns[] = { "library", "plain", "empty", NULL };

static uint64_t (*const calls[])(uint64_t, uint64_t, uint64_t *, size_t) = { kelubashi1_interval, plain_interval, empty_interval };

static uint64_t times[PAIRS], epochs[PAIRS];

static void fill(void)
{
    int i;

    for (i = 0; i < PAIRS; i++) {
        times[i] = kelubashi_word(49302187.3 * i + 0.1);
        epochs[i] = kelubashi_word(49302187.3 * i + 86400.7 * (i % 16 - 8));
    }
    times[PAIRS / 2] = kelubashi_word(INFINITY);
    epochs[PAIRS - 1] = kelubashi_word(NAN);
}

static void pass(size_t column)
{
    uint64_t answer;
    size_t i;

    for (i = 0; i < PAIRS; i++)
        calls[column](times[i], epochs[i], &answer, 1);
}

static void check(void)
{
    uint64_t library, plain;
    size_t i;

    for (i = 0; i < PAIRS; i++)
        if (kelubashi1_interval(times[i], epochs[i], &library, 1) != 0 || plain_interval(times[i], epochs[i], &plain, 1) != 0 || library != plain)
            row_differs("the intervals differ", i);
    printf("interval: %d pairs; library and plain C answer alike\n", (int)PAIRS);
}

int main(int count, char **words)
{
    const struct row row = { columns, PAIRS, pass, check };

    fill();
    return row_run(&row, count, words);
}
