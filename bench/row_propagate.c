/*
**  The row of the propagation, over the fixed set of orbits; and the library over each quarter of it, by the trial points that an orbit needs.
*/
#include "kelubashi.h"
#include "orbits.h"
#include "plain.h"
#include "row.h"

#include <math.h>
#include <stdio.h>
#include <stdlib.h>
#include <string.h>

#define QUARTER (ORBITS / 4)

static const char *const columns[] = { "library", "plain", "newton", "empty", "fewest", "fewer", "more", "most", NULL };

enum { FEWEST = 4 };     /* the first column of a quarter */

static uint64_t (*const calls[])(uint64_t, uint64_t, uint64_t, uint64_t, uint64_t, uint64_t, uint64_t, uint64_t,
                                 uint64_t *, size_t) = {
    kelubashi1_propagate, plain_propagate, newton_propagate, empty_propagate
};

static size_t order[ORBITS];     /* by trial points */

static uint64_t points_of(size_t i)
{
    uint64_t answer[15];

    plain_propagate(ORBIT(i), answer, 15);
    return answer[1];
}

static int by_points(const void *a, const void *b)
{
    uint64_t p = points_of(*(const size_t *)a), q = points_of(*(const size_t *)b);

    return (p > q) - (p < q);
}

/* Four times over a quarter, so that each pass has as many calls. */
static void pass_quarter(const size_t *quarter)
{
    uint64_t answer[15];
    size_t i;

    for (i = 0; i < ORBITS; i++)
        calls[0](ORBIT(quarter[i % QUARTER]), answer, 15);
}

static void pass(size_t column)
{
    uint64_t answer[15];
    size_t i;

    if (column >= FEWEST) {
        pass_quarter(order + (column - FEWEST) * QUARTER);
        return;
    }
    for (i = 0; i < ORBITS; i++)
        calls[column](ORBIT(i), answer, 15);
}

/* Whether Newton's steps end at the anomaly that the search finds in the whole interval, as they do, to nine digits. */
static int newton_agrees(size_t i)
{
    uint64_t answer[15], whole[15];

    newton_propagate(ORBIT(i), answer, 15);
    whole_propagate(ORBIT(i), whole, 15);
    return fabs(kelubashi_figure(answer[14]) / kelubashi_figure(whole[14]) - 1) < 1e-9;
}

static void check_quarters(void)
{
    uint64_t points;
    size_t i, k;

    printf("propagate, a quarter of the orbits each by trial points a call:");
    for (k = 0; k < 4; k++) {
        points = 0;
        for (i = 0; i < QUARTER; i++)
            points += points_of(order[k * QUARTER + i]);
        printf(" %s %.1f%s", columns[FEWEST + k], (double)points / QUARTER, k < 3 ? "," : "\n");
    }
}

static void check(void)
{
    uint64_t library[15], plain[15], points = 0;
    int agree = 0;
    size_t i;

    for (i = 0; i < ORBITS; i++) {
        if (kelubashi1_propagate(ORBIT(i), library, 15) != 0 || plain_propagate(ORBIT(i), plain, 15) != 0)
            row_differs("a plain orbit is refused", i);
        if (memcmp(library, plain, sizeof plain) != 0)
            row_differs("the results differ", i);
        points += plain[1];
        agree += newton_agrees(i);
    }
    printf("propagate: %d orbits, %.1f trial points a call; library and plain C answer alike, Newton ends there for %d\n",
           ORBITS, (double)points / ORBITS, agree);
    check_quarters();
}

int main(int count, char **words)
{
    const struct row row = { columns, ORBITS, pass, check };
    size_t i;

    orbits_fill();
    for (i = 0; i < ORBITS; i++)
        order[i] = i;
    qsort(order, ORBITS, sizeof order[0], by_points);
    return row_run(&row, count, words);
}
