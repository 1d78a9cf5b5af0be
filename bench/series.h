/*
**  series.h: words, and the series of an anomaly, inline for the search and for the results.
**
**  A caller that has no use for c4 and c5 leaves them to the compiler, which drops their quotients.
*/
#ifndef SERIES_H
#define SERIES_H

#include <math.h>
#include <stdint.h>
#include <string.h>

#define SIGN (UINT64_C(1) << 63)
#define UNIT (UINT64_C(1) << 52)     /* of the exponent's field; the digits lie below it */
#define INFINITE (2047 * UNIT)

struct series {
    double c0, c1, c2, c3, c4, c5;
};

static inline uint64_t word_of(double figure)
{
    uint64_t word;
    memcpy(&word, &figure, sizeof word);
    return word;
}

static inline double figure_of(uint64_t word)
{
    double figure;
    memcpy(&figure, &word, sizeof figure);
    return figure;
}

/* All six where |L| is at most 1. Written out: a loop over tables would load what here are constants. */
static inline struct series series_of_reduced(double l)
{
    struct series c;
    double p;

    p = 1 + l / 380;
    p = 1 + l * p / 306;
    p = 1 + l * p / 240;
    p = 1 + l * p / 182;
    p = 1 + l * p / 132;
    p = 1 + l * p / 90;
    p = 1 + l * p / 56;
    p = 1 + l * p / 30;
    c.c4 = p / 24;
    p = 1 + l / 420;
    p = 1 + l * p / 342;
    p = 1 + l * p / 272;
    p = 1 + l * p / 210;
    p = 1 + l * p / 156;
    p = 1 + l * p / 110;
    p = 1 + l * p / 72;
    p = 1 + l * p / 42;
    c.c5 = p / 120;
    c.c3 = 1.0 / 6 + l * c.c5;
    c.c2 = 0.5 + l * c.c4;
    c.c1 = 1 + l * c.c3;
    c.c0 = 1 + l * c.c2;
    return c;
}

/* All six of a finite L. A quarter is exact as a factor, so l * 0.25 rounds as l / 4 does. */
static inline struct series series_of(double first)
{
    struct series c;
    double l = first;
    int m = 0;

    while (fabs(l) > 1) {
        l *= 0.25;
        m++;
    }
    c = series_of_reduced(l);
    if (m > 0) {
        do {
            c.c1 = c.c0 * c.c1;
            c.c0 = 2 * (c.c0 * c.c0) - 1;
        } while (--m > 0);
        c.c2 = (c.c0 - 1) / first;
        c.c3 = (c.c1 - 1) / first;
        c.c4 = (c.c2 - 0.5) / first;
        c.c5 = (c.c3 - 1.0 / 6) / first;
    }
    return c;
}

#endif
