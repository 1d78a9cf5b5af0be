/*
**  plain_start.h: the initial figures of a state and its whole revolutions in plain C, inline for the calls and for the check of a row.
*/
#ifndef PLAIN_START_H
#define PLAIN_START_H

#include "orbit.h"
#include "plain.h"

#define TURN 0x1.921fb54442d18p+2         /* twice the double nearest to pi */
#define MOST_TURNS 1099511627776.0        /* 2^40 */

/* A figure that is finite less itself is 0, and any other is a NaN: one test for all of them. */
static inline int all_finite(const double *figures, int count)
{
    double none = 0;
    int i;

    for (i = 0; i < count; i++)
        none += figures[i] - figures[i];
    return none == 0;
}

static inline double root_of(double figure)
{
    uint64_t root;

    plain_root(word_of(figure), &root, 1);
    return figure_of(root);
}

/* The floor of a number where that is within the bound of turns, and otherwise 0, of a NaN too. */
static inline double turns_in(double number)
{
    int64_t whole;

    if (!(-MOST_TURNS <= number && number < MOST_TURNS + 1))
        return 0;
    whole = (int64_t)number;     /* toward zero */
    return (double)(whole - ((double)whole > number));
}

/*
**  Takes whole revolutions off the interval, for alpha below zero and mu above it. The period needs no test: an infinite
**  one leaves 1/2, whose floor is 0, and one that is zero or a NaN leaves no number within the bound.
*/
static inline void take_turns_off(struct orbit *o)
{
    double root = root_of(-o->alpha), period = TURN * o->mu / (-o->alpha * root);
    double turns = turns_in(o->tau / period + 0.5);

    if (turns != 0) {
        o->tau -= turns * period;
        o->turned = turns * (TURN / root);
    }
}

/*
**  r0, sigma0, alpha and H of eight finite doubles: mu, position, velocity, tau. Refusal 3 or 4, or 0. Where
**  turns is 0, none come off.
*/
static inline uint64_t begin(const double *eight, int turns, struct orbit *o)
{
    double sum = dot(eight + 1, eight + 1), v2, quotient;

    if (sum == 0)
        return 3;
    if (!isfinite(sum))
        return 4;
    o->mu = eight[0];
    o->tau = eight[7];
    o->turned = 0;
    o->r0 = root_of(sum);
    o->sigma0 = dot(eight + 1, eight + 4);
    v2 = dot(eight + 4, eight + 4);
    quotient = 2 * o->mu / o->r0;
    o->alpha = v2 - quotient;
    if (turns && o->alpha < 0 && o->mu > 0)
        take_turns_off(o);
    o->h = fabs(o->tau) / o->r0 * (1.0 / 1048576);

    /* a v2 or a quotient that is not finite leaves no finite alpha */
    return isfinite(o->sigma0) && isfinite(o->alpha) && isfinite(o->h) ? 0 : 4;
}

#endif
