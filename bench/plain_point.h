/*
**  plain_point.h: a trial point and its sort in plain C, and which of two neighbours is answered, inline for the search and for the check of a row.
*/
#ifndef PLAIN_POINT_H
#define PLAIN_POINT_H

#include "orbit.h"

enum sort { SHORT, PAST, EXACT, UNREADABLE };

/* A trial point that was evaluated: its time error, and what the radius there is made of. */
struct point {
    double error, c0, s1, s2;
};

struct end {
    uint64_t place;
    double error;
};

/* The anomaly at a place has the sign of tau. */
static inline double anomaly_at(uint64_t sign, uint64_t place)
{
    return figure_of(place | sign);
}

/* The sort of a point by its time error, taken as if tau were above zero. */
static inline enum sort sort_of(uint64_t sign, double error)
{
    double ahead = figure_of(word_of(error) ^ sign);

    if (ahead < 0)
        return SHORT;
    if (ahead > 0)
        return PAST;
    return ahead == 0 ? EXACT : UNREADABLE;
}

/* Evaluates the point at a place and sorts it. At place 0 every sum is a zero, which leaves -tau for the error: it is short. */
static inline enum sort sort_at(const struct orbit *o, uint64_t sign, uint64_t place, struct point *p)
{
    double psi = anomaly_at(sign, place), l = o->alpha * (psi * psi);
    struct sums s;

    /* a psi that is not finite leaves no finite L either */
    if (!isfinite(l))
        return UNREADABLE;
    s = sums_of(psi, l);
    p->c0 = s.c.c0;
    p->s1 = s.s1;
    p->s2 = s.s2;
    p->error = error_of(o, s.s1, s.s2, s.s3);
    return sort_of(sign, p->error);
}

/* The end whose time error is the smaller one, and the low one on a tie. */
static inline uint64_t nearer(const struct end *low, const struct end *high)
{
    return fabs(high->error) < fabs(low->error) ? high->place : low->place;
}

#endif
