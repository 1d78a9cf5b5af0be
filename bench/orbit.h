/*
**  orbit.h: the figures of an orbit at an anomaly, inline for the search, the results and Newton's steps.
*/
#ifndef ORBIT_H
#define ORBIT_H

#include "series.h"

/* The initial figures, with the interval that is searched, its first step, and the anomaly of the revolutions that came off: 0 where none did. */
struct orbit {
    double mu, r0, sigma0, alpha, tau, h, turned;
};

struct sums {
    struct series c;
    double s1, s2, s3;
};

/* What the results and the partials share, at the found anomaly. */
struct arc {
    double r, r0_cube, r_cube, f, g, fd, gd;     /* fd and gd are f' and g' */
};

static inline double dot(const double *a, const double *b)
{
    return a[0] * b[0] + a[1] * b[1] + a[2] * b[2];
}

/* The anomaly's series and sums, from its L. */
static inline struct sums sums_of(double psi, double l)
{
    struct sums s;
    double square = psi * psi;

    s.c = series_of(l);
    s.s1 = psi * s.c.c1;
    s.s2 = square * s.c.c2;
    s.s3 = square * psi * s.c.c3;
    return s;
}

static inline double error_of(const struct orbit *o, double s1, double s2, double s3)
{
    return o->r0 * s1 + o->sigma0 * s2 + o->mu * s3 - o->tau;
}

static inline double radius_of(const struct orbit *o, double c0, double s1, double s2)
{
    return o->r0 * c0 + o->sigma0 * s1 + o->mu * s2;
}

static inline struct arc arc_of(const struct orbit *o, const struct sums *s)
{
    struct arc a;
    double r = radius_of(o, s->c.c0, s->s1, s->s2), r0 = o->r0;

    a.r = r;
    a.f = 1 - o->mu * s->s2 / r0;
    a.g = o->tau - o->mu * s->s3;
    a.fd = -(o->mu * s->s1 / (r * r0));
    a.gd = 1 - o->mu * s->s2 / r;
    a.r0_cube = r0 * r0 * r0;
    a.r_cube = r * r * r;
    return a;
}

/* Position, velocity, both accelerations and psi, in the answer's order. */
static inline void figures_of(const double *eight, const struct arc *a, double psi, double *figures)
{
    int i;

    for (i = 0; i < 3; i++) {
        double x = eight[1 + i], v = eight[4 + i];
        figures[i] = a->f * x + a->g * v;
        figures[3 + i] = a->fd * x + a->gd * v;
        figures[6 + i] = -eight[0] * figures[i] / a->r_cube;
        figures[9 + i] = -eight[0] * x / a->r0_cube;
    }
    figures[12] = psi;
}

#endif
