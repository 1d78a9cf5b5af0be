/* Initial figures and series. */
#include "parts.h"

/* Three products summed from the left. */
static double dot(const double a[3], const double b[3])
{
    return a[0] * b[0] + a[1] * b[1] + a[2] * b[2];
}

/* T-05: 31 to 38, by the first of mu, x, y, z, vx, vy, vz and tau that is NaN
 * or infinite; 0 when all are finite. */
static unsigned first_bad(const double eight[8])
{
    unsigned i;

    for (i = 0; i < 8; i++)
        if (!sec_finite(eight[i]))
            return 31 + i;
    return 0;
}

static void take(const double eight[8], struct start *s)
{
    int i;

    s->mu = eight[0];
    for (i = 0; i < 3; i++) {
        s->position[i] = eight[1 + i];
        s->velocity[i] = eight[4 + i];
    }
    s->whole = eight[7];
}

/* The initial figures r0, sigma0, v squared and alpha, with refusal 3 when
 * the sum of squares is zero, and 4 when that sum, sigma0, v squared,
 * (2 mu)/r0 or alpha is not finite. */
static unsigned initial(struct start *s)
{
    double sum = dot(s->position, s->position);
    double square, pull;

    if (sec_zero(sum))
        return 3;
    if (!sec_finite(sum))
        return 4;
    (void)sec_root(sum, &s->r0);
    s->sigma0 = dot(s->position, s->velocity);
    square = dot(s->velocity, s->velocity);
    pull = (2.0 * s->mu) / s->r0;
    s->alpha = square - pull;
    if (!sec_finite(s->sigma0) || !sec_finite(square) || !sec_finite(pull)
        || !sec_finite(s->alpha))
        return 4;
    return 0;
}

/* H, of what is searched, with refusal 4 when it is not finite. */
static unsigned first_step(struct start *s)
{
    s->h = (sec_size(s->searched) / s->r0) * (1.0 / 1048576.0);
    return sec_finite(s->h) ? 0 : 4;
}

unsigned sec_start(const double eight[8], struct start *s)
{
    unsigned refusal = first_bad(eight);

    if (refusal != 0)
        return refusal;
    take(eight, s);
    refusal = initial(s);
    if (refusal != 0)
        return refusal;
    sec_unwind(s);
    return first_step(s);
}

/* L is alpha times the bracketed square of psi. */
double sec_length(const struct start *s, double psi)
{
    return s->alpha * (psi * psi);
}

/* p begins as 1 and becomes 1 + (L p)/d for each d from the last to the
 * first. */
static double fold(double length, const double divisors[8])
{
    double p = 1.0;
    int i;

    for (i = 7; i >= 0; i--)
        p = 1.0 + (length * p) / divisors[i];
    return p;
}

/* c0 to c5 for a length of at most 1 in size. */
static struct coefficients small(double length)
{
    static const double four[8] = {30, 56, 90, 132, 182, 240, 306, 380};
    static const double five[8] = {42, 72, 110, 156, 210, 272, 342, 420};
    struct coefficients c;

    c.c4 = fold(length, four) / 24.0;
    c.c5 = fold(length, five) / 120.0;
    c.c3 = 1.0 / 6.0 + length * c.c5;
    c.c2 = 0.5 + length * c.c4;
    c.c1 = 1.0 + length * c.c3;
    c.c0 = 1.0 + length * c.c2;
    return c;
}

/* c1 becomes c0 c1 with the old c0, and c0 becomes 2 (c0 c0) - 1. */
static void twice(struct coefficients *c)
{
    c->c1 = c->c0 * c->c1;
    c->c0 = 2.0 * (c->c0 * c->c0) - 1.0;
}

/* After any doubling the upper four come from quotients by the first L. */
static void upper(struct coefficients *c, double first)
{
    c->c2 = (c->c0 - 1.0) / first;
    c->c3 = (c->c1 - 1.0) / first;
    c->c4 = (c->c2 - 0.5) / first;
    c->c5 = (c->c3 - 1.0 / 6.0) / first;
}

/* While |L| is above 1 it is divided by 4, m times; the series of the reduced
 * L are then doubled m times. */
struct coefficients sec_coefficients(double length)
{
    struct coefficients c;
    double reduced = length;
    int m = 0, i;

    while (sec_size(reduced) > 1.0) {
        reduced = reduced / 4.0;
        m++;
    }
    c = small(reduced);
    for (i = 0; i < m; i++)
        twice(&c);
    if (m > 0)
        upper(&c, length);
    return c;
}

/* s1, s2, s3, the time error R and the radius r at an anomaly. */
struct figures sec_figures(const struct start *s, double psi)
{
    struct figures g;

    g.c = sec_coefficients(sec_length(s, psi));
    g.s1 = psi * g.c.c1;
    g.s2 = (psi * psi) * g.c.c2;
    g.s3 = ((psi * psi) * psi) * g.c.c3;
    g.error =
        ((s->r0 * g.s1 + s->sigma0 * g.s2) + s->mu * g.s3) - s->searched;
    g.radius = (s->r0 * g.c.c0 + s->sigma0 * g.s1) + s->mu * g.s2;
    return g;
}
