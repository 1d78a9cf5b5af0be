/*
**  The old way: Newton's steps on the anomaly from a first guess. Nothing bounds where they go, and
**  where they have not settled after 50 the last one is the answer. No revolutions come off.
*/
#include "plain.h"
#include "orbit.h"

/* Where a step changes the anomaly by less than this share of it, the steps have settled. */
#define SETTLED 1e-14

static struct orbit begin(const double *eight)
{
    struct orbit o;

    o.mu = eight[0];
    o.tau = eight[7];
    o.r0 = sqrt(dot(eight + 1, eight + 1));
    o.sigma0 = dot(eight + 1, eight + 4);
    o.alpha = dot(eight + 4, eight + 4) - 2 * o.mu / o.r0;
    o.h = o.tau / o.r0;
    o.turned = 0;
    return o;
}

/* The sums at an anomaly. An L that has run away is no longer finite, and could not be reduced. */
static inline struct sums sums_at(const struct orbit *o, double psi)
{
    double l = o->alpha * (psi * psi);

    return sums_of(psi, isfinite(l) ? l : 0);
}

uint64_t newton_propagate(uint64_t mu, uint64_t x, uint64_t y, uint64_t z,
                          uint64_t vx, uint64_t vy, uint64_t vz, uint64_t tau,
                          uint64_t *answer, size_t n)
{
    uint64_t words[8] = { mu, x, y, z, vx, vy, vz, tau };
    double eight[8], figures[13], psi;
    struct orbit o;
    struct sums s;
    struct arc a;

    if (n != 15)
        return 60;
    memcpy(eight, words, sizeof eight);
    o = begin(eight);
    psi = o.h;
    answer[0] = 0;
    for (answer[1] = 0; ; answer[1]++) {
        double step;
        s = sums_at(&o, psi);
        step = error_of(&o, s.s1, s.s2, s.s3) / radius_of(&o, s.c.c0, s.s1, s.s2);
        if (answer[1] == 50 || fabs(step) <= SETTLED * fabs(psi))
            break;
        psi -= step;
    }
    a = arc_of(&o, &s);
    figures_of(eight, &a, psi, figures);
    memcpy(answer + 2, figures, sizeof figures);
    return 0;
}
