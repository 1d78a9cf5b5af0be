/*
**  The call in plain C: refusals, results and partials.
**
**  Refusal 8 has two halves, zero divisors and figures that are not finite. Each zero divisor leaves an
**  infinity or a NaN in a figure of the answer or of the partials, so the second half is tested alone. The
**  same holds of the whole anomaly, its s3, s4 and s5, and U: what is not finite there leaves U so, then A11.
*/
#include "plain.h"
#include "plain_parts.h"
#include "plain_start.h"

/* U of an anomaly and the whole interval. Where revolutions came off, the anomaly is made whole too; s1 and s2 are the same. */
static inline double u_of(const struct orbit *o, const struct sums *s, double psi, double tau)
{
    double square, s3, s4, s5;

    if (o->turned == 0)
        return s->s2 * tau + o->mu * (s->c.c4 - 3 * s->c.c5) * (psi * psi * psi * psi * psi);
    psi += o->turned;
    square = psi * psi;
    s3 = (s->s1 - psi) / o->alpha;
    s4 = (s->s2 - square / 2) / o->alpha;
    s5 = (s3 - square * psi / 6) / o->alpha;
    return s->s2 * tau + o->mu * (psi * s4 - 3 * s5);
}

/* The sum of four terms that all partials have, from its A times p or w. */
static inline double sum_of(double ap, double bp, double cw, double dw, double q, double u)
{
    return (ap * q + bp * u) + (cw * q + dw * u);
}

/* The 36, row by row: position then velocity, columns likewise. */
static void partials_of(const struct orbit *o, const double *eight, const struct sums *s, const struct arc *a,
                        const double *figures, double *run)
{
    double mu = o->mu, r0 = o->r0, r = a->r, f = a->f, g = a->g, fd = a->fd, gd = a->gd, s1 = s->s1, s2 = s->s2;
    double u5 = u_of(o, s, figures[12], eight[7]);
    double a11 = (s->c.c0 / (r * r0) + 1 / (r0 * r0) + 1 / (r * r)) * fd - mu * mu * u5 / (a->r_cube * a->r0_cube);
    double a12 = (fd * s1 + (gd - 1) / r) / r;
    double a13 = (gd - 1) * s1 / r - mu * u5 / a->r_cube;
    double a21 = -((fd * s1 + (f - 1) / r0) / r0);
    double a22 = -(fd * s2);
    double a23 = -((gd - 1) * s2);
    double a31 = (f - 1) * s1 / r0 - mu * u5 / a->r0_cube;
    double a32 = (f - 1) * s2;
    double a33 = g * s2 - u5;
    int i, j;

    for (i = 0; i < 3; i++) {
        double p = figures[i], w = figures[3 + i], *row = run + 6 * i;
        for (j = 0; j < 3; j++) {
            double q = eight[1 + j], u = eight[4 + j], like = i == j;
            row[j] = f * like + sum_of(a21 * p, a22 * p, a31 * w, a32 * w, q, u);
            row[j + 3] = g * like + sum_of(a22 * p, a23 * p, a32 * w, a33 * w, q, u);
            row[j + 18] = fd * like - sum_of(a11 * p, a12 * p, a21 * w, a22 * w, q, u);
            row[j + 21] = gd * like - sum_of(a12 * p, a13 * p, a22 * w, a23 * w, q, u);
        }
    }
}

/* A refusal carries its points, and +0 for every figure. */
static uint64_t refused(uint64_t number, uint64_t points, uint64_t *answer)
{
    memset(answer, 0, 15 * sizeof *answer);
    answer[0] = number;
    answer[1] = points;
    return number;
}

/* 31 to 38 by the first of the eight that is not finite, where one is. */
static uint64_t bad_figure(const double *eight)
{
    uint64_t number = 31;

    while (isfinite(*eight))
        eight++, number++;
    return number;
}

/* The call from refusal 31 on; no partials are asked for where the run is null, and no turns come off where turns is 0. */
static inline uint64_t call(const uint64_t *words, int turns, uint64_t *answer, uint64_t *run)
{
    double eight[8], figures[13], partials[36];
    struct orbit o;
    struct found found;
    struct sums s;
    struct arc a;
    uint64_t number;
    int i;

    memcpy(eight, words, sizeof eight);
    if (!all_finite(eight, 8))
        return refused(bad_figure(eight), 0, answer);
    number = begin(eight, turns, &o);
    if (number != 0)
        return refused(number, 0, answer);
    found = plain_search(&o);
    if (found.refusal != 0)
        return refused(found.refusal, found.points, answer);
    s = sums_of(found.psi, o.alpha * (found.psi * found.psi));
    a = arc_of(&o, &s);
    if (!(a.r > 0))
        return refused(7, found.points, answer);
    figures_of(eight, &a, found.psi, figures);
    if (!all_finite(figures, 13))
        return refused(8, found.points, answer);
    if (run != NULL) {
        partials_of(&o, eight, &s, &a, figures, partials);
        if (!all_finite(partials, 36))
            return refused(8, found.points, answer);
        memcpy(run, partials, sizeof partials);
    }
    answer[0] = 0;
    answer[1] = found.points;
    for (i = 0; i < 13; i++)
        answer[2 + i] = word_of(figures[i]);
    return 0;
}

uint64_t plain_propagate(uint64_t mu, uint64_t x, uint64_t y, uint64_t z,
                         uint64_t vx, uint64_t vy, uint64_t vz, uint64_t tau,
                         uint64_t *answer, size_t n)
{
    uint64_t words[8] = { mu, x, y, z, vx, vy, vz, tau };

    if (n != 15)
        return 60;
    return call(words, 1, answer, NULL);
}

uint64_t plain_partials(uint64_t mu, uint64_t x, uint64_t y, uint64_t z,
                        uint64_t vx, uint64_t vy, uint64_t vz, uint64_t tau,
                        uint64_t *answer, size_t n, uint64_t *run, size_t k)
{
    uint64_t words[8] = { mu, x, y, z, vx, vy, vz, tau };

    if (n != 15)
        return 60;
    if (k != 36)
        return refused(1, 0, answer);
    return call(words, 1, answer, run);
}

uint64_t whole_propagate(uint64_t mu, uint64_t x, uint64_t y, uint64_t z,
                         uint64_t vx, uint64_t vy, uint64_t vz, uint64_t tau,
                         uint64_t *answer, size_t n)
{
    uint64_t words[8] = { mu, x, y, z, vx, vy, vz, tau };

    if (n != 15)
        return 60;
    return call(words, 0, answer, NULL);
}
