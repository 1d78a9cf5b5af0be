/* Results and partials. */
#include "parts.h"
#include "second.h"

/* The figures that the results and the partials share. */
struct motion {
    const struct start *s;
    struct figures at;
    double psi;
    double r, r0;
    double f, g, fd, gd; /* fd and gd are f' and g' */
    double cube, cube0;  /* (r r) r and (r0 r0) r0 */
};

/* The nine A of the partials; a[1][2] is A12. */
struct factors {
    double a[4][4];
};

/* A refusal carries its points; all other figures are +0. */
static struct answer refused(unsigned refusal, uint64_t points)
{
    struct answer a;
    int i;

    a.refusal = refusal;
    a.points = points;
    for (i = 0; i < 3; i++) {
        a.position[i] = 0.0;
        a.velocity[i] = 0.0;
        a.end_acceleration[i] = 0.0;
        a.start_acceleration[i] = 0.0;
    }
    a.psi = 0.0;
    return a;
}

/* f, g, f' and g' at the found anomaly, g of the searched interval. */
static struct motion moved(const struct start *s, double psi)
{
    struct motion m;
    double mu = s->mu;

    m.s = s;
    m.psi = psi;
    m.at = sec_figures(s, psi);
    m.r = m.at.radius;
    m.r0 = s->r0;
    m.f = 1.0 - (mu * m.at.s2) / m.r0;
    m.g = s->searched - mu * m.at.s3;
    m.fd = sec_flip((mu * m.at.s1) / (m.r * m.r0));
    m.gd = 1.0 - (mu * m.at.s2) / m.r;
    m.cube = (m.r * m.r) * m.r;
    m.cube0 = (m.r0 * m.r0) * m.r0;
    return m;
}

/* Refusal 8, its first half: a divisor of the results is zero. */
static int zero_divisor(const struct motion *m)
{
    return sec_zero(m->r0) || sec_zero(m->r * m->r0) || sec_zero(m->r)
        || sec_zero(m->cube) || sec_zero(m->cube0);
}

/* Refusal 8, its first half for the partials' own divisors. */
static int zero_partial_divisor(const struct motion *m)
{
    return sec_zero(m->r * m->r0) || sec_zero(m->r0 * m->r0)
        || sec_zero(m->r * m->r) || sec_zero(m->cube * m->cube0)
        || sec_zero(m->r) || sec_zero(m->r0)
        || sec_zero(m->cube) || sec_zero(m->cube0);
}

/* Acceleration is ((-mu) x)/((r r) r), position and radius of its own time. */
static double acceleration(double mu, double component, double cube)
{
    return (sec_flip(mu) * component) / cube;
}

/* Position f x + g vx, velocity f' x + g' vx, and both accelerations. */
static struct answer results(const struct motion *m, uint64_t points)
{
    struct answer a = refused(0, points);
    int i;

    for (i = 0; i < 3; i++) {
        double x = m->s->position[i], v = m->s->velocity[i];

        a.position[i] = m->f * x + m->g * v;
        a.velocity[i] = m->fd * x + m->gd * v;
        a.end_acceleration[i] =
            acceleration(m->s->mu, a.position[i], m->cube);
        a.start_acceleration[i] = acceleration(m->s->mu, x, m->cube0);
    }
    a.psi = m->psi;
    return a;
}

static int all_finite(const double *run, int count)
{
    int i;

    for (i = 0; i < count; i++)
        if (!sec_finite(run[i]))
            return 0;
    return 1;
}

/* Refusal 8, its second half: the thirteen figures must be finite. */
static int finite_answer(const struct answer *a)
{
    return all_finite(a->position, 3) && all_finite(a->velocity, 3)
        && all_finite(a->end_acceleration, 3)
        && all_finite(a->start_acceleration, 3) && sec_finite(a->psi);
}

/* Refusal 7 when r is not above zero (a NaN is not), then 8, both halves. */
static struct answer allowed(const struct motion *m, uint64_t points)
{
    struct answer a;

    if (!(m->r > 0.0))
        return refused(7, points);
    a = results(m, points);
    if (zero_divisor(m) || !finite_answer(&a))
        return refused(8, points);
    return a;
}

struct answer sec_results(const struct start *s, double psi)
{
    struct motion m = moved(s, psi);

    return allowed(&m, 0);
}

/* U = s2 tau + (mu (c4 - 3 c5)) ((((psi psi) psi) psi) psi), where no
 * revolution came off. */
static double universal(const struct motion *m)
{
    double psi = m->psi;
    double fifth = (((psi * psi) * psi) * psi) * psi;

    return m->at.s2 * m->s->whole
        + (m->s->mu * (m->at.c.c4 - 3.0 * m->at.c.c5)) * fifth;
}

static int finite_whole(const struct whole *w)
{
    return sec_finite(w->psi) && sec_finite(w->s3) && sec_finite(w->s4)
        && sec_finite(w->s5) && sec_finite(w->u);
}

/* T-04: U for the partials, or 0 when refusal 8 applies to a figure of the
 * whole anomaly. */
static int find_u(const struct motion *m, double *u)
{
    struct whole w;

    if (!sec_unwound(m->s)) {
        *u = universal(m);
        return 1;
    }
    w = sec_wound(m->s, &m->at, m->psi);
    *u = w.u;
    return finite_whole(&w);
}

/* The nine A, each in the document's own order of operations. */
static struct factors nine(const struct motion *m, double u)
{
    struct factors n;
    double mu = m->s->mu;
    double s1 = m->at.s1, s2 = m->at.s2, c0 = m->at.c.c0;
    double r = m->r, r0 = m->r0, f = m->f, g = m->g, fd = m->fd, gd = m->gd;

    n.a[1][1] = ((c0 / (r * r0) + 1.0 / (r0 * r0)) + 1.0 / (r * r)) * fd
        - ((mu * mu) * u) / (m->cube * m->cube0);
    n.a[1][2] = (fd * s1 + (gd - 1.0) / r) / r;
    n.a[1][3] = ((gd - 1.0) * s1) / r - (mu * u) / m->cube;
    n.a[2][1] = sec_flip((fd * s1 + (f - 1.0) / r0) / r0);
    n.a[2][2] = sec_flip(fd * s2);
    n.a[2][3] = sec_flip((gd - 1.0) * s2);
    n.a[3][1] = ((f - 1.0) * s1) / r0 - (mu * u) / m->cube0;
    n.a[3][2] = (f - 1.0) * s2;
    n.a[3][3] = g * s2 - u;
    return n;
}

/* The bracket common to all partials: (A p q + B p u) + (C w q + D w u), with
 * A at [row][column] and the other three after it, to the right and below. */
static double bracket(const struct factors *n, int row, int column,
                      double p, double w, double q, double u)
{
    double a = n->a[row][column], b = n->a[row][column + 1];
    double c = n->a[row + 1][column], d = n->a[row + 1][column + 1];

    return (a * p * q + b * p * u) + (c * w * q + d * w * u);
}

/* The four partials of one pair of components, put in their four blocks:
 * rows position then velocity, columns likewise. */
static void pair(const struct motion *m, const struct answer *a,
                 const struct factors *n, int i, int j, double *run)
{
    double p = a->position[i], w = a->velocity[i];
    double q = m->s->position[j], u = m->s->velocity[j];
    double like = i == j ? 1.0 : 0.0;

    run[6 * i + j] = m->f * like + bracket(n, 2, 1, p, w, q, u);
    run[6 * i + j + 3] = m->g * like + bracket(n, 2, 2, p, w, q, u);
    run[6 * (i + 3) + j] = m->fd * like - bracket(n, 1, 1, p, w, q, u);
    run[6 * (i + 3) + j + 3] = m->gd * like - bracket(n, 1, 2, p, w, q, u);
}

/* The 36 partials row by row, or 0 when refusal 8 applies to them. */
static int partials(const struct motion *m, const struct answer *a,
                    double run[36])
{
    struct factors n;
    double u;
    int i, j;

    if (zero_partial_divisor(m) || !find_u(m, &u))
        return 0;
    n = nine(m, u);
    for (i = 0; i < 3; i++)
        for (j = 0; j < 3; j++)
            pair(m, a, &n, i, j, run);
    return all_finite(run, 36);
}

/* Refusals 31 to 38, 3 and 4, then 5 and 6 of the search, 7 and 8 of the
 * results, 8 of the partials; lent memory is touched by none of them. */
struct answer sec_propagate(const double eight[8], double *lent)
{
    struct start s;
    struct found found;
    struct motion m;
    struct answer a;
    double run[36];
    unsigned refusal = sec_start(eight, &s);
    int i;

    if (refusal != 0)
        return refused(refusal, 0);
    found = sec_search(&s);
    if (found.refusal != 0)
        return refused(found.refusal, found.points);
    m = moved(&s, found.psi);
    a = allowed(&m, found.points);
    if (a.refusal != 0 || lent == NULL)
        return a;
    if (!partials(&m, &a, run))
        return refused(8, found.points);
    for (i = 0; i < 36; i++)
        lent[i] = run[i];
    return a;
}

void sec_put(const struct answer *a, uint64_t words[15])
{
    int i;

    words[0] = a->refusal;
    words[1] = a->points;
    for (i = 0; i < 3; i++) {
        words[2 + i] = sec_word(a->position[i]);
        words[5 + i] = sec_word(a->velocity[i]);
        words[8 + i] = sec_word(a->end_acceleration[i]);
        words[11 + i] = sec_word(a->start_acceleration[i]);
    }
    words[14] = sec_word(a->psi);
}

static void gather(uint64_t mu, uint64_t x, uint64_t y, uint64_t z,
                   uint64_t vx, uint64_t vy, uint64_t vz, uint64_t tau,
                   double eight[8])
{
    eight[0] = sec_double(mu);
    eight[1] = sec_double(x);
    eight[2] = sec_double(y);
    eight[3] = sec_double(z);
    eight[4] = sec_double(vx);
    eight[5] = sec_double(vy);
    eight[6] = sec_double(vz);
    eight[7] = sec_double(tau);
}

uint64_t second_propagate(uint64_t mu, uint64_t x, uint64_t y, uint64_t z,
                          uint64_t vx, uint64_t vy, uint64_t vz, uint64_t tau,
                          uint64_t *answer, size_t n)
{
    struct answer a;
    double eight[8];

    if (n != 15)
        return WRONG_ANSWER_RUN;
    gather(mu, x, y, z, vx, vy, vz, tau, eight);
    a = sec_propagate(eight, NULL);
    sec_put(&a, answer);
    return a.refusal;
}

/* Refusal 1 comes first: the lent run must be exactly 36 long. */
uint64_t second_partials(uint64_t mu, uint64_t x, uint64_t y, uint64_t z,
                         uint64_t vx, uint64_t vy, uint64_t vz, uint64_t tau,
                         uint64_t *answer, size_t n,
                         uint64_t *run, size_t k)
{
    struct answer a;
    double eight[8], figures[36];
    int i;

    if (n != 15)
        return WRONG_ANSWER_RUN;
    gather(mu, x, y, z, vx, vy, vz, tau, eight);
    a = k == 36 ? sec_propagate(eight, figures) : refused(1, 0);
    if (a.refusal == 0)
        for (i = 0; i < 36; i++)
            run[i] = sec_word(figures[i]);
    sec_put(&a, answer);
    return a.refusal;
}
