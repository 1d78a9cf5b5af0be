/* Whole revolutions, which come off the interval before the search (T-04). */
#include "parts.h"

#define PI_WORD 0x400921FB54442D18u
#define MOST_REVOLUTIONS 1099511627776.0 /* 2^40, either sign */
#define ALL_WHOLE 4503599627370496.0     /* 2^52: from here no fractions */

static double two_pi(void)
{
    return 2.0 * sec_double(PI_WORD);
}

/* The greatest whole number that is not above the value.  The value itself is
 * the answer where it is too large for a fraction, infinite or NaN. */
double sec_floor(double value)
{
    double cut;

    if (!(sec_size(value) < ALL_WHOLE))
        return value;
    cut = (double)(int64_t)value;
    return cut > value ? cut - 1.0 : cut;
}

/* The root of -alpha, for an alpha below zero. */
static double root_of_minus(double alpha)
{
    double root;

    (void)sec_root(sec_flip(alpha), &root);
    return root;
}

/* P = ((2 pi) mu)/((-alpha) root(-alpha)). */
double sec_period(double mu, double alpha)
{
    return (two_pi() * mu) / (sec_flip(alpha) * root_of_minus(alpha));
}

/* Q = (2 pi)/root(-alpha). */
double sec_turn(double alpha)
{
    return two_pi() / root_of_minus(alpha);
}

/* A period can be taken off where it is finite and above zero. */
static int can_come_off(double period)
{
    return sec_finite(period) && period > 0.0;
}

/* n, the floor of the rounded sum tau/P + 1/2, of the whole interval; 0 where
 * it is out of bounds. */
static double count(double whole, double period)
{
    double n = sec_floor(whole / period + 0.5);

    return n >= -MOST_REVOLUTIONS && n <= MOST_REVOLUTIONS ? n : 0.0;
}

/* The revolutions that come off: none but of an ellipse, mu above zero. */
static double revolutions(const struct start *s)
{
    double period;

    if (!(s->alpha < 0.0) || !(s->mu > 0.0))
        return 0.0;
    period = sec_period(s->mu, s->alpha);
    return can_come_off(period) ? count(s->whole, period) : 0.0;
}

void sec_unwind(struct start *s)
{
    s->revolutions = revolutions(s);
    s->searched = s->whole;
    if (sec_unwound(s))
        s->searched =
            s->whole - s->revolutions * sec_period(s->mu, s->alpha);
}

int sec_unwound(const struct start *s)
{
    return !sec_zero(s->revolutions);
}

/* psi + n Q; where the searched interval is zero psi is +0, and this is n Q. */
double sec_whole_psi(const struct start *s, double psi)
{
    return psi + s->revolutions * sec_turn(s->alpha);
}

/* s3, s4 and s5 of the whole anomaly, with s1 and s2 of the psi found, and
 * U = s2 tau + mu (psi s4 - 3 s5), psi and tau whole. */
struct whole sec_wound(const struct start *s, const struct figures *at,
                       double psi)
{
    struct whole w;
    double all = sec_whole_psi(s, psi);

    w.psi = all;
    w.s3 = (at->s1 - all) / s->alpha;
    w.s4 = (at->s2 - (all * all) / 2.0) / s->alpha;
    w.s5 = (w.s3 - ((all * all) * all) / 6.0) / s->alpha;
    w.u = at->s2 * s->whole + s->mu * (all * w.s4 - 3.0 * w.s5);
    return w;
}
