/* The search in cases worked out by hand, and the choice between two ends. */
#include "selftest.h"

#include "second/parts.h"

#include <math.h>

/* At rest without a pull, R is r0 psi - tau and r is r0. */
static void expect_at_rest(double x, double tau, uint64_t psi,
                           uint64_t points, const char *what)
{
    double e[8] = {0, 0, 0, 0, 0, 0, 0, 0};
    uint64_t a[15];

    e[1] = x;
    e[7] = tau;
    check(propagate(e, a) == 0 && a[1] == points && a[14] == psi, what);
    e[7] = -tau;
    check(propagate(e, a) == 0 && a[1] == points
              && a[14] == (psi | MINUS_ZERO), what);
}

/* Cases whose whole history follows from the rule by hand. */
static void test_search(void)
{
    double least = ldexp(1.0, -1074);
    double e[8] = {0, 1, 0, 0, 0, 0, 0, 0};

    /* H is 0: place 0 is a point, 2^-1022 is past, psi - R/r is exact. */
    expect_at_rest(1.0, 3 * least, 3, 3, "H at place 0");
    /* H is 2^-2, and 20 doublings bring it to tau. */
    expect_at_rest(1.0, ldexp(1.0, 18), sec_word(ldexp(1.0, 18)), 21,
                   "exact at k = 20");
    /* psi cubed underflows, so mu s3 is 0, and r0 s1 stays far below tau. */
    e[0] = ldexp(1.0, 954);
    e[7] = ldexp(1.0, -450);
    expect_refusal(e, 5, 41, "41 short points");
    e[7] = -e[7];
    expect_refusal(e, 5, 41, "41 short points, tau below zero");
    /* psi psi is infinite and alpha 0: L is NaN at the first point. */
    e[0] = 0;
    e[7] = ldexp(1.0, 532);
    expect_refusal(e, 6, 1, "L is NaN");
    /* L is 0, but psi cubed is infinite at the first point and mu is 0. */
    e[7] = ldexp(1.0, 520);
    expect_refusal(e, 6, 1, "mu s3 is 0 times infinity");
    /* psi cubed overflows at 2^342, after the short 2^332 to 2^341. */
    e[7] = ldexp(1.0, 352);
    expect_refusal(e, 6, 11, "R is NaN after ten short points");
    group("search by hand, refusals 5 and 6");
}

/* ---- the nearer end (T-01) ---- */

/* All in units of 2^-1074: tau is t, and R at place n is r0 n - t, exact up to
 * n = 2^51.  H is 0, so place 0 is the first point, and 2^52 the second, which
 * is past.  R/r and all proposals are rounded to whole units. */
static void expect_units(double r0, double t, uint64_t place, uint64_t points,
                         const char *what)
{
    expect_at_rest(r0, ldexp(t, -1074), place, points, what);
}

/* The short end is place 0, where R is -t. */
static void test_place_zero(void)
{
    /* Place 0, then 2^52 past; psi - R/r is 0 at every past 2^j, psi (1-R/tau)
     * has the other sign, and the third is 0 too.  So the halving places 2^51,
     * 2^50 to 1 are tried: 2 + 52 points.  R is -1 at 0 and 1 at 1. */
    expect_units(2, 1, 0, 54, "place 0 by a tie");
    /* The same way: R/r is 2^j - 1/3, rounded to 2^j.  R is -1 and 2. */
    expect_units(3, 1, 0, 54, "place 0 nearer");
    /* R is 3 2^52 - 2 at 2^52 and R/r 2^52 - 2/3, rounded to 2^52 - 1.  So
     * psi - R/r is place 1: past, and the pair is closed with 3 points.  R is
     * -2 and 1. */
    expect_units(3, 2, 1, 3, "place 1 past place 0");
    group("nearer end by hand, place 0");
}

static void test_other_places(void)
{
    double above = 3 + ldexp(1.0, -51);

    /* R is 2^53 - 5 at 2^52, and psi - R/r is 2: short, R is -1.  Halving:
     * 2^51 + 1 is past with R = 2^52 - 3, and psi - R/r is 3: past, R is 1. */
    expect_units(2, 5, 2, 5, "short end by a tie");
    /* R is 3 2^52 - 5 at 2^52, rounded to 3 2^52 - 4, and psi - R/r is 1:
     * short, R is -2.  Halving: 2^51 is past with R = 3 2^51 - 5, and psi - R/r
     * is 2: past, R is 1. */
    expect_units(3, 5, 2, 5, "past end nearer");
    /* psi - R/r is 1 from every past 2^j: it is tried once, short with R = -1.
     * The others do not fit, so the halving places 2^51 to 2 are tried: 3 + 51
     * points.  R is 2 at place 2. */
    expect_units(3, 4, 1, 54, "short end nearer");
    /* r0 = 3 and tau the double above 3.  H is that of psi = 1 + 2^-52, which
     * is past at k = 20: 3 psi is 3 + 3 2^-52, rounded to 3 + 2^-50, and R is
     * 2^-51.  psi - R/r is 1, where R is -2^-51. */
    expect_at_rest(3, above, ONE, 22, "short end by a tie, at plain scale");
    group("nearer end by hand, other places");
}

static int finite_cube(double psi)
{
    return sec_finite((psi * psi) * psi);
}

/* mu is the least double and r0 is 1: L is too small to count, and R is
 * psi - tau as long as psi cubed is finite, which is below tau = 2^342; then
 * mu s3 is infinite, and past.  Outward k = 0 to 20.  No proposal fits: an
 * infinite R gives none; from a short psi, psi - R/r is tau, and psi (2 -
 * psi/tau) is above 3/4 tau, where psi cubed is infinite.  So 52 halvings. */
static void test_infinite_past(void)
{
    double e[8] = {0, 1, 0, 0, 0, 0, 0, 0}, psi;
    uint64_t a[15];
    int sign;

    e[0] = ldexp(1.0, -1074);
    for (sign = 0; sign < 2; sign++) {
        e[7] = ldexp(sign ? -1.0 : 1.0, 342);
        check(propagate(e, a) == 0 && a[1] == 21 + 52, "infinite past end");
        psi = sec_double(a[14]);
        check(sec_negative(psi) == sign && finite_cube(psi)
                  && !finite_cube(sec_double(a[14] + 1)),
              "finite short end");
    }
    group("nearer end, the past one infinite");
}

/* Straight at the centre with no pull, r0 s1 and sigma0 s2 cancel but for
 * rounding, and where they overflow it is chance which of them is
 * infinite.  These were found by a search over many: position, velocity, tau.
 * What R is at the two ends is asked of the series; the rest is the rule. */
static const double both_infinite[7] = {
    0x1.037bb20f1afbbp+491,  0x1.d64693a2888fcp+482,  0x1.d0872067c9e0ap+485,
    -0x1.0622d704b7ff6p-241, -0x1.db156d710d8b5p-250, -0x1.d546eefdc2992p-247,
    0x1.9217fa2addf2dp+758,
};
static const double short_infinite[7] = {
    0x1.031fb37a86f8ap+448,  0x1.a38b2ba94bc8fp+443,  0x1.c4a12a1099b74p+437,
    -0x1.06ac0794c6383p-219, -0x1.a949d503366ddp-224, -0x1.cad3cdff114aap-230,
    0x1.e99dc690d411ap+693,
};

/* The way there, or with velocity and tau turned round the way back; answers
 * the word of the found psi. */
static uint64_t search_from(const double seven[7], double sign,
                            double e[8], struct start *s)
{
    struct found f;
    int i;

    e[0] = 0;
    for (i = 0; i < 3; i++) {
        e[1 + i] = seven[i];
        e[4 + i] = sign * seven[3 + i];
    }
    e[7] = sign * seven[6];
    check(sec_start(e, s) == 0, "infinite errors: start");
    f = sec_search(s);
    check(f.refusal == 0, "infinite errors: found");
    return sec_word(f.psi);
}

static double error_at(const struct start *s, uint64_t psi)
{
    return sec_figures(s, sec_double(psi)).error;
}

/* The first is answered, so the call shows the choice: at the past end r is
 * below zero.  With the second it is the other way round. */
static void test_infinite_short(void)
{
    double e[8], infinite = sec_double(INFINITE_WORD), sign;
    struct start s;
    uint64_t a[15], psi;

    for (sign = -1; sign <= 1; sign += 2) {
        psi = search_from(both_infinite, sign, e, &s);
        check(error_at(&s, psi) == -sign * infinite, "both: short end");
        check(error_at(&s, psi + 1) == sign * infinite, "both: past end");
        check(propagate(e, a) == 0 && a[14] == psi, "both: answered");
        psi = search_from(short_infinite, sign, e, &s);
        check(error_at(&s, psi - 1) == -sign * infinite, "one: short end");
        check(error_at(&s, psi) * sign > 0 && sec_finite(error_at(&s, psi)),
              "one: past end");
        check(propagate(e, a) == 7, "one: refused");
    }
    group("nearer end, the short one infinite");
}

void selftest_search(void)
{
    test_search();
    test_place_zero();
    test_other_places();
    test_infinite_past();
    test_infinite_short();
}
