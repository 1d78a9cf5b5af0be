/* Whole revolutions (T-04): cases by hand, and orbits that come round. */
#include "selftest.h"

#include "second/parts.h"

#include <math.h>
#include <string.h>

static const double pi = 0x1.921fb54442d18p+1;

/* ---- floor ---- */

static void test_floor(void)
{
    static const double pairs[][2] = {
        {0.5, 0}, {-0.5, -1}, {1, 1}, {-1, -1}, {1.5, 1}, {-1.5, -2},
        {0x1p-1074, 0}, {-0x1p-1074, -1}, {0x1p-60, 0}, {-0x1p-60, -1},
        {1 - 0x1p-53, 0}, {-1 + 0x1p-53, -1}, {-1 - 0x1p-52, -2},
        {0x1p40, 0x1p40}, {0x1p40 - 0x1p-13, 0x1p40 - 1},
        {0x1p40 + 0x1p-12, 0x1p40}, {0x1p40 + 1, 0x1p40 + 1},
        {-0x1p40, -0x1p40}, {-0x1p40 + 0x1p-13, -0x1p40},
        {-0x1p40 - 0x1p-12, -0x1p40 - 1}, {-0x1p40 - 1, -0x1p40 - 1},
        {0x1p52 - 0.5, 0x1p52 - 1}, {-0x1p52 + 0.5, -0x1p52},
        {0x1p52 + 1, 0x1p52 + 1}, {-0x1p1000, -0x1p1000},
    };
    double infinite = sec_double(INFINITE_WORD), whole, part;
    size_t i;

    for (i = 0; i < sizeof pairs / sizeof pairs[0]; i++)
        check(sec_floor(pairs[i][0]) == pairs[i][1], "floor by hand");
    for (i = 0; i < 2; i++)
        check(sec_zero(sec_floor(sec_double(i * MINUS_ZERO))), "floor of 0");
    check(sec_floor(infinite) == infinite && sec_floor(-infinite) == -infinite
              && sec_nan(sec_floor(sec_double(NAN_WORD))), "no floor");
    for (i = 0; i < 20000; i++) { /* 40 bits and 12 behind the point: exact */
        whole = (double)(chance() >> 24) * (i % 2 ? 1 : -1);
        part = (double)(chance() >> 52) / 4096;
        check(sec_floor(whole + part) == whole, "floor of a sum");
    }
    group("floor");
}

/* ---- the period ---- */

/* A circle of radius r in the plane of x and y. */
static void circle(double e[8], double mu, double r, double tau)
{
    static const double zero[8];

    memcpy(e, zero, sizeof zero);
    e[0] = mu;
    e[1] = r;
    e[5] = sqrt(mu / r);
    e[7] = tau;
}

static double period_of(const double e[8])
{
    struct start s;

    check(sec_start(e, &s) == 0 && s.alpha < 0, "no period");
    return sec_period(s.mu, s.alpha);
}

static void test_period(void)
{
    double e[8];
    struct start s;

    circle(e, 1, 1, 1);
    check(period_of(e) == 2 * pi, "unit circle");
    circle(e, 4, 1, 1);
    check(period_of(e) == pi, "fourfold pull, half the period");
    circle(e, 1, 4, 1);
    check(period_of(e) == 16 * pi, "fourfold radius, eightfold period");
    check(sec_start(e, &s) == 0 && sec_turn(s.alpha) == 4 * pi,
          "twofold anomaly of a turn");
    circle(e, 398600.4418, 42164.1696, 1); /* a geostationary satellite */
    check(fabs(period_of(e) - 86164.0905) < 0.01, "sidereal day");
    circle(e, 132712440018.0, 149597870.7, 1); /* the Earth */
    check(fabs(period_of(e) / 86400 - 365.2568983) < 0.001, "year");
    /* the root of 2 is rounded, its double is exact; so P is pi over it */
    check(sec_period(1, -2) == pi / 0x1.6a09e667f3bcdp+0, "root of 2");
    check(sec_turn(-2) == 2 * (pi / 0x1.6a09e667f3bcdp+0), "root of 2, Q");
    /* 4 pi is 12.57, in least units 13 */
    check(sec_period(ldexp(1.0, -1073), -1) == ldexp(13.0, -1074),
          "2 pi before mu");
    group("periods");
}

/* ---- what comes off, by hand ---- */

/* The unit circle, with tau as so many periods; 2 pi has three zero bits at
 * its end, so up to seven halves of it are exact. */
static void expect_off(double tau, double n, double searched, const char *what)
{
    double e[8];
    struct start s;
    uint64_t a[15];

    circle(e, 1, 1, tau);
    check(sec_start(e, &s) == 0, what);
    check(s.revolutions == n && s.whole == tau, what);
    check(sec_word(s.searched) == sec_word(searched), what);
    check(s.h == fabs(searched) * 0x1p-20, what);
    check(propagate(e, a) == 0, what);
    check(sec_negative(sec_double(a[14])) == sec_negative(searched), what);
    check(fabs(sec_double(a[14]) - searched) < 1e-7 * fabs(searched) + 1e-300,
          what);
    check((a[1] == 0) == (searched == 0), what);
}

/* tau/P halfway between whole numbers: the sum is whole, and so many come off
 * that what is left is minus half a period, but for none at -1/2. */
static void test_halfway(void)
{
    double p = 2 * pi, half = p / 2;

    expect_off(half, 1, -half, "1/2");
    expect_off(-half, 0, -half, "-1/2");
    expect_off(3 * half, 2, -half, "3/2");
    expect_off(-3 * half, -1, -half, "-3/2");
    expect_off(5 * half, 3, -half, "5/2");
    expect_off(-5 * half, -2, -half, "-5/2");
    expect_off(7 * half, 4, -half, "7/2");
    expect_off(-7 * half, -3, -half, "-7/2");
    /* 1/2 - 2^-54 is the quotient; the sum is halfway to 1, and 1 is even */
    expect_off(nextafter(half, 0), 1, nextafter(half, 0) - p, "below 1/2");
    expect_off(nextafter(half, 9), 1, nextafter(half, 9) - p, "above 1/2");
    expect_off(nextafter(-half, 0), 0, nextafter(-half, 0), "above -1/2");
    expect_off(nextafter(-half, -9), -1, nextafter(-half, -9) + p,
               "below -1/2");
    expect_off(nextafter(3 * half, 0), 1, nextafter(3 * half, 0) - p,
               "below 3/2");
    expect_off(nextafter(-3 * half, -99), -2,
               nextafter(-3 * half, -99) + 2 * p, "below -3/2");
    group("halfway between whole numbers");
}

/* tau near none, and near whole numbers: the sign of the rest is its own. */
static void test_rest_sign(void)
{
    double p = 2 * pi;

    expect_off(0.25, 0, 0.25, "a part of a turn");
    expect_off(-0.25, 0, -0.25, "a part of a turn, back");
    expect_off(0x1p-1074, 0, 0x1p-1074, "the least interval");
    expect_off(-0x1p-1074, 0, -0x1p-1074, "the least interval, back");
    expect_off(p - 0.25, 1, (p - 0.25) - p, "a turn but a part");
    expect_off(p + 0.25, 1, (p + 0.25) - p, "a turn and a part");
    expect_off(-p + 0.25, -1, (-p + 0.25) + p, "a turn but a part, back");
    expect_off(-p - 0.25, -1, (-p - 0.25) + p, "a turn and a part, back");
    expect_off(1024 * p + 1, 1024, (1024 * p + 1) - 1024 * p, "1024 turns");
    group("what is left has a sign of its own");
}

/* Within 2^40 both ends are in; one more is out, and all is searched.  Powers
 * of two times P are exact. */
static void test_most(void)
{
    double p = 2 * pi, most = 0x1p40 * p, out[2], in[2], e[8];
    struct start s;
    int i;

    expect_off(most, 0x1p40, 0, "2^40 turns");
    expect_off(-most, -0x1p40, 0, "2^40 turns back");
    in[0] = most + 0.49 * p, in[1] = -most - 0.49 * p;
    out[0] = most + 0.51 * p, out[1] = -most - 0.51 * p;
    for (i = 0; i < 2; i++) {
        expect_off(in[i], i ? -0x1p40 : 0x1p40,
                   i ? in[i] + most : in[i] - most, "almost 2^40 and a half");
        circle(e, 1, 1, out[i]);
        check(sec_start(e, &s) == 0 && s.revolutions == 0
                  && s.searched == out[i], "beyond 2^40");
        circle(e, 1, 1, i ? -most - p : most + p);
        check(sec_start(e, &s) == 0 && s.revolutions == 0
                  && s.searched == e[7], "2^40 and 1");
    }
    circle(e, 1, 1, 0x1p1000);
    check(sec_start(e, &s) == 0 && s.revolutions == 0
              && s.searched == 0x1p1000, "far beyond 2^40");
    group("2^40 revolutions");
}

/* ---- nothing left ---- */

/* Whole turns of the unit circle: tau is n P, rounded, and the rule takes off
 * the same rounded product.  The start comes back, with no search.  What is
 * left is +0, and so is g: f y + g vy is +0 for a y of -0. */
static void test_nothing_left(void)
{
    double e[8], y[2] = {0.0, sec_double(MINUS_ZERO)};
    uint64_t a[15], b[15], run[36];
    int n, i;

    for (n = -1000; n <= 1000; n++)
        for (i = 0; i < 2 && n != 0; i++) {
            circle(e, 1, 1, n * (2 * pi));
            e[2] = y[i];
            check(propagate(e, a) == 0 && a[1] == 0 && a[14] == 0,
                  "nothing left: no search");
            check(a[2] == ONE && a[3] == 0 && a[6] == ONE,
                  "nothing left: the start");
            check(partials(e, b, run, 36) == 0
                      && memcmp(a, b, sizeof a) == 0, "nothing left: partials");
        }
    group("whole turns, nothing left");
}

/* ---- 01 stands ---- */

enum period { ZERO, INFINITE, NO_NUMBER };

static int is_such(double period, enum period such)
{
    switch (such) {
    case ZERO:
        return sec_zero(period);
    case INFINITE:
        return !sec_finite(period) && !sec_nan(period);
    default:
        return sec_nan(period);
    }
}

/* At rest on an axis, alpha is -(2 mu)/r0.  Powers of two, so all is exact but
 * for pi; the divisor of P is 2^(3/2) times mu over r0, to the power 3/2. */
static void test_no_period(void)
{
    static const struct {
        int mu, r0;
        enum period such;
        const char *what;
    } cases[] = {
        {-221, 500, INFINITE, "the divisor of P vanishes"},
        {1022, 500, INFINITE, "2 pi mu is infinite"},
        {400, -301, ZERO, "the divisor of P is infinite"},
        {1022, 299, NO_NUMBER, "both are infinite"},
    };
    double e[8] = {0, 0, 0, 0, 0, 0, 0, 0};
    struct start s;
    size_t i;
    int sign;

    for (i = 0; i < sizeof cases / sizeof cases[0]; i++)
        for (sign = -1; sign <= 1; sign += 2) {
            e[0] = ldexp(1.0, cases[i].mu);
            e[1] = ldexp(1.0, cases[i].r0);
            e[7] = ldexp(sign, 600);
            check(sec_start(e, &s) == 0, cases[i].what);
            check(is_such(sec_period(s.mu, s.alpha), cases[i].such),
                  cases[i].what);
            check(s.revolutions == 0 && s.searched == e[7], cases[i].what);
        }
    group("no period that can come off");
}

/* Faster than escape there is no period: a straight line, but for a little.
 * That of an ellipse with an alpha of this size would be 2 pi mu. */
static void test_open(void)
{
    double e[8] = {1e-9, 1, 0, 0, 0, 1, 0, 0};
    uint64_t a[15];
    double tau;

    for (tau = -1000; tau <= 1000; tau += 125) {
        e[7] = tau;
        check(propagate(e, a) == 0
                  && fabs(sec_double(a[2]) - 1) < 1e-4
                  && fabs(sec_double(a[3]) - tau) < 1e-4, "a straight line");
    }
    group("nothing comes off an open orbit");
}

/* ---- mu and alpha of no orbit ---- */

static struct start unwind(double mu, double alpha, double whole)
{
    struct start s;

    s.mu = mu;
    s.alpha = alpha;
    s.whole = whole;
    sec_unwind(&s);
    return s;
}

/* Rules that no input reaches.  With an alpha of -1, P is 2 pi mu. */
static void test_no_orbit(void)
{
    double least = ldexp(1.0, -1074), most = ldexp(2 - ldexp(1.0, -52), 1023);
    double infinite = sec_double(INFINITE_WORD), zero = 0;
    struct start s = unwind(least, -1, 7 * least); /* P is 6 least units */

    check(s.revolutions == 1 && s.searched == least, "subnormal period");
    s = unwind(least, -1, -10 * least);
    check(s.revolutions == -2 && s.searched == 2 * least, "and back");
    /* DBL_MAX is some 2.55 periods: three of them are infinite */
    s = unwind(ldexp(1.0, 1020), -1, most);
    check(s.revolutions == 3 && s.searched == -infinite, "n P infinite");
    s = unwind(ldexp(1.0, 1020), -1, -most);
    check(s.revolutions == -3 && s.searched == infinite, "and back");
    s = unwind(-1, -1, 100);
    check(s.revolutions == 0 && s.searched == 100, "mu below zero");
    s = unwind(zero, -1, 100);
    check(s.revolutions == 0 && s.searched == 100, "mu zero");
    s = unwind(1, 1, 100);
    check(s.revolutions == 0 && s.searched == 100, "alpha above zero");
    s = unwind(1, -zero, 100);
    check(s.revolutions == 0 && s.searched == 100, "alpha zero");
    s.alpha = -1;
    s.revolutions = 11;
    check(sec_zero(sec_whole_psi(&s, -(11 * (2 * pi)))), "11 Q, rounded first");
    group("mu and alpha of no orbit");
}

void selftest_revolutions(void)
{
    test_floor();
    test_period();
    test_halfway();
    test_rest_sign();
    test_most();
    test_nothing_left();
    test_no_period();
    test_open();
    test_no_orbit();
}
