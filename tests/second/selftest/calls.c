/* The propagator in cases worked out by hand, with P6 to P12. */
#include "selftest.h"

#include "second/parts.h"
#include "second/second.h"

#include <math.h>
#include <string.h>

static void test_rest(double tau, const char *what)
{
    double e[8] = {0, 1, 0, 0, 0, 0, 0, 0};
    uint64_t a[15];
    int i;

    e[7] = tau;
    check(propagate(e, a) == 0 && a[0] == 0 && a[1] == 21, what);
    check(a[14] == sec_word(tau), what);
    check(a[2] == ONE && a[3] == 0 && a[4] == 0, what);
    for (i = 8; i < 14; i++)
        check(a[i] == MINUS_ZERO, what);
}

static void test_marked(void)
{
    double e[8] = {0, 0, 0, 0, 0, 0, 0, 0};

    expect_refusal(e, 3, 0, "P6");
    e[1] = sec_double(NAN_WORD);
    expect_refusal(e, 32, 0, "P7");
    e[1] = ldexp(1.0, -600);
    expect_refusal(e, 3, 0, "P8");
    e[1] = ldexp(1.0, 600);
    expect_refusal(e, 4, 0, "P9");
    test_rest(1.0, "P10");
    test_rest(-1.0, "P11");
    e[1] = 1.0;
    e[5] = ldexp(1.0, 500);
    e[7] = ldexp(1.0, 40);
    expect_refusal(e, 6, 1, "P12");
    group("P6 to P12");
}

/* Refusal 4 for each of its figures. */
static void test_overflow(void)
{
    double e[8] = {0, 0, 0, 0, 0, 0, 0, 1};
    double big = ldexp(1.0, 1000);

    e[1] = ldexp(1.0, 500), e[4] = ldexp(1.0, 524);
    expect_refusal(e, 4, 0, "sigma0 and v squared overflow");
    e[4] = ldexp(1.0, 512);
    expect_refusal(e, 4, 0, "v squared overflow");
    e[4] = ldexp(1.0, 511), e[1] = 1.0, e[7] = 0.0;
    check(propagate(e, (uint64_t[15]){0}) == 0, "v squared of 2^1022");
    e[4] = 0.0, e[0] = ldexp(1.0, 1023);
    expect_refusal(e, 4, 0, "2 mu overflow");
    e[0] = big, e[1] = ldexp(1.0, -100);
    expect_refusal(e, 4, 0, "(2 mu)/r0 overflow");
    e[0] = 0.0, e[7] = big;
    expect_refusal(e, 4, 0, "H overflow");
    e[7] = -big;
    expect_refusal(e, 4, 0, "H overflow, tau below zero");
    e[0] = -ldexp(1.0, 1022), e[1] = 1.0, e[7] = 0.0;
    e[4] = ldexp(1.0, 511), e[5] = e[4], e[6] = e[4];
    expect_refusal(e, 4, 0, "alpha overflow");
    group("refusal 4");
}

/* Both zeros of tau: psi is +0, no points, and the start comes back. */
static void test_zero_interval(void)
{
    double e[8] = {398600.4418, 7000, -100, 250, 1.0, 7.2, -0.5, 0};
    uint64_t a[15], run[36];
    int sign, i;

    for (sign = 0; sign < 2; sign++) {
        e[7] = sec_double(sign ? MINUS_ZERO : 0);
        check(propagate(e, a) == 0 && a[1] == 0 && a[14] == 0, "tau zero");
        for (i = 0; i < 6; i++)
            check(a[2 + i] == sec_word(e[1 + i]), "tau zero: the start");
        check(memcmp(a + 8, a + 11, 24) == 0, "tau zero: accelerations");
        check(partials(e, a, run, 36) == 0, "tau zero: partials");
        for (i = 0; i < 36; i++)
            check(sec_double(run[i]) == (i % 7 == 0 ? 1.0 : 0.0),
                  "tau zero: partials are the unit");
    }
    group("tau of both zeros");
}

/* 35, 36 and 37 partial places, and the wrong answer run before all else. */
static void test_places(void)
{
    double good[8] = {1, 1, 0, 0, 0, 1, 0, 0.5};
    double bad[8] = {1, 0, 0, 0, 0, 1, 0, 0.5};
    uint64_t a[15], b[15], run[37];
    size_t k;

    for (k = 0; k <= 37; k++) {
        fill(run, 37);
        fill(a, 15);
        check(partials(good, a, run, k) == (k == 36 ? 0u : 1u), "places");
        check(a[0] == (k == 36 ? 0u : 1u), "places: number");
        check(k == 36 ? kept(run + 36, 1) && run[0] != KEPT : kept(run, 37),
              "places: lent run");
        check(k == 36 || (a[1] == 0 && a[14] == 0), "places: figures");
    }
    check(propagate(good, b) == 0 && partials(good, a, run, 36) == 0
              && memcmp(a, b, sizeof a) == 0, "same answer with partials");
    check(partials(bad, a, NULL, 0) == 1, "1 before 3");
    fill(a, 15);
    fill(run, 37);
    check(second_partials(0, 0, 0, 0, 0, 0, 0, 0, a, 14, run, 35) == 60
              && kept(a, 15) && kept(run, 37), "partials 60");
    check(second_propagate(0, 0, 0, 0, 0, 0, 0, 0, a, 16) == 60
              && kept(a, 15), "propagate 60");
    group("35, 36, 37 partial places");
}

/* Refusal 8: cubes that vanish, and the partials' own product of cubes. */
static void test_divisors(void)
{
    double e[8] = {0, 0, 0, 0, 0, 0, 0, 0};
    uint64_t a[15], run[36];

    e[1] = ldexp(1.0, -400);
    expect_refusal(e, 8, 0, "r0 cubed is zero, tau zero");
    e[7] = e[1];
    expect_refusal(e, 8, 21, "r0 cubed is zero");
    e[1] = e[7] = ldexp(1.0, -300);
    fill(run, 36);
    check(propagate(e, a) == 0 && a[1] == 21 && a[14] == ONE, "2^-300");
    check(partials(e, a, run, 36) == 8 && a[0] == 8 && a[1] == 21
              && a[2] == 0 && a[14] == 0 && kept(run, 36),
          "product of cubes is zero");
    e[1] = e[7] = ldexp(1.0, 300);
    check(partials(e, a, run, 36) == 0 && a[1] == 21 && a[14] == ONE,
          "product of cubes is infinite");
    group("refusal 8");
}

void selftest_calls(void)
{
    test_marked();
    test_overflow();
    test_zero_interval();
    test_places();
    test_divisors();
}
