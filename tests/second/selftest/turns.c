/* Orbits over many turns (T-04), against mechanics. */
#include "selftest.h"

#include "second/parts.h"

#include <math.h>
#include <stdio.h>
#include <string.h>

static const double pi = 0x1.921fb54442d18p+1;

/* From 1 to 2, times a power of two below so many. */
static double spread(unsigned powers)
{
    double digits = between(1, 2);

    return ldexp(digits, (int)(chance() % powers));
}

static double size3(const double v[3])
{
    return sqrt(v[0] * v[0] + v[1] * v[1] + v[2] * v[2]);
}

/* Half the major axis, by the energy. */
static double half_axis(const double e[8])
{
    double speed = size3(e + 4);

    return 1 / (2 / size3(e + 1) - speed * speed / e[0]);
}

double turn_time(const double e[8])
{
    double a = half_axis(e);

    return 2 * pi * a * sqrt(a / e[0]);
}

/* How far two places are apart, as a part of the first one's distance. */
static double apart(const uint64_t a[15], const double place[3])
{
    double d[3];
    int i;

    for (i = 0; i < 3; i++)
        d[i] = sec_double(a[2 + i]) - place[i];
    return size3(d) / size3(place);
}

/* ---- the circle ---- */

/* A circle of unit radius has turned by tau, whatever the number of turns: the
 * error is that of tau's last place, and of 2 pi's times the turns. */
static void test_long_circle(void)
{
    double e[8] = {1, 1, 0, 0, 0, 1, 0, 0};
    double place[3] = {0, 0, 0};
    uint64_t a[15];
    int i;

    for (i = 0; i < 3000; i++) {
        double turns = spread(26);

        e[7] = turns * (i % 2 ? 6.28 : -6.28);
        place[0] = cos(e[7]), place[1] = sin(e[7]);
        check(propagate(e, a) == 0, "long circle refused");
        check(apart(a, place) < 1e-11 + 4e-15 * turns, "long circle");
        check(fabs(sec_double(a[14])) < 3.1416, "long circle: psi");
    }
    group("unit circle over 64 million turns");
}

/* ---- ellipses ---- */

/* After whole turns and a part the place is that of the part alone. */
static void test_long_ellipse(void)
{
    double e[8], part[8], place[3], turns;
    uint64_t a[15], b[15];
    int i, j;

    for (i = 0; i < 3000; i++) {
        turns = floor(spread(23));
        orbit(e, 0, i % 2 ? 398600.4418 : 1.0,
              i % 2 ? between(6600, 45000) : between(0.5, 2));
        memcpy(part, e, sizeof part);
        part[7] = between(-0.4, 0.4) * turn_time(e);
        e[7] = part[7] + (i % 4 < 2 ? turns : -turns) * turn_time(e);
        check(propagate(e, a) == 0 && propagate(part, b) == 0, "turns");
        for (j = 0; j < 3; j++)
            place[j] = sec_double(b[2 + j]);
        check(apart(a, place) < 1e-11 + 1e-12 * turns, "place after turns");
        check(fabs(sec_double(a[14]) - sec_double(b[14]))
                  < (1e-11 + 1e-12 * turns) * fabs(turn_time(e)),
              "psi after turns");
    }
    group("ellipses over 8 million turns");
}

/* At the near end of a needle: from there the first point of all is past. */
static void needle(double e[8])
{
    double alpha = -1 / spread(40);

    e[0] = e[1] = 1;
    e[2] = e[3] = e[4] = e[6] = 0;
    e[5] = sqrt(2 + alpha);
}

/* What is left, asked for by itself, has the same answer in every word. */
static void test_left_alone(void)
{
    double e[8];
    struct start s, alone;
    uint64_t a[15], b[15];
    int i;

    for (i = 0; i < 6000; i++) {
        if (i % 2)
            orbit(e, 0, 1.0, between(0.5, 2));
        else
            needle(e);
        e[7] = (i % 4 < 2 ? 0.5 : -0.5) * spread(40) * turn_time(e);
        check(sec_start(e, &s) == 0 && propagate(e, a) == 0, "start refused");
        e[7] = s.searched;
        check(sec_start(e, &alone) == 0 && propagate(e, b) == 0,
              "rest refused");
        if (sec_zero(alone.revolutions)) /* not so at half a turn */
            check(memcmp(a, b, sizeof a) == 0, "rest differs");
    }
    group("what is left of an interval, alone");
}

/* ---- partials ---- */

/* After n turns the place is the start's again.  What a shift of the start
 * does is to move the end as far as the start, and along the orbit by n times
 * what it does to the period: 3/2 P (da/a), where half the axis a goes by
 * 2 a a (x/r^3) for x, and by 2 a a (v/mu) for v. */
static double expected(const double e[8], double n, int row, int column)
{
    double a = half_axis(e), r = size3(e + 1), cube = r * r * r;
    double along = row < 3 ? e[4 + row] : -e[0] * e[row - 2] / cube;
    double by = column < 3 ? e[1 + column] / cube : e[1 + column] / e[0];

    return (row == column) - n * along * 3 * turn_time(e) * a * by;
}

static void check_growth(const double e[8], double n, double *worst)
{
    uint64_t a[15], run[36];
    double largest = 0, gap = 0;
    int i;

    check(partials(e, a, run, 36) == 0, "partials after turns refused");
    for (i = 0; i < 36; i++) {
        double right = expected(e, n, i / 6, i % 6);

        gap = fmax(gap, fabs(sec_double(run[i]) - right));
        largest = fmax(largest, fabs(right));
    }
    check(gap < (1e-11 + 1e-14 * n * n) * largest, "growth of the partials");
    *worst = fmax(*worst, gap / largest);
}

/* U loses digits with the square of the turns, by its own formula. */
static void test_growth(void)
{
    static const double turns[6] = {1, 2, 7, 60, 1000, 40000};
    double e[8], worst[6] = {0};
    int i;

    for (i = 0; i < 1200; i++) {
        double n = turns[i % 6];

        orbit(e, 0, 1.0, between(0.8, 1.5));
        e[7] = (i % 4 < 2 ? n : -n) * turn_time(e);
        check_growth(e, i % 4 < 2 ? n : -n, &worst[i % 6]);
    }
    group("growth of the partials with whole turns");
    printf("  largest relative gap:");
    for (i = 0; i < 6; i++)
        printf(" %.1e after %g%s", worst[i], turns[i], i < 5 ? "," : "\n");
}

/* ---- refusal 8 by the whole anomaly ---- */

/* At rest at 2^r0, with alpha = -2^alpha, after a number of turns and a
 * quarter: whether the partials are there. */
static void expect_whole(int r0, int alpha, double turns, uint64_t refusal,
                         const char *what)
{
    double e[8] = {0, 0, 0, 0, 0, 0, 0, 0};
    uint64_t a[15], b[15], run[36];

    fill(run, 36);
    e[0] = ldexp(1.0, alpha + r0 - 1);
    e[1] = ldexp(1.0, r0);
    e[7] = (turns + 0.25) * pi * ldexp(1.0, r0 - alpha / 2);
    check(propagate(e, a) == 0 && a[1] > 0, what);
    check(partials(e, b, run, 36) == refusal && b[1] == a[1], what);
    check(refusal == 0 ? memcmp(a, b, sizeof a) == 0 : kept(run, 36), what);
}

static void check_short(void)
{
    double e[8] = {0, 0, 0, 0, 0, 0, 0, 0};
    uint64_t a[15], run[36];

    e[0] = ldexp(1.0, -191);
    e[1] = ldexp(1.0, 500);
    e[7] = ldexp(1.0, 650);
    check(partials(e, a, run, 36) == 0, "no revolution off, no 8");
}

/* The whole anomaly W is about 2 pi n over the root of -alpha. */
static void test_whole_figures(void)
{
    expect_whole(300, -200, 1, 0, "all is finite");
    expect_whole(300, -400, 1, 0, "all is finite, at less pull");
    /* W W W/alpha is 2^(7.4 + 623 + 415) */
    expect_whole(300, -416, 1, 8, "s5 alone");
    expect_whole(300, -416, -1, 8, "s5 alone, back");
    /* W W/alpha is 2^(5.3 + 520 + 520) */
    expect_whole(300, -520, 1, 8, "s4");
    /* W/alpha is 2^(2.6 + 343 + 686) */
    expect_whole(500, -686, 1, 8, "s3");
    /* W W W/alpha is 2^(127 + 510 + 340), and mu 2^49 */
    expect_whole(390, -340, 0x1p40, 8, "U alone");
    expect_whole(390, -340, 1, 0, "the same after one turn");
    /* with nothing off, U is that of 01, which asks for none of these: psi is
     * 2^150, and psi psi psi/alpha would be 2^1140 */
    check_short();
    group("refusal 8 by the whole anomaly");
}

/* The unit circle after n whole turns, by hand: s1 and s2 are +0, alpha is -1
 * and W = n 2 pi, so that s3 is W, s4 is W W/2 and s5 is W W W/6 - W.  Of the
 * partial of y by x nothing is left but A31 = -U. */
static void test_u(void)
{
    double e[8] = {1, 1, 0, 0, 0, 1, 0, 0};
    uint64_t a[15], run[36];
    int n;

    for (n = -3000; n <= 3000; n++) {
        double w = n * (2 * pi), square = w * w, cube = square * w, u;

        if (n == 0)
            continue;
        e[7] = w;
        u = w * (square / 2) - 3 * (cube / 6 - w);
        check(partials(e, a, run, 36) == 0 && sec_double(run[6]) == -u,
              "U after whole turns");
    }
    group("U after whole turns, by hand");
}

void selftest_turns(void)
{
    test_long_circle();
    test_long_ellipse();
    test_left_alone();
    test_growth();
    test_whole_figures();
    test_u();
}
