/* Another station's rows (T-06): anomalies and figures worked out by hand. */
#include "checked.h"

#include <math.h>
#include <string.h>

static const double pi = 0x1.921fb54442d18p+1;

/* A row and one word of it in its turn; what is right about it. */
struct change {
    size_t which;
    uint64_t word;
    int yes;
    const char *what;
};

static void expect_changes(const uint64_t row[ROW_WORDS],
                           const struct change *changes, size_t count)
{
    uint64_t changed[ROW_WORDS];
    size_t i;

    expect_row(row, 1, "the row before its changes");
    for (i = 0; i < count; i++) {
        memcpy(changed, row, ROW_BYTES);
        changed[changes[i].which] = changes[i].word;
        expect_row(changed, changes[i].yes, changes[i].what);
    }
}

#define COUNT(run) (sizeof(run) / sizeof(run)[0])

/* ---- at rest, without a pull ---- */

/* f and g' are 1, f' is a zero, the velocities are zeros, g is tau: whatever
 * psi is, the place stays, the end velocity is +0 and the pull -0. */
static void put_rest(uint64_t row[ROW_WORDS], double x, double tau,
                     uint64_t psi)
{
    size_t i;

    for (i = 0; i < ROW_WORDS; i++)
        row[i] = i < FIGURES + 6 ? 0 : MINUS_ZERO;
    row[1] = row[FIGURES] = sec_word(x);
    row[TAU] = sec_word(tau);
    row[PSI] = psi;
}

/* P10: R is psi - tau, and exact only where they are equal. */
static void test_p10(void)
{
    static const struct change changes[] = {
        {0, MINUS_ZERO, 0, "mu of -0 makes the acceleration +0"},
        {0, 1, 0, "the least mu makes the velocity -2^-1074"},
        {1, ONE + 1, 0, "another x is another place"},
        {1, ONE | MINUS_ZERO, 0, "so is the opposite one"},
        {2, MINUS_ZERO, 1, "a y of -0 ends at -0 + 0, which is 0"},
        {3, MINUS_ZERO, 1, "and so does such a z"},
        {2, 1, 0, "the least y stays"},
        {4, MINUS_ZERO, 0, "a vx of -0 ends as -0 - 0, which is -0"},
        {5, MINUS_ZERO, 0, "and so does such a vy"},
        {6, 1, 0, "the least vz stays"},
        {TAU, ONE + 1, 0, "short beside an exact place"},
        {TAU, ONE - 1, 0, "past beside an exact place"},
        {TAU, ONE + 2, 0, "short beside a short place"},
        {TAU, ONE - 2, 0, "past beside a past place"},
        {TAU, ONE | MINUS_ZERO, 0, "tau of the other sign"},
        {TAU, 0, 0, "tau zero, psi not"},
        {PSI, ONE + 1, 0, "past beside the exact place"},
        {PSI, ONE - 1, 0, "short beside the exact place"},
        {PSI, ONE | MINUS_ZERO, 0, "psi of the other sign"},
        {PSI, 0, 0, "place 0"},
        {PSI, MINUS_ZERO, 0, "place 0 of the other sign"},
        {PSI, LARGEST, 0, "the largest psi: L is NaN"},
        {PSI, INFINITE_WORD, 0, "an infinite psi"},
        {PSI, MINUS_INFINITE, 0, "the other infinite psi"},
        {PSI, NAN_WORD, 0, "a NaN psi"},
        {PSI, 0xFFFFFFFFFFFFFFFFu, 0, "a NaN psi of the other sign"},
        {FIGURES, ONE - 1, 0, "another place"},
        {FIGURES + 1, 1, 0, "the least y at the end"},
    };
    uint64_t row[ROW_WORDS];
    size_t i;

    put_rest(row, 1, 1, ONE);
    expect_changes(row, changes, COUNT(changes));
    for (i = FIGURES + 1; i < ROW_WORDS; i++) {
        row[i] ^= MINUS_ZERO;
        expect_row(row, 0, "a zero of the other sign");
        row[i] ^= MINUS_ZERO;
    }
    put_rest(row, 1, -1, ONE | MINUS_ZERO);
    expect_row(row, 1, "P11");
    row[PSI] = ONE;
    expect_row(row, 0, "P11 with the psi of P10");
    put_rest(row, -1, 1, ONE);
    row[FIGURES + 6] = 0;
    expect_row(row, 1, "P10 with an x of -1, where (-0)(-1) is +0");
    group("P10's row and its changes, by hand");
}

/* All in units of 2^-1074: tau is t, and R at place n is r0 n - t.  The psi of
 * the other sign is never right. */
static void expect_units(long r0, long t, long n)
{
    long here = r0 * n - t;
    int right = here == 0 || (here < 0 && here + r0 > 0 && here + r0 >= -here)
        || (here > 0 && here - r0 < 0 && r0 - here > here);
    uint64_t row[ROW_WORDS], psi = (uint64_t)n;
    double tau = ldexp((double)t, -1074);

    put_rest(row, (double)r0, tau, psi);
    expect_row(row, right, "units");
    put_rest(row, (double)r0, tau, psi | MINUS_ZERO);
    expect_row(row, 0, "units, psi of the other sign");
    put_rest(row, (double)r0, -tau, psi | MINUS_ZERO);
    expect_row(row, right, "units, tau below zero");
    put_rest(row, (double)r0, -tau, psi);
    expect_row(row, 0, "units, tau below zero, psi not");
}

/* Place 0 is the short end for t below r0; where r0 is even, t can be halfway
 * between two places, which is a tie. */
static void test_units(void)
{
    long r0, t, n;

    for (r0 = 1; r0 <= 8; r0++)
        for (t = 1; t <= 30; t++)
            for (n = 0; r0 * n <= t + 3 * r0; n++)
                expect_units(r0, t, n);
    group("nearer ends in least units, by hand");
}

static void expect_rest(double r0, double tau, double psi, int yes,
                        const char *what)
{
    uint64_t row[ROW_WORDS];

    put_rest(row, r0, tau, sec_word(psi));
    expect_row(row, yes, what);
    put_rest(row, r0, -tau, sec_word(-psi));
    expect_row(row, yes, what);
}

/* With u for 2^-52, the last place of numbers from 1 to 2. */
static void test_plain_scale(void)
{
    double u = 0x1p-52, tau = 3 + 2 * u;

    /* 3 (1 + u) is rounded up to 3 + 4 u, which is even: R is -2 u and 2 u */
    expect_rest(3, tau, 1, 1, "short end by a tie");
    expect_rest(3, tau, 1 + u, 0, "past end by a tie");
    /* 3/4 of 3/2 + k u is 9/8 + k u 3/4, rounded for k = 1 to 4 to 1, 2 (even),
     * 2 and 3 u: two places are exact, whichever a search comes upon */
    tau = 1.125 + 2 * u;
    expect_rest(0.75, tau, 1.5 + u, 0, "short beside the first exact place");
    expect_rest(0.75, tau, 1.5 + 2 * u, 1, "the first of two exact places");
    expect_rest(0.75, tau, 1.5 + 3 * u, 1, "the second of two exact places");
    expect_rest(0.75, tau, 1.5 + 4 * u, 0, "past beside the second");
    /* 5 (1 + k u) is 5 + 4 u (5 k/4): 0, 1, 2 (even, from 2.5), 4 (from 3.75)
     * times 4 u; so with tau at 3 of these R is -1 and 1 for k = 2 and 3 */
    tau = 5 + 12 * u;
    expect_rest(5, tau, 1 + u, 0, "short beside a short place");
    expect_rest(5, tau, 1 + 2 * u, 1, "short end by a tie of rounded errors");
    expect_rest(5, tau, 1 + 3 * u, 0, "past end by a tie of rounded errors");
    group("nearer ends at plain scale, by hand");
}

/* ---- nothing to search ---- */

/* The unit circle: the start comes back.  With g at +0 a y of -0 becomes +0,
 * with g at -0 it stays; the acceleration has the sign opposite to it. */
static void put_circle(uint64_t row[ROW_WORDS], uint64_t y, double tau,
                       uint64_t end_y)
{
    size_t i;

    for (i = 0; i < ROW_WORDS; i++)
        row[i] = 0;
    row[0] = row[1] = row[5] = row[FIGURES] = row[FIGURES + 4] = ONE;
    row[2] = y;
    row[TAU] = sec_word(tau);
    row[FIGURES + 1] = end_y;
    row[FIGURES + 6] = ONE | MINUS_ZERO;
    row[FIGURES + 7] = end_y ^ MINUS_ZERO;
    row[FIGURES + 8] = MINUS_ZERO;
}

/* At a psi of -0 all figures are those at +0, since g is +0 - (-0). */
static void expect_nothing_left(double tau)
{
    uint64_t row[ROW_WORDS];

    put_circle(row, 0, tau, 0);
    expect_row(row, 1, "nothing to search");
    row[PSI] = MINUS_ZERO;
    expect_row(row, 0, "nothing to search, psi of -0");
    row[PSI] = 1;
    expect_row(row, 0, "nothing to search, the least psi");
    row[PSI] = sec_word(tau) ^ MINUS_ZERO;
    expect_row(row, sec_zero(tau) && sec_negative(tau), "a psi of -tau");
    put_circle(row, MINUS_ZERO, tau, 0);
    expect_row(row, !sec_negative(tau) || !sec_zero(tau), "-0 + 0");
    put_circle(row, MINUS_ZERO, tau, MINUS_ZERO);
    expect_row(row, sec_negative(tau) && sec_zero(tau), "-0 + -0");
}

/* A circle of radius 1/4, with the speed 1 and the period pi/2.  A quarter or
 * a half of the least double is rounded to 0, and R is 0 at the first places;
 * they are not right for that. */
static void expect_small_circle(double tau)
{
    double row[ROW_WORDS] = {0.25, 0.25, 0, 0, 0, 1, 0, 0, 0,
                             0.25, 0, 0, 0, 1, 0, -4, -0.0, -0.0};
    uint64_t words[ROW_WORDS];
    size_t i;

    for (i = 0; i < ROW_WORDS; i++)
        words[i] = sec_word(row[i]);
    words[TAU] = sec_word(tau);
    expect_row(words, 1, "small circle, nothing to search");
    for (i = 1; i < 5; i++) {
        words[PSI] = i;
        expect_row(words, 0, "small circle, one of the first places");
        words[PSI] = i | MINUS_ZERO;
        expect_row(words, 0, "small circle, one of the first places back");
    }
}

static void test_nothing_left(void)
{
    double turn = 2 * pi;
    uint64_t row[ROW_WORDS];
    int n;

    expect_nothing_left(0.0);
    expect_nothing_left(sec_double(MINUS_ZERO));
    expect_small_circle(0.0);
    expect_small_circle(sec_double(MINUS_ZERO));
    for (n = 1; n <= 1000; n++) {
        expect_nothing_left(n * turn);
        expect_nothing_left(-(n * turn));
        expect_small_circle(n * (pi / 2));
        expect_small_circle(-(n * (pi / 2)));
        put_circle(row, 0, n * turn, 0);
        row[PSI] = sec_word(n * turn);
        expect_row(row, 0, "the whole anomaly");
    }
    group("rows with nothing to search, by hand");
}

/* ---- what is left of an interval ---- */

/* The unit circle, where psi is the interval's own size: that of what is left
 * is right, that of the whole interval is not, nor the opposite one. */
static void expect_left(double tau, double left, const char *what)
{
    double e[8] = {1, 1, 0, 0, 0, 1, 0, 0};
    struct start s;
    uint64_t row[ROW_WORDS], psi;

    e[7] = tau;
    check(sec_start(e, &s) == 0, what);
    s.searched = left;
    psi = halved(&s, 0.99 * fabs(left), 1.01 * fabs(left));
    put_row(&s, psi, row);
    expect_row(row, 1, what);
    row[PSI] ^= MINUS_ZERO;
    expect_row(row, 0, what);
    put_row(&s, psi ^ MINUS_ZERO, row);
    expect_row(row, 0, what);
    if (sec_word(left) == sec_word(tau))
        return;
    s.searched = tau;
    put_row(&s, halved(&s, 0.99 * fabs(tau), 1.01 * fabs(tau)), row);
    expect_row(row, 0, what);
}

static void test_left(void)
{
    double turn = 2 * pi;

    expect_left(0.25, 0.25, "a part of a turn");
    expect_left(-0.25, -0.25, "a part of a turn, back");
    expect_left(turn - 0.25, (turn - 0.25) - turn, "a turn but a part");
    expect_left(turn + 0.25, (turn + 0.25) - turn, "a turn and a part");
    expect_left(-turn + 0.25, (-turn + 0.25) + turn, "back, but a part");
    expect_left(-turn - 0.25, (-turn - 0.25) + turn, "back, and a part");
    expect_left(turn / 2, -turn / 2, "half a turn");
    expect_left(-turn / 2, -turn / 2, "half a turn, back");
    expect_left(1024 * turn + 1, (1024 * turn + 1) - 1024 * turn, "1024");
    group("rows of some turns, by hand");
}

void selftest_anomaly(void)
{
    test_p10();
    test_units();
    test_plain_scale();
    test_nothing_left();
    test_left();
}
