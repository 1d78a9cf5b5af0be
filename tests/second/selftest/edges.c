/* Another station's rows (T-06) where a neighbour cannot be read, and where
 * the search, the start or the results are refused. */
#include "checked.h"

#include <math.h>
#include <string.h>

/* The start of eight numbers, of which none is refused. */
static struct start start_of(const double e[8])
{
    struct start s;

    check(sec_start(e, &s) == 0, "a start");
    return s;
}

/* A row with the formulas' figures, to which neither 7 nor 8 applies: so its
 * anomaly decides. */
static void expect_psi(const struct start *s, uint64_t psi, int yes,
                       const char *what)
{
    uint64_t row[ROW_WORDS];

    put_row(s, psi, row);
    check(no_refusal(s, row), what);
    expect_row(row, yes, what);
}

/* ---- neighbours that are not readable ---- */

/* Without a pull, at right angles and at this speed, R is s1 - tau; but it is
 * NaN where s3 is infinite.  That begins below this psi, and by chance not all
 * at once: the place below it has a NaN, the one below that has none. */
static const double speed = 7777 * 0x1p-351;
static const double above_nan = 0x1.f812eb5d87246p+340;

/* With a tau that is so many places above the time of a psi. */
static struct start timed(uint64_t psi, int places)
{
    double e[8] = {0, 1, 0, 0, 0, speed, 0, 1};
    struct start s = start_of(e);
    double time = sec_figures(&s, sec_double(psi)).s1;

    e[7] = sec_double(sec_word(time) + (uint64_t)(int64_t)places);
    return start_of(e);
}

/* An exact psi needs no neighbour; a short or a past one does. */
static void test_unreadable(void)
{
    struct start s;
    uint64_t psi;
    int sign;

    for (sign = 0; sign < 2; sign++) {
        psi = sec_word(sign ? -above_nan : above_nan);
        s = timed(psi, 0);
        check(beyond(&s, psi) == 0 && sec_nan(beyond(&s, psi - 1)),
              "exact above a NaN");
        expect_psi(&s, psi, 1, "exact above a NaN");
        s = timed(psi, -1);
        check(beyond(&s, psi) > 0, "past above a NaN");
        expect_psi(&s, psi, 0, "past above a NaN");
        psi -= 2;
        s = timed(psi, 0);
        check(beyond(&s, psi) == 0 && sec_nan(beyond(&s, psi + 1)),
              "exact below a NaN");
        expect_psi(&s, psi, 1, "exact below a NaN");
        s = timed(psi, 1);
        check(beyond(&s, psi) < 0, "short below a NaN");
        expect_psi(&s, psi, 0, "short below a NaN");
    }
    group("rows beside an unreadable place");
}

/* ---- where our own search is refused ---- */

/* The pair lies between two anomalies that the search does not try. */
static struct start expect_found(const double e[8], uint64_t refusal,
                                 double low, double high, const char *what)
{
    struct start s = start_of(e);
    uint64_t a[15], psi = halved(&s, low, high);

    check(propagate(e, a) == refusal, what);
    check(right_psi(&s, psi), what);
    expect_psi(&s, psi, 1, what);
    expect_psi(&s, psi ^ MINUS_ZERO, 0, what);
    expect_psi(&s, psi + 1, right_psi(&s, psi + 1), what);
    expect_psi(&s, psi - 1, right_psi(&s, psi - 1), what);
    return s;
}

static void test_no_search(void)
{
    double five[8] = {0x1p954, 1, 0, 0, 0, 0, 0, 0x1p-450};
    double six[8] = {0, 1, 0, 0, 0, 0x1p500, 0, 0x1p40};
    uint64_t row[ROW_WORDS];
    struct start s;
    int sign;

    for (sign = 0; sign < 2; sign++) {
        /* all are short as long as psi cubed or s3 underflows */
        (void)expect_found(five, 5, 0x1p-440, 0x1p-100, "where ours is 5");
        /* P12: r0 s1 is sinh(2^500 psi)/2^500, and tau 2^40 */
        s = expect_found(six, 6, 0, 0x1p-490, "where ours is 6");
        put_row(&s, halved(&s, 0, 0x1p-490), row);
        check(row[FIGURES] == ONE
                  && sec_double(row[FIGURES + 1]) == 0x1p500 * six[7],
              "P12 goes on in a straight line");
        five[7] = -five[7];
        six[7] = -six[7];
    }
    group("rows that our own search does not find");
}

/* ---- a start that is refused ---- */

/* A zero interval has the anomaly +0; the figures are those of the start. */
static void expect_no_start(const double e[8], unsigned refusal,
                            const char *what)
{
    struct start s;
    uint64_t row[ROW_WORDS];
    size_t i;

    check(sec_start(e, &s) == refusal, what);
    for (i = 0; i < ROW_WORDS; i++)
        row[i] = i < 8 ? sec_word(e[i]) : 0;
    for (i = 0; i < 6; i++)
        row[FIGURES + i] = row[1 + i];
    expect_row(row, 0, what);
    row[PSI] = ONE;
    expect_row(row, 0, what);
}

static void test_bad_start(void)
{
    static const uint64_t bad[3] = {NAN_WORD, INFINITE_WORD, MINUS_INFINITE};
    static const double refused_4[][8] = {
        {0, 0x1p600, 0, 0, 0, 0, 0, 0},
        {0, 0x1p500, 0, 0, 0x1p524, 0, 0, 0},
        {0, 1, 0, 0, 0x1p512, 0, 0, 0},
        {0x1p1000, 0x1p-100, 0, 0, 0, 0, 0, 0},
        {-0x1p1022, 1, 0, 0, 0x1p511, 0x1p511, 0x1p511, 0},
        {0, 0x1p-100, 0, 0, 0, 0, 0, 0x1p1000},
    };
    double e[8], zero[8] = {0, 0, 0, 0, 1, 2, 3, 0};
    unsigned i, k;

    for (i = 0; i < 8; i++)
        for (k = 0; k < 3; k++) {
            memcpy(e, (double[8]){1, 1, 0, 0, 0, 1, 0, 0}, sizeof e);
            e[i] = sec_double(bad[k]);
            expect_no_start(e, 31 + i, "31 to 38");
        }
    expect_no_start(zero, 3, "3");
    zero[1] = 0x1p-600;
    expect_no_start(zero, 3, "3 by a sum that vanishes");
    for (i = 0; i < sizeof refused_4 / sizeof refused_4[0]; i++)
        expect_no_start(refused_4[i], 4, "4");
    group("rows with a start that is refused");
}

/* Alpha is 0, and psi a cube root of 12 tau: nothing is refused but H, where
 * tau/r0 reaches 2^1024. */
static void test_first_step(void)
{
    double e[8] = {0.5, 0x1p-340, 0, 0, 0, 0x1p170, 0, 0x1p684};
    uint64_t row[ROW_WORDS];
    struct start s;
    int sign;

    for (sign = 0; sign < 2; sign++) {
        check(sec_start(e, &s) == 4, "4 by H alone");
        put_row(&s, halved(&s, 0x1p228, 0x1p231), row);
        check(right_psi(&s, row[PSI]) && no_refusal(&s, row), "4 by H alone");
        expect_row(row, 0, "4 by H alone");
        e[7] = nextafter(e[7], 0);
        (void)expect_found(e, 6, 0x1p228, 0x1p231, "the largest H");
        e[7] = -0x1p684;
    }
    group("rows with an H too large");
}

/* ---- results that are refused ---- */

static int all_finite(const uint64_t *words, size_t count)
{
    size_t i;

    for (i = 0; i < count; i++)
        if (!sec_finite(sec_double(words[i])))
            return 0;
    return 1;
}

/* All that a row carries is right, but not what the call answers beside it.
 * The zeros that it answers then are no more right than these. */
static void expect_no_results(const struct start *s, uint64_t psi,
                              const char *what)
{
    uint64_t row[ROW_WORDS];

    put_row(s, psi, row);
    check(right_psi(s, psi) && all_finite(row, ROW_WORDS), what);
    check(!no_refusal(s, row), what);
    expect_row(row, 0, what);
    memset(row + FIGURES, 0, 9 * sizeof row[0]);
    expect_row(row, 0, what);
}

/* 8 by the start acceleration alone.  Without a pull it is -0 over r0 cubed,
 * which vanishes at 2^-400 and not at 2^-300; 2^-400 sinh 278 is about 1. */
static void test_start_acceleration(void)
{
    double e[8] = {0, 0x1p-400, 0, 0, 0, 1, 0, 1};
    double pulled[8] = {0x1p350, 0x1p-340, 0, 0, 0x1p346, 0, 0, 0x1p-646};
    struct start s = start_of(e);

    expect_no_results(&s, halved(&s, 0, 300), "r0 cubed is zero");
    e[1] = 0x1p-300;
    s = start_of(e);
    expect_psi(&s, halved(&s, 0, 300), 1, "r0 cubed is above zero");
    /* at the start the pull is 2^350/2^-680, on the way out it is less */
    s = start_of(pulled);
    expect_no_results(&s, halved(&s, 0, 0x1p-339), "a start pull of 2^1030");
    pulled[0] = 0x1p342;
    s = start_of(pulled);
    expect_psi(&s, halved(&s, 0, 0x1p-339), 1, "a start pull of 2^1022");
    group("rows refused by the start acceleration");
}

/* Straight at the centre without a pull, and on from there: r comes out of
 * rounding, and is now and then below zero. */
static void test_radius(void)
{
    double e[8] = {0, 1, 0, 0, -1, 0, 0, 0};
    uint64_t a[15];
    int i, below = 0;

    for (i = 5; i < 400; i++) {
        struct start s;
        struct found found;

        e[7] = i / 4.0;
        s = start_of(e);
        found = sec_search(&s);
        if (found.refusal != 0 || sec_figures(&s, found.psi).radius >= 0)
            continue;
        check(propagate(e, a) == 7, "r below zero");
        expect_no_results(&s, sec_word(found.psi), "r below zero");
        below++;
    }
    check(below > 10, "r below zero now and then");
    group("rows refused by the radius");
}

void selftest_edges(void)
{
    test_unreadable();
    test_no_search();
    test_bad_start();
    test_first_step();
    test_start_acceleration();
    test_radius();
}
