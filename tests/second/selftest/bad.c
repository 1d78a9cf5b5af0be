/* Which figure was bad (T-05): refusals 31 to 38 of the two calls. */
#include "selftest.h"

#include "second/parts.h"
#include "second/second.h"

#include <stdio.h>
#include <string.h>

#define COUNT(run) (sizeof(run) / sizeof(run)[0])

/* mu, x, y, z, vx, vy, vz and tau. */
static const uint64_t numbers[8] = {31, 32, 33, 34, 35, 36, 37, 38};

/* Infinity, and NaNs: the quiet one, the least, the greatest, the greatest
 * that is not quiet, and bits in one half alone.  Each has either sign. */
static const uint64_t bad[] = {
    INFINITE_WORD, NAN_WORD, 0x7FF0000000000001u, 0x7FFFFFFFFFFFFFFFu,
    0x7FF7FFFFFFFFFFFFu, 0x7FF0000100000000u, 0x7FF0000080000000u,
};

static const uint64_t kinds[3] = {NAN_WORD, INFINITE_WORD, MINUS_INFINITE};

/* Eight finite figures, and what they are refused by, or 0. */
struct sound {
    double e[8];
    uint64_t number;
};

static const struct sound sound[] = {
    {{0, 0, 0, 0, 0, 0, 0, 0}, 3}, /* P6 */
    {{1, 0x1p-600, 0, 0, 0, 1, 0, 1}, 3},
    {{0, 0x1p600, 0, 0, 0, 0, 0, 0}, 4},         /* P9 */
    {{0, 0x1p500, 0, 0, 0x1p524, 0, 0, 1}, 4},   /* sigma0 and v squared */
    {{0x1p1023, 1, 0, 0, 0, 0, 0, 1}, 4},        /* 2 mu */
    {{0, 0x1p-100, 0, 0, 0, 0, 0, 0x1p1000}, 4}, /* H */
    {{0, 1, 0, 0, 0, 0, 0, 1}, 0},               /* P10 */
    {{1, 1, 0, 0, 0, 1, 0, 0}, 0},               /* nothing to search */
    {{398600.4418, 7000, -100, 250, 1, 7.2, -0.5, 1e6}, 0}, /* many turns */
    {{-1, 1, 2, 3, -1, -2, 1, -4}, 0},
    {{0x1p954, 1, 0, 0, 0, 0, 0, 0x1p-450}, 5},
    {{0, 1, 0, 0, 0, 0x1p500, 0, 0x1p40}, 6}, /* P12 */
    {{0, 0x1p-400, 0, 0, 0, 0, 0, 0}, 8},     /* r0 cubed is zero */
};

static int names_one(uint64_t number)
{
    return number >= 31 && number <= 38;
}

/* Without a bad one, each is refused or answered as it says. */
static void test_sound(void)
{
    uint64_t a[15];
    size_t s;

    for (s = 0; s < COUNT(sound); s++)
        check(propagate(sound[s].e, a) == sound[s].number
                  && a[0] == sound[s].number, "none is bad");
    group("none of the eight is bad");
}

/* ---- one ---- */

static void expect_one(const double from[8], int i, uint64_t word,
                       const char *what)
{
    double e[8];

    memcpy(e, from, sizeof e);
    e[i] = sec_double(word);
    expect_refusal(e, numbers[i], 0, what);
    e[i] = sec_double(word | MINUS_ZERO);
    expect_refusal(e, numbers[i], 0, what);
}

static void test_one(void)
{
    size_t s, k;
    int i, bit;

    for (i = 0; i < 8; i++) {
        for (s = 0; s < COUNT(sound); s++)
            for (k = 0; k < COUNT(bad); k++)
                expect_one(sound[s].e, i, bad[k], "one is bad");
        for (bit = 0; bit < 52; bit++)
            expect_one(sound[0].e, i, INFINITE_WORD | (uint64_t)1 << bit,
                       "one is NaN, by each bit");
    }
    group("one of the eight is bad");
}

/* ---- several ---- */

static void expect_pair(const double from[8], int i, int j)
{
    double e[8];
    int k;

    memcpy(e, from, sizeof e);
    for (k = 0; k < 9; k++) {
        e[i] = sec_double(kinds[k / 3]);
        e[j] = sec_double(kinds[k % 3]);
        expect_refusal(e, numbers[i], 0, "of two the first");
    }
}

static void test_pairs(void)
{
    size_t s;
    int i, j;

    for (s = 0; s < COUNT(sound); s++)
        for (i = 0; i < 8; i++)
            for (j = i + 1; j < 8; j++)
                expect_pair(sound[s].e, i, j);
    group("two of the eight are bad");
}

static uint64_t any_bad(void)
{
    uint64_t sign = chance() & MINUS_ZERO;

    return bad[chance() % COUNT(bad)] | sign;
}

/* The lowest set bit of the pattern is the first bad one. */
static void expect_several(const double from[8], unsigned pattern)
{
    double e[8];
    int i, first = 8;

    memcpy(e, from, sizeof e);
    for (i = 7; i >= 0; i--)
        if (pattern >> i & 1) {
            e[i] = sec_double(any_bad());
            first = i;
        }
    expect_refusal(e, numbers[first], 0, "of several the first");
}

static void test_several(void)
{
    size_t s;
    unsigned pattern;
    double e[8];
    int i, k;

    for (s = 0; s < COUNT(sound); s++)
        for (pattern = 1; pattern < 256; pattern++)
            expect_several(sound[s].e, pattern);
    for (k = 0; k < 3; k++) {
        for (i = 0; i < 8; i++)
            e[i] = sec_double(kinds[k]);
        expect_refusal(e, 31, 0, "all eight are bad");
    }
    group("any of the eight are bad");
}

/* ---- before it ---- */

/* 1 comes before, by a run of another length. */
static void expect_run(const double e[8], size_t k, uint64_t number)
{
    uint64_t a[15], run[38];
    int i;

    fill(a, 15);
    fill(run, 38);
    check(partials(e, a, k > 0 ? run : NULL, k) == number, "length of a run");
    check(a[0] == number && a[1] == 0, "length of a run: number");
    for (i = 2; i < 15; i++)
        check(a[i] == 0, "length of a run: figures");
    check(kept(run, 38), "length of a run: kept");
}

/* 60 comes before all, by an answer run of another length. */
static void expect_answer_run(const uint64_t w[8], size_t n)
{
    uint64_t a[17], run[37], *answer = n > 0 ? a : NULL;
    size_t k;

    fill(a, 17);
    fill(run, 37);
    check(second_propagate(w[0], w[1], w[2], w[3], w[4], w[5], w[6], w[7],
                           answer, n) == 60, "60 before 31 to 38");
    for (k = 35; k <= 37; k++)
        check(second_partials(w[0], w[1], w[2], w[3], w[4], w[5], w[6], w[7],
                              answer, n, run, k) == 60,
              "60 before 1 and 31 to 38");
    check(kept(a, 17) && kept(run, 37), "60: kept");
}

static void test_before(void)
{
    static const size_t others[5] = {0, 1, 14, 16, 17};
    size_t k;
    int i, j;

    for (i = 0; i < 8; i++)
        for (j = 0; j < 3; j++) {
            double e[8] = {0, 1, 0, 0, 0, 0, 0, 1};
            uint64_t w[8] = {0, ONE, 0, 0, 0, 0, 0, ONE};

            e[i] = sec_double(kinds[j]);
            w[i] = kinds[j];
            for (k = 0; k <= 38; k++)
                expect_run(e, k, k == 36 ? numbers[i] : 1);
            for (k = 0; k < 5; k++)
                expect_answer_run(w, others[k]);
        }
    group("1 and 60 before 31 to 38");
}

/* ---- none of them ---- */

/* A finite figure, however large, is named by none of them. */
static void expect_finite(const double e[8])
{
    uint64_t a[15], run[36];

    check(!names_one(propagate(e, a)) && !names_one(a[0]), "finite");
    check(!names_one(partials(e, a, run, 36)) && !names_one(a[0]),
          "finite, with partials");
}

static void test_largest(void)
{
    size_t s;
    unsigned pattern;
    uint64_t sign;
    int i;

    for (s = 0; s < COUNT(sound); s++)
        for (pattern = 1; pattern < 256; pattern++)
            for (sign = 0; sign < 2; sign++) {
                double e[8];

                memcpy(e, sound[s].e, sizeof e);
                for (i = 0; i < 8; i++)
                    if (pattern >> i & 1)
                        e[i] = sec_double(LARGEST | sign * MINUS_ZERO);
                expect_finite(e);
            }
    group("the largest doubles are not bad");
}

/* The largest in P6 and in P10.  A position has no finite square; 2 mu and v
 * squared overflow likewise, but 3 comes before them.  Of tau H is finite, and
 * psi psi is infinite there with alpha zero. */
static void test_largest_by_hand(void)
{
    static const uint64_t p6[8] = {3, 4, 4, 4, 3, 3, 3, 3};
    static const uint64_t p10[8] = {4, 4, 4, 4, 4, 4, 4, 6};
    uint64_t sign;
    int i;

    for (i = 0; i < 8; i++)
        for (sign = 0; sign < 2; sign++) {
            double e[8] = {0, 0, 0, 0, 0, 0, 0, 0};
            double f[8] = {0, 1, 0, 0, 0, 0, 0, 1};

            e[i] = f[i] = sec_double(LARGEST | sign * MINUS_ZERO);
            expect_refusal(e, p6[i], 0, "the largest in P6");
            expect_refusal(f, p10[i], i == 7, "the largest in P10");
        }
    group("the largest doubles in P6 and P10");
}

/* ---- any words ---- */

static int bad_word(uint64_t word)
{
    return (word & INFINITE_WORD) == INFINITE_WORD;
}

/* Finite by its field or, one in eight, bad by it; any other bits. */
static uint64_t any_word(void)
{
    uint64_t word = chance();

    if (chance() % 8 == 0)
        return word | INFINITE_WORD;
    return bad_word(word) ? word ^ INFINITE_WORD : word;
}

static void test_any_words(void)
{
    unsigned long seen[9] = {0};
    double e[8];
    long n;
    int i, first;

    for (n = 0; n < 40000; n++) {
        first = 8;
        for (i = 7; i >= 0; i--) {
            uint64_t word = any_word();

            first = bad_word(word) ? i : first;
            e[i] = sec_double(word);
        }
        if (first < 8)
            expect_refusal(e, numbers[first], 0, "any words");
        else
            expect_finite(e);
        seen[first]++;
    }
    group("any words, some of them bad");
    printf("  31 to 38 and none of them seen:");
    for (i = 0; i <= 8; i++)
        printf(" %lu", seen[i]);
    printf("\n");
}

void selftest_bad(void)
{
    test_sound();
    test_one();
    test_pairs();
    test_several();
    test_before();
    test_largest();
    test_largest_by_hand();
    test_any_words();
}
