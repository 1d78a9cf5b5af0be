/* Another station's rows (T-06): our own ones, those with a word changed, and
 * those of any bits. */
#include "checked.h"

#include <math.h>
#include <stdio.h>
#include <string.h>

/* ---- our own rows ---- */

/* With it go the two places on either side, each with the figures of its own,
 * so that the anomaly decides. */
static void expect_own(const double e[8], const char *what)
{
    uint64_t row[ROW_WORDS], beside[ROW_WORDS], step;
    struct start s;

    check(own_row(e, row) && right_row(row), what);
    expect_row(row, 1, what);
    check(sec_start(e, &s) == 0, what);
    if (sec_zero(s.searched))
        return;
    for (step = 1; step <= 2; step++) {
        put_row(&s, row[PSI] + step, beside);
        expect_row(beside, right_row(beside), what);
        put_row(&s, row[PSI] - step, beside);
        expect_row(beside, right_row(beside), what);
    }
}

/* At right angles at the speed of escape, a few places off it or none. */
static void parabola(double e[8], int places, double tau)
{
    static const double exact[8] = {0.5, 1, 0, 0, 0, 1, 0, 0};

    memcpy(e, exact, sizeof exact);
    e[5] = sec_double(ONE + (uint64_t)(int64_t)places);
    e[7] = tau;
}

static void test_own(void)
{
    double e[8];
    int kind, i;

    for (kind = 0; kind < 4; kind++)
        for (i = 0; i < 1000; i++) {
            orbit(e, kind, i % 2 ? 398600.4418 : 1.0,
                  i % 2 ? between(6600, 45000) : between(0.5, 2));
            expect_own(e, "our own row");
            e[7] = sec_double(i % 2 ? MINUS_ZERO : 0);
            expect_own(e, "our own row for a zero tau");
        }
    for (i = -500; i <= 500; i++) {
        parabola(e, i % 7, between(-20, 20));
        expect_own(e, "our own row, almost a parabola");
    }
    group("our own rows are accepted");
}

/* Of some turns and a part of one, and of whole turns of the unit circle. */
static void test_own_turns(void)
{
    double e[8] = {1, 1, 0, 0, 0, 1, 0, 0};
    int i;

    for (i = -500; i <= 500; i++) {
        e[7] = i * (2 * 0x1.921fb54442d18p+1);
        expect_own(e, "our own row of whole turns");
    }
    for (i = 0; i < 2000; i++) {
        orbit(e, 0, 1.0, between(0.5, 2));
        e[7] += ldexp(between(-1, 1), i % 40) * turn_time(e);
        expect_own(e, "our own row of some turns");
    }
    group("our own rows of many turns are accepted");
}

/* ---- one word changed ---- */

static void expect_changed(const uint64_t row[ROW_WORDS], size_t which,
                           uint64_t word, unsigned long *yes)
{
    uint64_t changed[ROW_WORDS];
    int right;

    memcpy(changed, row, sizeof changed);
    changed[which] = word;
    right = right_row(changed);
    check(!right || which < FIGURES, "a changed figure is right");
    expect_row(changed, right, "one word changed");
    *yes += right ? 1u : 0u;
}

/* Each word by one place either way, and each of its bits. */
static void expect_each(const double e[8], unsigned long *yes)
{
    uint64_t row[ROW_WORDS];
    size_t i;
    int bit;

    check(own_row(e, row), "a row to change");
    expect_row(row, 1, "a row to change");
    for (i = 0; i < ROW_WORDS; i++) {
        expect_changed(row, i, row[i] + 1, yes);
        expect_changed(row, i, row[i] - 1, yes);
        for (bit = 0; bit < 64; bit++)
            expect_changed(row, i, row[i] ^ (uint64_t)1 << bit, yes);
    }
}

static void test_changed(void)
{
    static const double plain[][8] = {
        {0, 1, 0, 0, 0, 0, 0, 1}, {0, 1, 0, 0, 0, 0, 0, -1},
        {1, 1, 0, 0, 0, 1, 0, 0}, {1, 1, 0, 0, 0, 1, 0, -0.0},
        {1, 1, 0, 0, 0, 1, 0, 2}, {1, 1, 0, 0, 0, 1, 0, -100},
        {1, 1, 0, 0, 0, 1, 0, 0x1.921fb54442d18p+2}, /* one turn */
        {0.5, 1, 0, 0, 0, 1, 0, 3}, {1, 3, 0, 0, 0, 0, 0, 1},
    };
    double e[8];
    unsigned long yes = 0;
    size_t i;

    for (i = 0; i < sizeof plain / sizeof plain[0]; i++)
        expect_each(plain[i], &yes);
    for (i = 0; i < 24; i++) {
        orbit(e, (int)(i % 4), i % 8 < 4 ? 398600.4418 : 1.0,
              i % 8 < 4 ? between(6600, 45000) : between(0.5, 2));
        if (i >= 16 && i % 4 == 0)
            e[7] += 1000 * turn_time(e);
        expect_each(e, &yes);
    }
    group("rows with one word changed");
    printf("  of these accepted: %lu\n", yes);
}

/* ---- any bits ---- */

/* A row that the call refuses, unless by 5 or 6, which are of the search.  With
 * 7 or 8 it has the psi that is found and the formulas' figures, and nothing
 * else is wrong; answers whether it was one of these. */
static int expect_refused(const double e[8], uint64_t row[ROW_WORDS])
{
    struct start s;
    struct found found;

    if (sec_start(e, &s) != 0) {
        expect_row(row, 0, "a start that is refused");
        return 0;
    }
    found = sec_search(&s);
    if (found.refusal != 0)
        return 0;
    put_row(&s, sec_word(found.psi), row);
    check(right_psi(&s, row[PSI]) && !no_refusal(&s, row), "7 or 8");
    expect_row(row, 0, "results that are refused");
    return 1;
}

/* Below a power of two in size, and now and then a zero. */
static double any_number(int most)
{
    int power = (int)(chance() % (2 * (unsigned)most)) - most;
    double number = ldexp(between(-1, 1), power);

    return chance() % 12 == 0 ? sec_double(MINUS_ZERO & chance()) : number;
}

static void test_any(void)
{
    uint64_t row[ROW_WORDS];
    unsigned long own = 0, refused = 0;
    double e[8];
    size_t i, j;

    for (i = 0; i < 20000; i++) {
        for (j = 0; j < 8; j++)
            e[j] = any_number(i % 2 ? 130 : 1000);
        for (j = 0; j < ROW_WORDS; j++)
            row[j] = j < 8 ? sec_word(e[j]) : chance();
        expect_row(row, 0, "any words for an anomaly and figures");
        if (own_row(e, row)) {
            expect_row(row, 1, "our own row, any bits");
            own++;
        } else if (expect_refused(e, row))
            refused++;
    }
    group("rows of any bits");
    printf("  answered, and refused by 7 or 8: %lu %lu\n", own, refused);
}

void selftest_checked(void)
{
    test_own();
    test_own_turns();
    test_changed();
    test_any();
}
