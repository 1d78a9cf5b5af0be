/*
**  Cases of T-06 through the C face: rows whose verdicts follow from the documents' words, and files of rows at the limits.
**
**  What is expected comes from the documents alone: the row that document 01 writes out for P10, and formulas worked out by
**  hand where every step is exact. Words are taken by the header's names, so these are tried too.
*/
#include "cases/shared/expected.h"

#include <math.h>
#include <stdio.h>
#include <stdlib.h>
#include <string.h>

const char *const test_name = "cases of rows";

#define MINUS_ZERO UINT64_C(0x8000000000000000)
#define LEAST 0x1p-1074
#define SIXTH (1.0 / 6)     /* "the rounded quotient" */
#define NO UINT64_C(0)
#define YES UINT64_C(1)

struct row {
    const char *name;
    uint64_t verdict;
    double words[KELUBASHI_CHECK_ROW];     /* mu, x y z, vx vy vz, tau; psi; position, velocity, acceleration */
};

/* A file of one row: "18 words each after a count". */
static void row_is(const char *name, const uint64_t *words, uint64_t verdict)
{
    uint64_t whole[1 + KELUBASHI_CHECK_ROW] = { 1 };

    memcpy(whole + 1, words, KELUBASHI_CHECK_ROW * sizeof *words);
    words_of(&file, whole, 1 + KELUBASHI_CHECK_ROW);
    judges(name, &verdict, 1);
}

static void put_words(const struct row *row, uint64_t *words)
{
    size_t i;

    for (i = 0; i < KELUBASHI_CHECK_ROW; i++)
        words[i] = kelubashi_word(row->words[i]);
}

/* ---- rows by hand ---- */

/* Without a force and at rest, on the x axis: f and g' are 1, f' is a zero and g is tau, so whatever psi is, the end is the start. */
#define REST(x, tau, psi) { 0, x, 0, 0, 0, 0, 0, tau, psi, x, 0, 0, 0, 0, 0, -0.0, -0.0, -0.0 }

/* The distance is 13 and mu its cube, so that the acceleration is the position turned round. */
#define AT_ONCE(tau, psi) { 2197, 3, 4, 12, 5, 6, 7, tau, psi, 3, 4, 12, 5, 6, 7, -3, -4, -12 }

/* A circle of radius 1 about mu 1, whose period is 2 pi as a double; at the end where it began. */
#define PERIOD 0x1.921fb54442d18p+2
#define CIRCLE(tau, psi) { 1, 1, 0, 0, 0, 1, 0, tau, psi, 1, 0, 0, 0, 1, 0, -1, -0.0, -0.0 }

/*
**  alpha is 3 - 6/2, zero, so that c0 = c1 = 1, c2 = 1/2 and c3 = 1/6, of which 24 are 4 when rounded. At psi = 2: s1 = 2, s2 = 2, mu s3 = 4;
**  the time is (2 2 - 2 2) + 4, tau exactly; r = (2 - 2 2) + 3 2 = 4; f = -2, g = 0, f' = -6/8, g' = -1/2.
*/
#define PARABOLA(tau, psi) { 3, 2, 0, 0, -1, 1, 1, tau, psi, -4, 0, 0, -1, -0.5, -0.5, 0.1875, -0.0, -0.0 }

/*
**  Again alpha is zero: 2^300 - 2/2^-299. The cube of psi is so large beside r0 that the time is mu s3 and r is s2 when rounded, and both g and g' are 0: at
**  psi = 2^n, x ends at -2^(2n-1) with vx = -2^(1-n), and r r r is infinite. |tau|/r0 overflows for n = 333, which is 4 by H, and not for 200.
*/
#define CUBE(n) { 1, 0x1p-299, 0, 0, 0, 0x1p150, 0, SIXTH * ldexp(1, 3 * (n)), ldexp(1, n), \
                  -ldexp(1, 2 * (n) - 1), 0, 0, -ldexp(1, 1 - (n)), 0, 0, 0, -0.0, -0.0 }

static void by_hand(void)
{
    const struct row rows[] = {
        { "P10", YES, REST(1, 1, 1) },
        { "P11", YES, REST(1, -1, -1) },
        { "P10 with P11's psi", NO, REST(1, 1, -1) },
        { "P11 with P10's psi", NO, REST(1, -1, 1) },
        { "P10, a place out: exact is in", NO, REST(1, 1, 1 + 0x1p-52) },
        { "P10, a place in: exact is out", NO, REST(1, 1, 1 - 0x1p-53) },
        { "P10, two places out", NO, REST(1, 1, 1 + 0x1p-51) },
        { "P10, two places in", NO, REST(1, 1, 1 - 0x1p-52) },
        { "P10, psi zero", NO, REST(1, 1, 0) },
        { "P10, psi infinite", NO, REST(1, 1, INFINITY) },
        { "P10, psi a NaN", NO, REST(1, 1, NAN) },
        { "P10, psi whose square overflows", NO, REST(1, 1, 0x1p512) },

        /* 31 to 38, 3 and 4: "Others zero in P6 to P9", with the end where it began */
        { "P6", NO, REST(0, 0, 0) },
        { "P7", NO, REST(NAN, 0, 0) },
        { "P8", NO, REST(0x1p-600, 0, 0) },
        { "P9", NO, REST(0x1p600, 0, 0) },
        { "P10 for an infinite time", NO, REST(1, INFINITY, 1) },

        /* what our own call answers to P12; at the place beyond +0 the time is as short */
        { "P12's refusal", NO, { 0, 1, 0, 0, 0, 0x1p500, 0, 0x1p40, 0, 0, 0, 0, 0, 0, 0, 0, 0, 0 } },

        /* the square of the drift is zero, so the anomalies are P10's and P11's; y is tau times the drift */
        { "a drift", YES, { 0, 1, 0, 0, 0, 0x1p-600, 0, 1, 1, 1, 0x1p-600, 0, 0, 0x1p-600, 0, -0.0, -0.0, -0.0 } },
        { "a drift back", YES, { 0, 1, 0, 0, 0, 0x1p-600, 0, -1, -1, 1, -0x1p-600, 0, 0, 0x1p-600, 0, -0.0, 0, -0.0 } },
        { "a drift back with the acceleration of one on", NO,
          { 0, 1, 0, 0, 0, 0x1p-600, 0, -1, -1, 1, -0x1p-600, 0, 0, 0x1p-600, 0, -0.0, -0.0, -0.0 } },

        { "tau +0", YES, AT_ONCE(0, 0) },
        { "tau -0", YES, AT_ONCE(-0.0, 0) },
        { "tau +0, psi -0", NO, AT_ONCE(0, -0.0) },
        { "tau -0, psi -0", NO, AT_ONCE(-0.0, -0.0) },
        { "tau +0, another psi", NO, AT_ONCE(0, LEAST) },

        /* 1.5 and the like are whole numbers of least doubles when rounded: -1 at place 0 and 1 at place 1, or -2 and 1 */
        { "a tie", YES, REST(1.5, LEAST, 0) },
        { "a tie, the past end", NO, REST(1.5, LEAST, LEAST) },
        { "a tie, the other zero", NO, REST(1.5, LEAST, -0.0) },
        { "a tie before the start", YES, REST(1.5, -LEAST, -0.0) },
        { "a tie before the start, the past end", NO, REST(1.5, -LEAST, -LEAST) },
        { "a tie before the start, the other zero", NO, REST(1.5, -LEAST, 0) },
        { "the past end", YES, REST(3, 2 * LEAST, LEAST) },
        { "the past end is nearer than place 0", NO, REST(3, 2 * LEAST, 0) },
        { "the past end before the start", YES, REST(3, -2 * LEAST, -LEAST) },
        { "the past end before the start is nearer", NO, REST(3, -2 * LEAST, -0.0) },
        { "place 0 is nearer", YES, REST(3, LEAST, 0) },
        { "place 0 is nearer than the past end", NO, REST(3, LEAST, LEAST) },
        { "place 2 has a past neighbour", NO, REST(3, LEAST, 2 * LEAST) },
        { "4 of 3 by 3: exact is not there, 3 is short", YES, REST(3, 4 * LEAST, LEAST) },
        { "6 is past, and farther", NO, REST(3, 4 * LEAST, 2 * LEAST) },
        { "5 of 3 by 3: 6 is nearer", YES, REST(3, 5 * LEAST, 2 * LEAST) },
        { "3 is short, and farther", NO, REST(3, 5 * LEAST, LEAST) },

        { "a parabola", YES, PARABOLA(4, 2) },
        { "a parabola, a place out", NO, PARABOLA(4, 2 + 0x1p-51) },
        { "a parabola, a place in", NO, PARABOLA(4, 2 - 0x1p-52) },
        { "a parabola for another time", NO, PARABOLA(5, 2) },
        { "a cube", YES, CUBE(200) },
        { "4 by H alone", NO, CUBE(333) },

        { "a revolution", YES, CIRCLE(PERIOD, 0) },
        { "a revolution back", YES, CIRCLE(-PERIOD, 0) },
        { "a revolution back, -0", NO, CIRCLE(-PERIOD, -0.0) },
        { "a revolution, the whole anomaly", NO, CIRCLE(PERIOD, PERIOD) },
        { "2^40 revolutions", YES, CIRCLE(0x1p40 * PERIOD, 0) },
        { "2^40 revolutions back", YES, CIRCLE(-0x1p40 * PERIOD, 0) },
        { "one more, of which none comes off: +0 has a short neighbour", NO, CIRCLE((0x1p40 + 1) * PERIOD, 0) },

        /* straight to the centre at the speed of escape: psi = 2 is exact, and r = (2 - 2 2) + 2 is zero there */
        { "7", NO, { 1, 2, 0, 0, -1, 0, 0, 8 * SIXTH, 2, 0, 0, 0, 0, 0, 0, 0, -0.0, -0.0 } },
        /* psi = 1 is exact, but r0 r0 r0 is zero */
        { "8", NO, REST(0x1p-400, 0x1p-400, 1) },
    };
    uint64_t words[KELUBASHI_CHECK_ROW];
    size_t i;

    for (i = 0; i < sizeof rows / sizeof rows[0]; i++) {
        put_words(&rows[i], words);
        row_is(rows[i].name, words, rows[i].verdict);
    }
}

/* ---- P10's row with another word ---- */

static const struct row P10 = { "P10", YES, REST(1, 1, 1) };

/* -0 for the zeros of the input: a y of -0 ends at -0 + 0, which is 0, but a vx of -0 ends as -0 - 0; and mu -0 makes an acceleration +0. */
static void other_zeros(void)
{
    static const uint64_t verdicts[KELUBASHI_CHECK_PSI] = { NO, YES, YES, YES, NO, NO, NO, YES };
    uint64_t words[KELUBASHI_CHECK_ROW];
    size_t i;

    for (i = 0; i < KELUBASHI_CHECK_PSI; i++) {
        put_words(&P10, words);
        if (words[i] == 0)
            words[i] = MINUS_ZERO;
        row_is("P10 with another zero", words, verdicts[i]);
    }
}

/* Each of the eight a NaN or infinite: 31 to 38. */
static void not_finite(void)
{
    static const double bad[] = { NAN, INFINITY, -INFINITY };
    uint64_t words[KELUBASHI_CHECK_ROW];
    size_t i;

    for (i = 0; i < 3 * KELUBASHI_CHECK_PSI; i++) {
        put_words(&P10, words);
        words[i / 3] = kelubashi_word(bad[i % 3]);
        row_is("P10 with a figure that is not finite", words, NO);
    }
}

/* ---- files ---- */

static uint64_t verdicts[KELUBASHI_MOST_CHECK_ROWS + 1];

/* So many rows of P10. */
static void file_of(uint64_t count)
{
    uint64_t words[KELUBASHI_CHECK_ROW];
    size_t i;

    words_of(&file, &count, 1);
    put_words(&P10, words);
    for (i = 0; i < KELUBASHI_CHECK_ROW * count; i++, file.length += 8)
        put_word(&file, file.length, words[i % KELUBASHI_CHECK_ROW]);
}

/* Another word in a row of it. */
static void change(size_t row, size_t word, uint64_t bits)
{
    uint64_t words[KELUBASHI_CHECK_ROW];

    put_words(&P10, words);
    put_word(&file, 8 + 8 * (KELUBASHI_CHECK_ROW * row + word), words[word] ^ bits);
}

/* "In every bit", and psi - tau is zero for one psi alone, beside which only exact is found: a row for each bit, and one as it was. */
static void one_bit(void)
{
    size_t word, bit;

    for (word = KELUBASHI_CHECK_PSI; word < KELUBASHI_CHECK_ROW; word++) {
        file_of(65);
        for (bit = 0; bit < 64; bit++) {
            change(bit, word, UINT64_C(1) << bit);
            verdicts[bit] = NO;
        }
        verdicts[64] = YES;
        judges("P10 with another bit", verdicts, 65);
    }
}

/* Rows of which every third has another bit in the x of the end. */
static void mixed(uint64_t count)
{
    size_t i;

    file_of(count);
    for (i = 0; i < count; i++) {
        verdicts[i] = i % 3 == 2 ? NO : YES;
        if (verdicts[i] == NO)
            change(i, KELUBASHI_CHECK_X, 1);
    }
}

static void limits(void)
{
    static const uint64_t counts[] = { 0, 1, 2, 3, 399, 400 };
    size_t i;

    for (i = 0; i < sizeof counts / sizeof counts[0]; i++) {
        mixed(counts[i]);
        judges("rows at the limits", verdicts, (size_t)counts[i]);
    }
    if (file.length != KELUBASHI_MOST_CHECK_FILE) {
        printf("%s: the longest file has %zu bytes\n", test_name, file.length);
        exit(EXIT_FAILURE);
    }
}

/* "21 a needed word not whole", at its first byte: every cut of two rows, whose 37 words are 296 bytes. */
static void cuts(void)
{
    size_t length;

    for (length = 0; length < 296; length++) {
        file_of(2);
        file.length = length;
        refuses_rows("two rows, broken off", 21, length / 8 * 8);
    }
}

static void counted(const char *name, uint64_t rows, uint64_t count, size_t length, uint64_t number, uint64_t place)
{
    file_of(rows);
    put_word(&file, 0, count);
    file.length = length;
    refuses_rows(name, number, place);
}

/* 23 at the count, before all that follows it; 25 at the first byte left. */
static void other_counts(void)
{
    counted("401 rows, all there", 401, 401, 57752, 23, 0);
    counted("401 rows, of which two are there", 2, 401, 296, 23, 0);
    counted("401 for two rows, and a byte left", 2, 401, 297, 23, 0);
    counted("a count whose rows are two in its lower half", 2, UINT64_C(0x100000002), 296, 23, 0);
    counted("a count whose bytes wrap around to two rows'", 2, (UINT64_C(1) << 60) + 2, 296, 23, 0);
    counted("the largest count", 2, UINT64_MAX, 296, 23, 0);
    counted("400 rows, of which two are there", 2, 400, 296, 21, 296);
    counted("400 rows, a byte short", 400, 400, 57607, 21, 57600);
    counted("three rows, of which two are there", 2, 3, 296, 21, 296);
    counted("one row of two", 2, 1, 296, 25, 152);
    counted("no row of two", 2, 0, 296, 25, 8);
    counted("two rows and a byte", 2, 2, 297, 25, 296);
    counted("400 rows and a byte", 400, 400, 57609, 25, 57608);
    counted("no row and a byte", 0, 0, 9, 25, 8);
}

/* 60, before 21, 23, 25 and 26. */
static void other_answers(void)
{
    static const size_t counts[] = { 0, 1, 3 };
    size_t i;

    for (i = 0; i < sizeof counts / sizeof counts[0]; i++) {
        file_of(2);
        refuses_count("two rows and an answer of another length", counts[i]);
        file.length = 297;
        refuses_count("a byte more and an answer of another length", counts[i]);
        file.length = 0;
        refuses_count("no file and an answer of another length", counts[i]);
    }
}

int main(void)
{
    by_hand();
    one_bit();
    other_zeros();
    not_finite();
    limits();
    cuts();
    other_counts();
    other_answers();
    printf("cases of rows: rows by hand, every bit of P10's anomaly and figures, the limits, every cut of two rows: %u calls, none differs\n", calls);
    return EXIT_SUCCESS;
}
