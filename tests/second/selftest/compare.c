/* Two result files (T-07): kinds of rows, and the first largest distance. */
#include "compare.h"

#include "second/second.h"

#include <string.h>

#define FILE_BYTES (HEAD_BYTES + ROW_BYTES * (MOST_ROWS + 1) + 64)
#define COUNT(run) (sizeof(run) / sizeof(run)[0])

/* The files begin at an odd byte. */
static uint8_t rooms[2][FILE_BYTES + 1];
uint8_t *const files[2] = {rooms[0] + 1, rooms[1] + 1};
uint64_t told[MOST_TOLD + 8], answer7[8];

/* ---- files ---- */

size_t length_of(size_t rows)
{
    return HEAD_BYTES + ROW_BYTES * rows;
}

void put_word(int side, size_t row, size_t word, uint64_t value)
{
    put64(files[side] + HEAD_BYTES + ROW_BYTES * row + 8 * word, value);
}

void put_both(size_t row, size_t word, uint64_t left, uint64_t right)
{
    put_word(LEFT, row, word, left);
    put_word(RIGHT, row, word, right);
}

void put_file(int side, size_t rows)
{
    size_t row, word;

    put64(files[side], 1);
    put64(files[side] + 8, rows);
    for (row = 0; row < rows; row++) {
        put_word(side, row, 0, 0);
        put_word(side, row, 1, chance());
        for (word = FIGURE; word < ROW_WORDS; word++)
            put_word(side, row, word, ONE);
    }
    memset(files[side] + length_of(rows), 0xA5, 64);
}

void put_files(size_t rows)
{
    put_file(LEFT, rows);
    put_file(RIGHT, rows);
}

/* ---- calls ---- */

uint64_t compare(size_t left_length, size_t right_length, size_t k,
                 const char *what)
{
    uint64_t number;

    fill(told, k + 8);
    fill(answer7, 8);
    number = second_compare(left_length > 0 ? files[LEFT] : NULL, left_length,
                            right_length > 0 ? files[RIGHT] : NULL,
                            right_length, k > 0 ? told : NULL, k, answer7, 7);
    check(number == answer7[0] && answer7[7] == KEPT && kept(told + k, 8),
          what);
    return number;
}

void expect_largest(size_t rows, uint64_t row, uint64_t word,
                    uint64_t distance, const char *what)
{
    size_t length = length_of(rows);

    check(compare(length, length, TOLD * rows, what) == 0, what);
    check(answer7[0] == 0 && answer7[1] == 0 && answer7[2] == 0
              && answer7[3] == rows, what);
    check(answer7[4] == row && answer7[5] == word && answer7[6] == distance,
          what);
}

void expect_refused(size_t left_length, size_t right_length, size_t k,
                    uint64_t number, uint64_t side, uint64_t place,
                    const char *what)
{
    check(compare(left_length, right_length, k, what) == number, what);
    check(answer7[0] == number && answer7[1] == side && answer7[2] == place,
          what);
    check(answer7[3] == 0 && answer7[4] == 0 && answer7[5] == 0
              && answer7[6] == 0, what);
    check(kept(told, k), what);
}

int row_is(size_t row, uint64_t kind)
{
    return told[TOLD * row] == kind;
}

int figure_is(size_t row, size_t figure, uint64_t kind, uint64_t distance)
{
    const uint64_t *at = told + TOLD * row + 1 + 2 * figure;

    return at[0] == kind && at[1] == distance;
}

int row_is_refused(size_t row, uint64_t kind)
{
    size_t i;

    for (i = 0; i < FIGURES; i++)
        if (!figure_is(row, i, BY_NOTHING, 0))
            return 0;
    return row_is(row, kind);
}

/* Nothing of it moved. */
static int row_is_still(size_t row)
{
    size_t i;

    for (i = 0; i < FIGURES; i++)
        if (!figure_is(row, i, BY_DISTANCE, 0))
            return 0;
    return row_is(row, BOTH_ANSWERED);
}

/* ---- kinds of rows ---- */

/* The first is no refusal; the others are, those too that no rule gives and
 * those that are a zero or the same number in one half of the word. */
static const uint64_t numbers[] = {
    0, 1, 2, 8, 31, 38, 39, 60, 256, (uint64_t)1 << 32,
    1 | (uint64_t)1 << 32, MINUS_ZERO, 1 | MINUS_ZERO, ONE, NAN_WORD,
    0xFFFFFFFFu, 0xFFFFFFFFFFFFFFFFu};

static uint64_t kind_of(size_t left, size_t right)
{
    static const uint64_t apart[2][2] = {
        {BOTH_ANSWERED, RIGHT_ALONE}, {LEFT_ALONE, TWO_NUMBERS}};

    return left == right && left > 0 ? (uint64_t)ONE_NUMBER
        : apart[left > 0][right > 0];
}

/* Any words in a row, and on either side of it a row where nothing moved. */
static void expect_kind(size_t left, size_t right)
{
    size_t word;

    for (word = 1; word < ROW_WORDS; word++)
        put_both(1, word, chance(), chance());
    put_both(1, 0, numbers[left], numbers[right]);
    expect_largest(3, 0, FIGURE, 0, "kind of a row");
    check(row_is_refused(1, kind_of(left, right)), "kind of a row");
    check(row_is_still(0) && row_is_still(2), "kind of a row, beside it");
}

/* With figures that are equal too, which are told no more than others. */
static void test_kinds(void)
{
    size_t left, right, word;

    put_files(3);
    for (left = 0; left < COUNT(numbers); left++)
        for (right = 0; right < COUNT(numbers); right++)
            if (left > 0 || right > 0)
                expect_kind(left, right);
    for (word = FIGURE; word < ROW_WORDS; word++)
        put_both(1, word, ONE, ONE);
    put_both(1, 0, 0, 0);
    expect_largest(3, 0, FIGURE, 0, "answered on both sides");
    check(row_is_still(1), "answered on both sides");
    put_both(1, 0, 3, 3);
    expect_largest(3, 0, FIGURE, 0, "equal figures, one number");
    check(row_is_refused(1, ONE_NUMBER), "equal figures, one number");
    put_both(1, 0, 3, 0);
    expect_largest(3, 0, FIGURE, 0, "equal figures, left alone");
    check(row_is_refused(1, LEFT_ALONE), "equal figures, left alone");
    group("kinds of rows");
}

/* They are told nowhere, whether they are equal or not. */
static void test_points(void)
{
    static const uint64_t points[] = {
        0, 1, 21, 167, 168, ONE, MINUS_ZERO, NAN_WORD, INFINITE_WORD,
        0xFFFFFFFFFFFFFFFFu};
    size_t i, j;

    put_files(2);
    for (i = 0; i < COUNT(points); i++)
        for (j = 0; j < COUNT(points); j++) {
            put_both(0, 1, points[i], points[j]);
            expect_largest(2, 0, FIGURE, 0, "points");
            check(row_is_still(0) && row_is_still(1), "points");
        }
    group("points are not compared");
}

/* ---- the first largest ---- */

/* From 1.0, so many places up. */
static void put_distance(size_t figure, uint64_t distance)
{
    put_both(figure / FIGURES, FIGURE + figure % FIGURES, ONE, ONE + distance);
}

static void expect_at(size_t rows, size_t figure, uint64_t distance,
                      const char *what)
{
    expect_largest(rows, figure / FIGURES, FIGURE + figure % FIGURES, distance,
                   what);
}

/* Two of the figures of three rows, in every way: equal distances, and one of
 * them the larger.  The distances are told beside. */
static void test_two_distances(void)
{
    size_t a, b;

    put_files(3);
    for (a = 0; a < 3 * FIGURES; a++) {
        put_distance(a, 5);
        for (b = a + 1; b < 3 * FIGURES; b++) {
            put_distance(b, 5);
            expect_at(3, a, 5, "a tie");
            put_distance(b, 6);
            expect_at(3, b, 6, "the second is larger");
            check(figure_is(a / 9, a % 9, BY_DISTANCE, 5)
                      && figure_is(b / 9, b % 9, BY_DISTANCE, 6), "both told");
            put_distance(b, 4);
            expect_at(3, a, 5, "the first is larger");
            put_distance(b, 0);
        }
        expect_at(3, a, 5, "one distance alone");
        put_distance(a, 0);
    }
    expect_at(3, 0, 0, "no distance but 0");
    group("the first largest of two distances");
}

/* 1, 2, 3 and so on, from the first figure on or from the last; all alike. */
static void test_all_distances(void)
{
    size_t i, most = 4 * FIGURES;

    put_files(4);
    for (i = 0; i < most; i++)
        put_distance(i, 1 + i);
    expect_at(4, most - 1, most, "each larger than the last");
    for (i = 0; i < most; i++)
        put_distance(i, most - i);
    expect_at(4, 0, most, "each smaller than the last");
    for (i = 0; i < most; i++)
        put_distance(i, 7);
    expect_at(4, 0, 7, "all the same");
    put_distance(0, 6);
    expect_at(4, 1, 7, "all the same but the first");
    group("the first largest of all distances");
}

/* Distances from 2^63 on are larger than those below: -2 to 2 is 2^63, and -2
 * to the place before 2 one less; from the largest to its minus is the most. */
static void test_long_distances(void)
{
    static const uint64_t two = 0x4000000000000000u;

    put_files(2);
    put_both(0, 3, two | MINUS_ZERO, two - 1);
    put_both(1, 9, two | MINUS_ZERO, two);
    expect_largest(2, 1, 9, P63, "2^63 after one less");
    check(figure_is(0, 1, BY_DISTANCE, P63 - 1)
              && figure_is(1, 7, BY_DISTANCE, P63), "2^63 and one less");
    put_both(0, 2, ONE, ONE + 1);
    put_both(1, 9, ONE, ONE);
    expect_largest(2, 0, 3, P63 - 1, "one less than 2^63");
    put_both(1, 2, LARGEST, LARGEST | MINUS_ZERO);
    put_both(1, 3, LARGEST | MINUS_ZERO, LARGEST);
    put_both(1, 4, two, two | MINUS_ZERO);
    expect_largest(2, 1, 2, 2 * (2047 * P52 - 1), "the most of all");
    put_both(0, 0, 1, 0);
    expect_largest(2, 1, 2, 2 * (2047 * P52 - 1), "and another row refused");
    group("the first largest of long distances");
}

/* ---- no part in it ---- */

/* Refused on a side, a row has no distance, however far its figures are. */
static void expect_no_part(size_t row, uint64_t left, uint64_t right,
                           uint64_t kind)
{
    size_t first = row == 0 ? 1 : 0, moved = (row + 1) % 3, word;

    put_files(3);
    put_both(row, 0, left, right);
    for (word = FIGURE; word < ROW_WORDS; word++)
        put_both(row, word, LARGEST, LARGEST | MINUS_ZERO);
    expect_largest(3, first, FIGURE, 0, "a refused row, others still");
    check(row_is_refused(row, kind) && row_is_still(first),
          "a refused row, others still");
    put_both(moved, 10, ONE, ONE - 3);
    expect_largest(3, moved, 10, 3, "a refused row, another moved");
    check(row_is_refused(row, kind), "a refused row, another moved");
}

static void test_refused_rows(void)
{
    size_t row;

    for (row = 0; row < 3; row++) {
        expect_no_part(row, 5, 0, LEFT_ALONE);
        expect_no_part(row, 0, 5, RIGHT_ALONE);
        expect_no_part(row, 5, 5, ONE_NUMBER);
        expect_no_part(row, 5, 6, TWO_NUMBERS);
    }
    group("refused rows have no distance");
}

/* Nor has a figure that is not finite; the first that has one is found behind
 * those that have not. */
static void test_not_finite(void)
{
    size_t figure, last = 3 * FIGURES;

    put_files(3);
    for (figure = 0; figure < last; figure++) {
        expect_at(3, figure, 0, "behind those not finite");
        if (figure + 1 < last) {
            put_distance(last - 1, 1);
            expect_at(3, last - 1, 1, "the last alone moved");
            put_distance(last - 1, 0);
        }
        put_both(figure / 9, FIGURE + figure % 9,
                 figure % 2 ? INFINITE_WORD : ONE,
                 figure % 3 ? NAN_WORD : INFINITE_WORD);
    }
    expect_largest(3, 3, NO_WORD, 0, "none is finite on both sides");
    check(row_is(0, BOTH_ANSWERED) && row_is(1, BOTH_ANSWERED)
              && row_is(2, BOTH_ANSWERED), "rows with nothing finite");
    group("figures that are not finite have no distance");
}

/* No row, all refused, or some refused and the others not finite. */
static void test_none(void)
{
    static const size_t counts[] = {0, 1, 2, 3, 40, MOST_ROWS};
    size_t i, row, word;

    for (i = 0; i < COUNT(counts); i++) {
        size_t rows = counts[i];

        put_files(rows);
        for (row = 0; row < rows; row++)
            put_both(row, 0, row % 3 != 1, row % 3 != 0 ? row : 0);
        expect_largest(rows, rows, NO_WORD, 0, "all rows are refused");
        for (row = 0; row < rows; row += 2) {
            put_both(row, 0, 0, 0);
            for (word = FIGURE; word < ROW_WORDS; word++)
                put_both(row, word, MINUS_INFINITE, MINUS_INFINITE);
        }
        expect_largest(rows, rows, NO_WORD, 0, "refused or not finite");
        if (rows == 0)
            continue;
        put_both(rows - 1, 0, 0, 0);
        put_both(rows - 1, 10, 0, MINUS_ZERO);
        for (word = FIGURE; word < 10; word++)
            put_both(rows - 1, word, NAN_WORD, NAN_WORD);
        expect_largest(rows, rows - 1, 10, 0, "the last figure alone");
    }
    group("no distance at all");
}

void selftest_compare(void)
{
    test_kinds();
    test_points();
    test_two_distances();
    test_all_distances();
    test_long_distances();
    test_refused_rows();
    test_not_finite();
    test_none();
}
