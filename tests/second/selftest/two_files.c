/* Two result files (T-07): their refusals, which of several comes first, and
 * whole files of any rows. */
#include "compare.h"

#include "second/second.h"

#include <string.h>

#define COUNT(run) (sizeof(run) / sizeof(run)[0])
#define MOST_BYTES (HEAD_BYTES + ROW_BYTES * MOST_ROWS)

/* ---- one file refused ---- */

/* A file that is refused, on either side, beside a sound one; with room for all
 * that would be told, and with none. */
static void expect_file(int side, size_t length, size_t rows, uint64_t number,
                        uint64_t place, const char *what)
{
    size_t sound = length_of(rows);
    size_t left = side == LEFT ? length : sound;
    size_t right = side == RIGHT ? length : sound;

    expect_refused(left, right, TOLD * rows, number, (uint64_t)side, place,
                   what);
    expect_refused(left, right, 0, number, (uint64_t)side, place, what);
}

/* Of no row to two, every length, on either side. */
static void test_lengths(void)
{
    size_t rows, length, whole;
    int side;

    for (rows = 0; rows <= 2; rows++)
        for (side = LEFT; side <= RIGHT; side++) {
            put_files(rows);
            whole = length_of(rows);
            for (length = 0; length < whole; length++)
                expect_file(side, length, rows, 21, length - length % 8,
                            "cut off");
            expect_largest(rows, 0, rows > 0 ? FIGURE : NO_WORD, 0, "whole");
            for (length = whole + 1; length <= whole + 48; length++)
                expect_file(side, length, rows, 25, whole, "bytes left");
        }
    group("result files of every length");
}

/* 22 needs the edition word alone, and comes before all that stands behind. */
static void test_editions(void)
{
    static const uint64_t editions[] = {
        0, 2, 3, 256, 257, (uint64_t)1 << 32, 1 | (uint64_t)1 << 32,
        1 | MINUS_ZERO, (uint64_t)1 << 56, ONE, 0xFFFFFFFFFFFFFFFFu};
    size_t i, length;
    int side;

    for (i = 0; i < COUNT(editions); i++)
        for (side = LEFT; side <= RIGHT; side++) {
            put_files(1);
            put64(files[side], editions[i]);
            for (length = 0; length < 8; length++)
                expect_file(side, length, 1, 21, 0, "an edition not whole");
            for (length = 8; length < length_of(1) + 9; length++)
                expect_file(side, length, 1, 22, 0, "another edition");
            put64(files[side] + 8, MOST_ROWS + 1);
            for (length = 8; length < length_of(1) + 9; length++)
                expect_file(side, length, 1, 22, 0, "22 before 23");
        }
    group("result files of another edition");
}

/* 23 needs the count word, and comes before 21 of the rows and before 25.
 * Eight or eleven times some of these, or both, wraps round to few. */
static void test_counts(void)
{
    static const uint64_t counts[] = {
        MOST_ROWS + 1, MOST_ROWS + 2, 2000, 65536, 65537, (uint64_t)1 << 32,
        1 | (uint64_t)1 << 32, (uint64_t)1 << 56, (uint64_t)1 << 60,
        (uint64_t)1 << 61, 1 | (uint64_t)1 << 61, (uint64_t)1 << 62, P63,
        1 | P63, 2 | P63, 0xFFFFFFFFFFFFFFFFu, 0xFFFFFFFFFFFFFFFEu,
        0x2E8BA2E8BA2E8BA3u, 0x5D1745D1745D1746u};
    size_t i, length;
    int side;

    check(11 * counts[17] == 1 && 11 * counts[18] == 2, "eleven times them");
    for (i = 0; i < COUNT(counts); i++)
        for (side = LEFT; side <= RIGHT; side++) {
            put_files(2);
            put64(files[side] + 8, counts[i]);
            for (length = 8; length < 16; length++)
                expect_file(side, length, 2, 21, 8, "a bad count, not whole");
            for (length = 16; length < length_of(2) + 9; length++)
                expect_file(side, length, 2, 23, 8, "a bad count");
        }
    group("result files with more than 1500 rows");
}

/* ---- the most rows ---- */

/* 1500 of them, with the last figure of all moved; 1501, which are whole. */
static void test_most(void)
{
    int side;

    put_files(MOST_ROWS);
    put_both(MOST_ROWS - 1, 10, ONE, ONE + 1);
    expect_largest(MOST_ROWS, MOST_ROWS - 1, 10, 1, "1500 rows");
    check(figure_is(MOST_ROWS - 1, 8, BY_DISTANCE, 1), "1500 rows");
    expect_refused(MOST_BYTES, MOST_BYTES, TOLD * MOST_ROWS - 1, 26, 0,
                   TOLD * MOST_ROWS, "1500 rows, a word too few");
    for (side = LEFT; side <= RIGHT; side++) {
        put_files(MOST_ROWS);
        expect_file(side, MOST_BYTES - 1, MOST_ROWS, 21, MOST_BYTES - 8,
                    "1500 rows, a byte short");
        expect_file(side, MOST_BYTES - 8, MOST_ROWS, 21, MOST_BYTES - 8,
                    "1500 rows, a word short");
        expect_file(side, MOST_BYTES + 1, MOST_ROWS, 25, MOST_BYTES,
                    "1500 rows, a byte long");
        expect_file(side, 24, MOST_ROWS, 21, 24, "1500 rows, few bytes");
        put_file(side, MOST_ROWS + 1);
        expect_file(side, MOST_BYTES + ROW_BYTES, MOST_ROWS, 23, 8,
                    "1501 rows, whole");
    }
    put_files(MOST_ROWS + 1);
    expect_refused(MOST_BYTES + ROW_BYTES, MOST_BYTES + ROW_BYTES, MOST_TOLD,
                   23, 0, 8, "1501 rows on both sides");
    group("result files of 1500 rows and 1501");
}

/* ---- which comes first ---- */

/* A way in which a file is refused, or is not. */
struct way {
    uint64_t edition, count;
    size_t length;
    uint64_t number, place;
};

/* Files of no row, one and two, then one of them spoilt. */
static const struct way ways[] = {
    {1, 0, 16, 0, 0},     {1, 1, 104, 0, 0},    {1, 2, 192, 0, 0},
    {1, 1, 0, 21, 0},     {1, 1, 7, 21, 0},     {1, 1, 8, 21, 8},
    {1, 1, 15, 21, 8},    {1, 1, 16, 21, 16},   {1, 1, 103, 21, 96},
    {1, 2, 104, 21, 104}, {0, 1, 104, 22, 0},   {2, 1501, 8, 22, 0},
    {1, 1501, 16, 23, 8}, {1, P63, 104, 23, 8}, {1, 0, 17, 25, 16},
    {1, 0, 24, 25, 16},   {1, 1, 105, 25, 104}, {1, 1, 192, 25, 104},
};

static void put_way(int side, const struct way *w)
{
    put_file(side, 2);
    put64(files[side], w->edition);
    put64(files[side] + 8, w->count);
}

/* Left, right, 51, 26, whichever applies first. */
static void expect_ways(const struct way *left, const struct way *right,
                        size_t k)
{
    uint64_t needed = TOLD * left->count;

    put_way(LEFT, left);
    put_way(RIGHT, right);
    if (left->number != 0)
        expect_refused(left->length, right->length, k, left->number, 0,
                       left->place, "left file first");
    else if (right->number != 0)
        expect_refused(left->length, right->length, k, right->number, 1,
                       right->place, "then the right file");
    else if (left->count != right->count)
        expect_refused(left->length, right->length, k, 51, 0, 0, "then 51");
    else if (k < needed)
        expect_refused(left->length, right->length, k, 26, 0, needed,
                       "then 26");
    else
        check(compare(left->length, right->length, k, "no refusal") == 0
                  && answer7[3] == left->count
                  && kept(told + needed, k - needed), "no refusal");
}

/* The words lent are about what each number of rows needs. */
static void test_order(void)
{
    static const size_t rooms[] = {0, 1, 18, 19, 20, 37, 38, 39, 60};
    size_t i, j, k;

    for (i = 0; i < COUNT(ways); i++)
        for (j = 0; j < COUNT(ways); j++)
            for (k = 0; k < COUNT(rooms); k++)
                expect_ways(ways + i, ways + j, rooms[k]);
    group("the order of refusals of two result files");
}

/* 51 where counts differ in either direction, and before 26. */
static void test_other_counts(void)
{
    static const size_t counts[] = {0, 1, 2, 3, 11, 256, 257, 1499, 1500};
    size_t i, j;

    for (i = 0; i < COUNT(counts); i++)
        for (j = 0; j < COUNT(counts); j++) {
            size_t left = length_of(counts[i]), right = length_of(counts[j]);

            if (i == j)
                continue;
            put_file(LEFT, counts[i]);
            put_file(RIGHT, counts[j]);
            expect_refused(left, right, TOLD * counts[i > j ? i : j], 51, 0, 0,
                           "51");
            expect_refused(left, right, 0, 51, 0, 0, "51 before 26");
            expect_refused(left, right + 1, 0, 25, 1, right, "25 before 51");
            expect_refused(left, right - 1, 0, 21, 1, right - 8,
                           "21 before 51");
        }
    group("result files with other counts of rows");
}

/* 26 with fewer words than are told; with more, those behind stay. */
static void test_room(void)
{
    static const size_t counts[] = {0, 1, 2, 5};
    size_t i, k;

    for (i = 0; i < COUNT(counts); i++) {
        size_t needed = TOLD * counts[i], length = length_of(counts[i]);

        put_files(counts[i]);
        for (k = 0; k < needed; k++)
            expect_refused(length, length, k, 26, 0, needed, "too little room");
        for (k = needed; k < needed + 40; k++) {
            check(compare(length, length, k, "room") == 0, "room");
            check(answer7[1] == 0 && answer7[2] == 0
                      && answer7[3] == counts[i], "room");
            check(kept(told + needed, k - needed), "words behind");
            check(needed == 0 || figure_is(counts[i] - 1, 8, BY_DISTANCE, 0),
                  "room, the last figure");
        }
    }
    group("room for what is told");
}

/* 60 comes before all else, and nothing is written. */
static void test_answer_run(void)
{
    static const size_t counts[] = {0, 1, 2, 6, 8, 15};
    uint64_t a[16];
    size_t i, j, k;

    for (i = 0; i < COUNT(counts); i++)
        for (j = 0; j < COUNT(ways); j++)
            for (k = 0; k <= 38; k += 19) {
                const struct way *w = ways + j;
                const uint8_t *left = w->length > 0 ? files[LEFT] : NULL;

                put_way(LEFT, w);
                put_way(RIGHT, ways + 1);
                fill(a, 16);
                fill(told, 40);
                check(second_compare(left, w->length, files[RIGHT], 104,
                                     k > 0 ? told : NULL, k,
                                     counts[i] > 0 ? a : NULL, counts[i])
                          == 60, "60");
                check(kept(a, 16) && kept(told, 40), "60 writes nothing");
            }
    check(second_compare(NULL, 0, NULL, 0, NULL, 0, NULL, 0) == 60,
          "60 of nothing at all");
    group("60 of two result files");
}

/* ---- our own files ---- */

/* P10's file against itself, then against itself a place off in y; a refused
 * file's three words on either side. */
static void test_own(void)
{
    uint64_t c[1] = {0}, s[8] = {0, 0, ONE, 0, 0, 0, 0, 0};
    uint64_t q[2] = {0, ONE}, a[2];
    uint8_t elements[120], three[24];
    int side;

    check(second_write(c, 1, s, 8, q, 2, elements, 120, a, 2) == 0, "P10");
    for (side = LEFT; side <= RIGHT; side++)
        check(second_results(elements, 120, files[side], 104, a, 2) == 0,
              "P10's results");
    expect_largest(1, 0, FIGURE, 0, "P10 against itself");
    put_word(RIGHT, 0, 3, MINUS(1));
    put_word(RIGHT, 0, 8, 0);
    expect_largest(1, 0, 3, 1, "P10 a place off");
    check(figure_is(0, 1, BY_DISTANCE, 1) && figure_is(0, 6, BY_DISTANCE, 0),
          "P10 a place off");
    check(second_results(elements, 119, three, 24, a, 2) == 0 && a[1] == 24,
          "a refused file");
    for (side = LEFT; side <= RIGHT; side++) {
        put_files(0);
        memcpy(files[side], three, 24);
        check(get64(three + 16) == 21, "a refused file");
        expect_file(side, 24, 0, 25, 16, "three words of a refused file");
    }
    put_files(0);
    memcpy(files[LEFT], three, 24);
    memcpy(files[RIGHT], three, 24);
    expect_refused(24, 24, 60, 25, 0, 16, "three words on both sides");
    group("our own result files");
}

/* ---- whole files of any rows ---- */

/* Where a finite double is on a line whose zeros are both at 2^63. */
static uint64_t on_line(uint64_t word)
{
    return word >> 63 ? P63 - (word - P63) : P63 + word;
}

static int finite_word(uint64_t word)
{
    return (word >> 52 & 2047) < 2047;
}

/* The told row by the sentences of T-07, once more. */
static void put_told(const uint64_t left[ROW_WORDS],
                     const uint64_t right[ROW_WORDS], uint64_t row[TOLD])
{
    size_t i;

    memset(row, 0, TOLD * sizeof *row);
    if (left[0] != 0)
        row[0] = right[0] == 0 ? 1 : right[0] == left[0] ? 3 : 4;
    else if (right[0] != 0)
        row[0] = 2;
    for (i = 0; i < FIGURES; i++) {
        uint64_t a = left[FIGURE + i], b = right[FIGURE + i];
        uint64_t *kind = row + 1 + 2 * i, x = on_line(a), y = on_line(b);

        if (row[0] != 0)
            kind[0] = 3;
        else if (!finite_word(a) || !finite_word(b))
            kind[0] = a == b ? 1 : 2;
        else
            kind[1] = x < y ? y - x : x - y;
    }
}

/* Few places from the other, of either zero, not finite or of any bits. */
static uint64_t any_figure(uint64_t other)
{
    switch (chance() % 12) {
    case 0:
        return chance() & MINUS_ZERO;
    case 1:
        return INFINITE_WORD | (chance() & MINUS_ZERO);
    case 2:
        return NAN_WORD + chance() % 2;
    case 3:
        return other ^ MINUS_ZERO;
    case 4:
    case 5:
        return chance();
    case 6:
    case 7:
        return other + chance() % 5 - 2;
    default:
        return other;
    }
}

static void put_any_row(size_t row, uint64_t want[TOLD])
{
    static const uint64_t refusals[8] = {0, 0, 0, 0, 0, 0, 5, 6};
    uint64_t left[ROW_WORDS], right[ROW_WORDS];
    size_t i;

    for (i = 0; i < ROW_WORDS; i++) {
        left[i] = any_figure(chance());
        right[i] = any_figure(left[i]);
    }
    left[0] = refusals[chance() % 8];
    right[0] = refusals[chance() % 8];
    for (i = 0; i < ROW_WORDS; i++)
        put_both(row, i, left[i], right[i]);
    put_told(left, right, want + TOLD * row);
}

/* First the largest, then where it first stands. */
static void expect_any(size_t rows, const uint64_t *want)
{
    uint64_t most = 0;
    size_t i, all = FIGURES * rows;

    for (i = 0; i < all; i++) {
        uint64_t distance = want[TOLD * (i / 9) + 2 + 2 * (i % 9)];

        most = distance > most ? distance : most;
    }
    for (i = 0; i < all; i++) {
        const uint64_t *kind = want + TOLD * (i / 9) + 1 + 2 * (i % 9);

        if (kind[0] == 0 && kind[1] == most)
            break;
    }
    expect_largest(rows, i / 9, i < all ? FIGURE + i % 9 : NO_WORD, most,
                   "any rows");
    check(memcmp(told, want, TOLD * rows * sizeof *want) == 0, "any rows");
}

/* Few rows as a rule, so that all kinds of largest are seen. */
static void test_any(void)
{
    static uint64_t want[MOST_TOLD];
    size_t rows, row;
    int i;

    for (i = 0; i < 6000; i++) {
        rows = i % 2000 == 0 ? MOST_ROWS : (size_t)(chance() % (i % 40 + 1));
        put_files(rows);
        for (row = 0; row < rows; row++)
            put_any_row(row, want);
        expect_any(rows, want);
    }
    group("two result files of any rows");
}

void selftest_two_files(void)
{
    test_lengths();
    test_editions();
    test_counts();
    test_most();
    test_order();
    test_other_counts();
    test_room();
    test_answer_run();
    test_own();
    test_any();
}
