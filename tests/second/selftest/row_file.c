/* Another station's rows (T-06): the file, its refusals and its verdicts. */
#include "checked.h"

#include "second/second.h"

#include <string.h>

#define MOST_ROWS 400u
#define MOST_BYTES (8 + ROW_BYTES * MOST_ROWS)

static uint8_t file[MOST_BYTES + 64];
static uint64_t verdicts[MOST_ROWS + 8];

/* P10's row, with a psi that is right or is not. */
static void put_p10(size_t number, int right)
{
    uint8_t *row = file + 8 + ROW_BYTES * number;
    size_t i;

    for (i = 0; i < ROW_WORDS; i++)
        put64(row + 8 * i, i < FIGURES + 6 ? 0 : MINUS_ZERO);
    put64(row + 8, ONE);
    put64(row + 8 * TAU, ONE);
    put64(row + 8 * PSI, right ? ONE : ONE + 1);
    put64(row + 8 * FIGURES, ONE);
}

/* So many rows, all of them right. */
static void put_file(size_t rows)
{
    size_t i;

    memset(file, 0xA5, sizeof file);
    put64(file, rows);
    for (i = 0; i < rows; i++)
        put_p10(i, 1);
}

/* A length of 0 comes with a null pointer. */
static void expect_file(size_t length, size_t k, uint64_t number,
                        uint64_t second, const char *what)
{
    uint64_t a[3];
    size_t written = number == 0 ? (size_t)second : 0, i;

    fill(a, 3);
    fill(verdicts, MOST_ROWS + 8);
    check(second_check(length > 0 ? file : NULL, length,
                       k > 0 ? verdicts : NULL, k, a, 2) == number, what);
    check(a[0] == number && a[1] == second && a[2] == KEPT, what);
    for (i = 0; i < written; i++)
        check(verdicts[i] == 1, what);
    check(kept(verdicts + written, MOST_ROWS + 8 - written), what);
}

/* Of two rows, every length; with room for all verdicts, and for none, since
 * 26 comes after the others. */
static void test_lengths(void)
{
    size_t rows, length, whole;

    for (rows = 0; rows <= 2; rows++) {
        put_file(rows);
        whole = 8 + ROW_BYTES * rows;
        for (length = 0; length <= whole + 17; length++) {
            uint64_t number = length < whole ? 21 : length > whole ? 25 : 0;
            uint64_t second = length < whole ? length - length % 8
                : length > whole ? whole : rows;

            expect_file(length, 2, number, second, "every length");
            if (number != 0 || rows == 0)
                expect_file(length, 0, number, second, "before 26");
        }
    }
    group("row files of every length");
}

/* 23 comes before 21 of the rows and before 25, but after 21 of the count. */
static void test_counts(void)
{
    static const uint64_t counts[] = {
        401, 402, 65536, (uint64_t)1 << 32, (uint64_t)1 << 56,
        (uint64_t)1 << 60, (uint64_t)1 << 63, 0xFFFFFFFFFFFFFFFFu,
        1 + ((uint64_t)1 << 61), 2 + ((uint64_t)1 << 63)};
    size_t i, length;

    for (i = 0; i < sizeof counts / sizeof counts[0]; i++) {
        put_file(2);
        put64(file, counts[i]);
        for (length = 0; length < 8; length++)
            expect_file(length, MOST_ROWS, 21, 0, "a bad count, not whole");
        for (length = 8; length < 320; length++)
            expect_file(length, MOST_ROWS, 23, 0, "a bad count");
        expect_file(MOST_BYTES, MOST_ROWS, 23, 0, "a bad count, many bytes");
        expect_file(MOST_BYTES, 0, 23, 0, "23 before 26");
    }
    group("row files with more than 400 rows");
}

static void test_most(void)
{
    static const size_t lengths[] = {0, 8, 9, 15, 16, 151, 152, 153};
    size_t i;

    put_file(MOST_ROWS);
    expect_file(MOST_BYTES, MOST_ROWS, 0, MOST_ROWS, "400 rows");
    expect_file(MOST_BYTES - 1, MOST_ROWS, 21, MOST_BYTES - 8, "a byte short");
    expect_file(MOST_BYTES - 8, MOST_ROWS, 21, MOST_BYTES - 8, "a word short");
    expect_file(MOST_BYTES - 9, MOST_ROWS, 21, MOST_BYTES - 16, "and a byte");
    expect_file(MOST_BYTES + 1, MOST_ROWS, 25, MOST_BYTES, "a byte long");
    expect_file(MOST_BYTES + 8, MOST_ROWS, 25, MOST_BYTES, "a word long");
    for (i = 0; i < sizeof lengths / sizeof lengths[0]; i++)
        expect_file(lengths[i], MOST_ROWS, 21, lengths[i] - lengths[i] % 8,
                    "400 rows, but few bytes");
    put64(file, MOST_ROWS - 1);
    expect_file(MOST_BYTES, MOST_ROWS, 25, MOST_BYTES - ROW_BYTES, "399 rows");
    group("row files of 400 rows");
}

/* 26 with fewer words than rows; with more, those behind the verdicts stay. */
static void test_room(void)
{
    static const size_t counts[] = {0, 1, 2, 7, MOST_ROWS};
    size_t i, k;

    for (i = 0; i < sizeof counts / sizeof counts[0]; i++) {
        size_t rows = counts[i];

        put_file(rows);
        for (k = 0; k <= rows + 8; k += k > 8 && k + 8 < rows ? 97 : 1)
            expect_file(8 + ROW_BYTES * rows, k, k < rows ? 26 : 0, rows,
                        "room for verdicts");
    }
    group("room for verdicts");
}

/* Each row has its own verdict, whatever stands beside it. */
static void test_each(void)
{
    uint64_t a[2];
    int right[MOST_ROWS], round;
    size_t i, rows;

    for (round = 0; round < 200; round++) {
        rows = (size_t)(chance() % (MOST_ROWS + 1));
        put_file(rows);
        for (i = 0; i < rows; i++) {
            right[i] = chance() % 3 != 0;
            put_p10(i, right[i]);
        }
        fill(verdicts, MOST_ROWS + 8);
        check(second_check(file, 8 + ROW_BYTES * rows, verdicts, MOST_ROWS, a,
                           2) == 0 && a[0] == 0 && a[1] == rows, "each row");
        for (i = 0; i < rows; i++)
            check(verdicts[i] == (right[i] ? 1u : 0u), "each row");
        check(kept(verdicts + rows, MOST_ROWS + 8 - rows), "each row");
    }
    group("a verdict for each row");
}

/* 60 comes before all else, and nothing is written. */
static void test_answer_run(void)
{
    static const size_t counts[] = {0, 1, 3, 15};
    static const size_t lengths[] = {0, 7, 8 + ROW_BYTES, 8 + ROW_BYTES + 1};
    uint64_t a[16];
    size_t i, j, k;

    put_file(1);
    for (i = 0; i < 4; i++)
        for (j = 0; j < 4; j++)
            for (k = 0; k < 2; k++) {
                fill(a, 16);
                fill(verdicts, 2);
                check(second_check(lengths[j] > 0 ? file : NULL, lengths[j],
                                   k > 0 ? verdicts : NULL, k,
                                   counts[i] > 0 ? a : NULL, counts[i]) == 60,
                      "60");
                check(kept(a, 16) && kept(verdicts, 2), "60 writes nothing");
            }
    group("60 of a row file");
}

void selftest_row_file(void)
{
    test_lengths();
    test_counts();
    test_most();
    test_room();
    test_each();
    test_answer_run();
}
