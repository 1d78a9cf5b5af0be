/*
**  The row of two stations' result files: our own results, 1,500 rows, and another's, in which figures moved and rows are refused; and the first 14 rows of both as
**  files of their own, all answered.
*/
#include "elements.h"
#include "kelubashi.h"
#include "plain.h"
#include "row.h"

#include <stdio.h>
#include <string.h>

enum {
    FULL = KELUBASHI_MOST_RESULTS,                    /* bytes of a file of 1,500 rows */
    SMALL_ROWS = 14,
    SMALL = 16 + 8 * KELUBASHI_ROW * SMALL_ROWS,      /* bytes of one of 14 */
    SMALL_TOLD = KELUBASHI_COMPARED * SMALL_ROWS      /* words told of 14 rows */
};

static const char *const columns[] = { "library", "plain", "empty", "library small", "plain small", "empty small", NULL };

enum { SMALLS = 3 };     /* the first column of small files */

static uint64_t (*const calls[])(const uint8_t *, size_t, const uint8_t *, size_t, uint64_t *, size_t, uint64_t *, size_t) = {
    kelubashi1_compare, plain_compare, empty_compare
};

static uint8_t left[FULL], right[FULL], small_left[SMALL], small_right[SMALL];
static uint64_t told[KELUBASHI_MOST_COMPARED];

static void put(uint8_t *file, size_t row, size_t word, uint64_t to)
{
    memcpy(file + 16 + 8 * (KELUBASHI_ROW * row + word), &to, 8);
}

static uint64_t word_of(const uint8_t *file, size_t row, size_t word)
{
    uint64_t it;

    memcpy(&it, file + 16 + 8 * (KELUBASHI_ROW * row + word), 8);
    return it;
}

/* As the library writes a row that it refuses: no figure but +0. */
static void refuse(uint8_t *file, size_t row, uint64_t number)
{
    memset(file + 16 + 8 * KELUBASHI_ROW * row, 0, 8 * KELUBASHI_ROW);
    put(file, row, KELUBASHI_REFUSAL, number);
}

/*
**  Of fifty rows ten have a figure that moved by up to seven places. One has a figure on the other side of zero, one an infinite figure, one the same infinite
**  figure on both sides; four are refused: on the left, on the right, on both with one number, on both with two.
*/
static void make_unlike(size_t row)
{
    const size_t kind = row % 50, word = KELUBASHI_X + row % 9;

    if (kind < 10)
        put(right, row, word, word_of(right, row, word) + 1 + row % 7);
    if (kind == 43)
        put(right, row, word, word_of(right, row, word) ^ kelubashi_word(-0.0));
    if (kind == 44)
        put(right, row, word, kelubashi_word(1.0 / 0.0));
    if (kind == 45) {
        put(left, row, word, kelubashi_word(-1.0 / 0.0));
        put(right, row, word, kelubashi_word(-1.0 / 0.0));
    }
    if (kind == 46 || kind >= 48)
        refuse(left, row, 5);
    if (kind >= 47)
        refuse(right, row, kind == 49 ? 6 : 5);
}

static void fill_small(uint8_t *small, const uint8_t *full)
{
    const uint64_t rows = SMALL_ROWS;

    memcpy(small, full, SMALL);
    memcpy(small + 8, &rows, 8);
}

static void fill(void)
{
    static uint8_t elements[KELUBASHI_MOST_FILE];
    uint64_t answer[2];
    size_t row;

    if (kelubashi1_results(elements, elements_fill(elements, KELUBASHI_MOST_REQUESTS), left, FULL, answer, 2) != 0)
        row_differs("there are no results", 0);
    memcpy(right, left, FULL);
    for (row = 0; row < KELUBASHI_MOST_REQUESTS; row++)
        make_unlike(row);
    fill_small(small_left, left);
    fill_small(small_right, right);
}

static void pass(size_t column)
{
    uint64_t answer[7];

    if (column >= SMALLS)
        calls[column - SMALLS](small_left, SMALL, small_right, SMALL, told, SMALL_TOLD, answer, 7);
    else
        calls[column](left, FULL, right, FULL, told, KELUBASHI_MOST_COMPARED, answer, 7);
}

/* Library and plain C tell the same, to a run of so many words; what they return. */
static uint64_t told_alike(const uint8_t *one, size_t one_length, const uint8_t *other, size_t other_length, size_t k)
{
    static uint64_t plain[KELUBASHI_MOST_COMPARED];
    uint64_t answer[7], plain_answer[7], status, plain_status;

    memset(told, 0xA5, k * sizeof told[0]);
    memset(plain, 0xA5, k * sizeof plain[0]);
    status = kelubashi1_compare(one, one_length, other, other_length, told, k, answer, 7);
    plain_status = plain_compare(one, one_length, other, other_length, plain, k, plain_answer, 7);
    if (status != plain_status || memcmp(answer, plain_answer, sizeof answer) != 0 || memcmp(told, plain, k * sizeof told[0]) != 0)
        row_differs("library and plain C tell other things", one_length + other_length);
    return status;
}

/* The small files, cut short or given a shorter run, are refused alike. */
static void check_refused(void)
{
    size_t i;

    for (i = 0; i < SMALL; i++)
        if (told_alike(small_left, i, small_right, SMALL, SMALL_TOLD) != 21 || told_alike(small_left, SMALL, small_right, i, SMALL_TOLD) != 21)
            row_differs("half a file is compared", i);
    for (i = 0; i < SMALL_TOLD; i++)
        if (told_alike(small_left, SMALL, small_right, SMALL, i) != 26)
            row_differs("a run is too short", i);
}

static void check(void)
{
    size_t answered = 0, moved = 0, row, figure;

    check_refused();
    if (told_alike(small_left, SMALL, small_right, SMALL, SMALL_TOLD) != 0 ||
        told_alike(left, FULL, right, FULL, KELUBASHI_MOST_COMPARED) != 0)
        row_differs("a result file is refused", 0);
    for (row = 0; row < KELUBASHI_MOST_REQUESTS; row++) {
        const uint64_t *words = told + KELUBASHI_COMPARED * row;

        answered += words[0] == KELUBASHI_ROW_ANSWERED;
        for (figure = 0; figure < 9; figure++)
            moved += words[2 + 2 * figure] != 0;
    }
    printf("compare: %d rows, %lu answered on both sides, %lu figures moved; library and plain C tell the same\n", KELUBASHI_MOST_REQUESTS,
           (unsigned long)answered, (unsigned long)moved);
}

int main(int count, char **words)
{
    const struct row row = { columns, 1, pass, check };

    fill();
    return row_run(&row, count, words);
}
