/*
**  Cases of T-07 through the C face: pairs of result files, made of the one that document 01 writes out for P10, and what is told of them.
**
**  What is expected comes from the documents alone: distances counted by hand on the line of finite doubles, and the places of refusals. Words are taken
**  by the header's names, so these are tried too.
*/
#include "cases/shared/expected.h"

#include <stdio.h>
#include <stdlib.h>
#include <string.h>

const char *const test_name = "cases of pairs";

#define W(digits) UINT64_C(0x##digits)
#define ONE W(3FF0000000000000)
#define MINUS W(8000000000000000)
#define LARGEST W(7FEFFFFFFFFFFFFF)
#define INFINITE W(7FF0000000000000)
#define NOT_A_NUMBER W(7FF8000000000000)

enum { LEFT, RIGHT, LAST = KELUBASHI_ROW - 1 };     /* sides, and the last word of a row */

/* "P10 as one request writes, whole", without the edition and the count. */
static const uint64_t P10[KELUBASHI_ROW] = { 0, 21, ONE, 0, 0, 0, 0, 0, MINUS, MINUS, MINUS };

static uint64_t told[KELUBASHI_MOST_COMPARED];

/* ---- pairs of P10's row, and what is told where nothing moved ---- */

/* So many rows of P10 on a side, "after edition 1 and the request count". */
static void rows_of_side(int side, uint64_t rows)
{
    struct file *f = side == LEFT ? &file : &right_file;
    const uint64_t head[2] = { 1, rows };
    size_t i;

    words_of(f, head, 2);
    for (i = 0; i < KELUBASHI_ROW * rows; i++, f->length += 8)
        put_word(f, f->length, P10[i % KELUBASHI_ROW]);
}

static void nothing_moved(uint64_t rows)
{
    rows_of_side(LEFT, rows);
    rows_of_side(RIGHT, rows);
    memset(told, 0, sizeof told);     /* kind 0 of rows and of figures, and distance 0 */
}

static void put(int side, size_t row, size_t word, uint64_t bits)
{
    put_word(side == LEFT ? &file : &right_file, 16 + 8 * (KELUBASHI_ROW * row + word), bits);
}

/* Of a figure, by the word that it has in its row. */
static void tell(size_t row, size_t word, uint64_t kind, uint64_t distance)
{
    uint64_t *figure = told + KELUBASHI_COMPARED * row + 1 + 2 * (word - KELUBASHI_X);

    figure[0] = kind;
    figure[1] = distance;
}

static void tell_row(size_t row, uint64_t kind)
{
    size_t word;

    told[KELUBASHI_COMPARED * row] = kind;
    for (word = KELUBASHI_X; word < KELUBASHI_ROW; word++)
        tell(row, word, KELUBASHI_FIGURE_UNTOLD, 0);
}

static void are(const char *name, size_t rows, uint64_t row, uint64_t word, uint64_t distance)
{
    const uint64_t largest[3] = { row, word, distance };

    compares(name, told, rows, largest);
}

static void exchange(void)
{
    static struct file kept;

    kept = file;
    file = right_file;
    right_file = kept;
}

/* ---- a figure ---- */

enum kind { APART = KELUBASHI_FIGURE_DISTANCE, EQUAL = KELUBASHI_FIGURE_EQUAL, UNEQUAL = KELUBASHI_FIGURE_UNEQUAL };

static const struct figures {
    const char *name;
    uint64_t left, right;
    enum kind kind;
    uint64_t distance;
} PAIRS[] = {
    { "1 and 1", ONE, ONE, APART, 0 },
    { "1 and the next above", ONE, ONE + 1, APART, 1 },
    { "1 and the next below, across a power of two", ONE, W(3FEFFFFFFFFFFFFF), APART, 1 },
    { "the doubles on either side of 1", ONE + 1, W(3FEFFFFFFFFFFFFF), APART, 2 },
    { "-1 and the next above, across a power of two", MINUS | ONE, W(BFEFFFFFFFFFFFFF), APART, 1 },
    { "-1 and the next below", MINUS | ONE, W(BFF0000000000001), APART, 1 },
    { "both zeros", 0, MINUS, APART, 0 },
    { "+0 and +0", 0, 0, APART, 0 },
    { "-0 and -0", MINUS, MINUS, APART, 0 },
    { "+0 and the next above", 0, 1, APART, 1 },
    { "-0 and the next above", MINUS, 1, APART, 1 },
    { "+0 and the next below", 0, MINUS | 1, APART, 1 },
    { "-0 and the next below", MINUS, MINUS | 1, APART, 1 },
    { "the doubles on either side of zero", 1, MINUS | 1, APART, 2 },
    { "three above zero and two below", 3, MINUS | 2, APART, 5 },
    { "the largest subnormal and the least normal", W(000FFFFFFFFFFFFF), W(0010000000000000), APART, 1 },
    { "zero and the least normal", MINUS, W(0010000000000000), APART, W(0010000000000000) },
    { "1 and 2", ONE, W(4000000000000000), APART, W(0010000000000000) },
    { "-2 and -1", W(C000000000000000), MINUS | ONE, APART, W(0010000000000000) },
    { "zero and 1", 0, ONE, APART, ONE },
    { "1 and -1", ONE, MINUS | ONE, APART, W(7FE0000000000000) },
    { "2 and -2, 2^63 places", W(4000000000000000), W(C000000000000000), APART, W(8000000000000000) },
    { "the next above 2 and -2", W(4000000000000001), W(C000000000000000), APART, W(8000000000000001) },
    { "the next below 2 and -2", W(3FFFFFFFFFFFFFFF), W(C000000000000000), APART, W(7FFFFFFFFFFFFFFF) },
    { "zero and the largest", MINUS, LARGEST, APART, LARGEST },
    { "the two before the largest", W(7FEFFFFFFFFFFFFD), LARGEST, APART, 2 },
    { "from end to end", MINUS | LARGEST, LARGEST, APART, UINT64_C(18437736874454810622) },

    { "the largest and infinity", LARGEST, INFINITE, UNEQUAL, 0 },
    { "infinity and infinity", INFINITE, INFINITE, EQUAL, 0 },
    { "-infinity and -infinity", MINUS | INFINITE, MINUS | INFINITE, EQUAL, 0 },
    { "infinities of two signs", INFINITE, MINUS | INFINITE, UNEQUAL, 0 },
    { "zero and infinity", 0, INFINITE, UNEQUAL, 0 },
    { "a NaN and itself", NOT_A_NUMBER, NOT_A_NUMBER, EQUAL, 0 },
    { "a NaN and another", NOT_A_NUMBER, NOT_A_NUMBER + 1, UNEQUAL, 0 },
    { "NaNs of two signs", NOT_A_NUMBER, MINUS | NOT_A_NUMBER, UNEQUAL, 0 },
    { "the least NaN and itself", INFINITE + 1, INFINITE + 1, EQUAL, 0 },
    { "NaNs that are one when read as quiet ones", INFINITE + 1, NOT_A_NUMBER + 1, UNEQUAL, 0 },
    { "the least NaN and infinity", INFINITE + 1, INFINITE, UNEQUAL, 0 },
    { "all bits and all bits", UINT64_MAX, UINT64_MAX, EQUAL, 0 },
    { "a NaN and 1", NOT_A_NUMBER, ONE, UNEQUAL, 0 },
    { "a NaN and -0", MINUS | NOT_A_NUMBER, MINUS, UNEQUAL, 0 }
};

/* In each of the nine words, and with the sides exchanged. All others are 0 apart, the first of which is x, or y where x has no distance. */
static void figure_is(const struct figures *at, size_t word)
{
    uint64_t first = word == KELUBASHI_X && at->kind != APART ? KELUBASHI_Y : KELUBASHI_X;

    nothing_moved(1);
    put(LEFT, 0, word, at->left);
    put(RIGHT, 0, word, at->right);
    tell(0, word, at->kind, at->distance);
    are(at->name, 1, 0, at->distance > 0 ? word : first, at->distance);
    exchange();
    are(at->name, 1, 0, at->distance > 0 ? word : first, at->distance);
}

static void by_figure(void)
{
    size_t i, word;

    for (i = 0; i < sizeof PAIRS / sizeof PAIRS[0]; i++)
        for (word = KELUBASHI_X; word < KELUBASHI_ROW; word++)
            figure_is(&PAIRS[i], word);
}

/* "A figure not finite on either side has no distance": where all nine are so, none has. */
static void none_finite(void)
{
    size_t word;

    nothing_moved(1);
    for (word = KELUBASHI_X; word < KELUBASHI_ROW; word++) {
        put(word % 2 ? LEFT : RIGHT, 0, word, INFINITE);
        tell(0, word, KELUBASHI_FIGURE_UNEQUAL, 0);
    }
    are("no figure finite on both sides", 1, 1, KELUBASHI_ROW, 0);
}

/* ---- a row ---- */

static const struct numbers {
    const char *name;
    uint64_t left, right, kind;
} NUMBERS[] = {
    { "refused on the left alone", 3, 0, KELUBASHI_ROW_LEFT_REFUSED },
    { "refused on the right alone", 0, 38, KELUBASHI_ROW_RIGHT_REFUSED },
    { "refused on both with one number", 32, 32, KELUBASHI_ROW_REFUSED_ALIKE },
    { "refused on both with two", 3, 4, KELUBASHI_ROW_REFUSED_UNLIKE },
    { "a number that no rule has", 1, 0, KELUBASHI_ROW_LEFT_REFUSED },
    { "a number of the higher half", 0, W(100000000), KELUBASHI_ROW_RIGHT_REFUSED },
    { "a number of the higher half, and with a lower one", W(100000000), W(100000003), KELUBASHI_ROW_REFUSED_UNLIKE },
    { "the same lower half", 3, W(100000003), KELUBASHI_ROW_REFUSED_UNLIKE },
    { "the same but for the sign", 3, MINUS | 3, KELUBASHI_ROW_REFUSED_UNLIKE },
    { "minus zero for a number", MINUS, 0, KELUBASHI_ROW_LEFT_REFUSED },
    { "all bits on both", UINT64_MAX, UINT64_MAX, KELUBASHI_ROW_REFUSED_ALIKE }
};

/* Whatever the other words hold: P10's, or figures from end to end and other points. */
static void row_is(const struct numbers *at, int moved)
{
    nothing_moved(1);
    put(LEFT, 0, KELUBASHI_REFUSAL, at->left);
    put(RIGHT, 0, KELUBASHI_REFUSAL, at->right);
    if (moved) {
        put(RIGHT, 0, KELUBASHI_POINTS, 5);
        put(LEFT, 0, KELUBASHI_VX, MINUS | LARGEST);
        put(RIGHT, 0, KELUBASHI_VX, LARGEST);
        put(RIGHT, 0, LAST, INFINITE);
    }
    tell_row(0, at->kind);
    are(at->name, 1, 1, KELUBASHI_ROW, 0);
}

static void by_row(void)
{
    size_t i;

    for (i = 0; i < sizeof NUMBERS / sizeof NUMBERS[0]; i++) {
        row_is(&NUMBERS[i], 0);
        row_is(&NUMBERS[i], 1);
    }
}

/* Only the first word refuses a row, and points are no figure. */
static void other_points(void)
{
    static const uint64_t points[] = { 0, 1, 20, 22, 167, UINT64_MAX };
    size_t i;

    for (i = 0; i < sizeof points / sizeof points[0]; i++) {
        nothing_moved(1);
        put(RIGHT, 0, KELUBASHI_POINTS, points[i]);
        are("other points on the right", 1, 0, KELUBASHI_X, 0);
        exchange();
        are("other points on the left", 1, 0, KELUBASHI_X, 0);
    }
}

/* ---- the first of the largest, of three rows ---- */

enum { ROWS = 3, MOVES = 4 };

/* Figures are moved by so many steps, up from P10's 1, 0 or -0, and a row may be refused on the right. */
static const struct largest {
    const char *name;
    struct { size_t row, word; uint64_t steps; } moved[MOVES];     /* none behind one of 0 steps */
    size_t refused;     /* a row, or ROWS */
    uint64_t largest[3];
} LARGESTS[] = {
    { "none moved", { { 0, 0, 0 } }, ROWS, { 0, KELUBASHI_X, 0 } },
    { "none moved, the first row refused", { { 0, 0, 0 } }, 0, { 1, KELUBASHI_X, 0 } },
    { "one", { { 1, KELUBASHI_VY, 1 } }, ROWS, { 1, KELUBASHI_VY, 1 } },
    { "the last word of all", { { 2, LAST, 1 } }, ROWS, { 2, LAST, 1 } },
    { "two alike in a row", { { 1, KELUBASHI_Y, 2 }, { 1, KELUBASHI_VZ, 2 } }, ROWS, { 1, KELUBASHI_Y, 2 } },
    { "two alike in two rows", { { 0, LAST, 2 }, { 1, KELUBASHI_X, 2 } }, ROWS, { 0, LAST, 2 } },
    { "four alike", { { 0, KELUBASHI_VX, 7 }, { 0, LAST, 7 }, { 1, KELUBASHI_Y, 7 }, { 2, KELUBASHI_X, 7 } }, ROWS, { 0, KELUBASHI_VX, 7 } },
    { "a later one is larger", { { 0, KELUBASHI_X, 1 }, { 2, LAST, 2 } }, ROWS, { 2, LAST, 2 } },
    { "an earlier one is larger", { { 0, KELUBASHI_X, 2 }, { 2, LAST, 1 } }, ROWS, { 0, KELUBASHI_X, 2 } },
    { "larger between smaller ones", { { 0, KELUBASHI_Z, 1 }, { 1, KELUBASHI_Z, 3 }, { 1, KELUBASHI_END_AX, 3 }, { 2, KELUBASHI_Z, 2 } }, ROWS,
      { 1, KELUBASHI_Z, 3 } },
    { "larger, and smaller in its lower half", { { 0, KELUBASHI_Y, W(100000001) }, { 1, KELUBASHI_Y, W(200000000) } }, ROWS, { 1, KELUBASHI_Y, W(200000000) } },
    { "the largest is refused", { { 0, KELUBASHI_X, 9 }, { 2, KELUBASHI_END_AY, 1 } }, 0, { 2, KELUBASHI_END_AY, 1 } },
    { "the first of two is refused", { { 1, KELUBASHI_VX, 4 }, { 2, KELUBASHI_VX, 4 } }, 1, { 2, KELUBASHI_VX, 4 } },
    { "the last is refused", { { 0, LAST, 1 }, { 2, LAST, 5 } }, 2, { 0, LAST, 1 } }
};

static void largest_is(const struct largest *at)
{
    size_t i;

    nothing_moved(ROWS);
    for (i = 0; i < MOVES && at->moved[i].steps > 0; i++) {
        size_t row = at->moved[i].row, word = at->moved[i].word;

        put(RIGHT, row, word, (word == KELUBASHI_X ? ONE : 0) + at->moved[i].steps);
        tell(row, word, KELUBASHI_FIGURE_DISTANCE, at->moved[i].steps);
    }
    if (at->refused < ROWS) {
        put(RIGHT, at->refused, KELUBASHI_REFUSAL, 6);
        tell_row(at->refused, KELUBASHI_ROW_RIGHT_REFUSED);
    }
    compares(at->name, told, ROWS, at->largest);
}

/* A row of each kind, the last with a figure that is not finite. */
static void every_kind(void)
{
    nothing_moved(5);
    put(LEFT, 0, KELUBASHI_REFUSAL, 7);
    put(RIGHT, 1, KELUBASHI_REFUSAL, 7);
    put(LEFT, 2, KELUBASHI_REFUSAL, 7);
    put(RIGHT, 2, KELUBASHI_REFUSAL, 7);
    put(LEFT, 3, KELUBASHI_REFUSAL, 7);
    put(RIGHT, 3, KELUBASHI_REFUSAL, 8);
    put(LEFT, 4, KELUBASHI_X, NOT_A_NUMBER);
    tell_row(0, KELUBASHI_ROW_LEFT_REFUSED);
    tell_row(1, KELUBASHI_ROW_RIGHT_REFUSED);
    tell_row(2, KELUBASHI_ROW_REFUSED_ALIKE);
    tell_row(3, KELUBASHI_ROW_REFUSED_UNLIKE);
    tell(4, KELUBASHI_X, KELUBASHI_FIGURE_UNEQUAL, 0);
    are("a row of each kind", 5, 4, KELUBASHI_Y, 0);
}

/* ---- row counts ---- */

/* From none to the most, with the last word moved. */
static void limits(void)
{
    static const uint64_t counts[] = { 1, 2, 3, 1499, 1500 };
    size_t i;

    nothing_moved(0);
    are("no row", 0, 0, KELUBASHI_ROW, 0);
    for (i = 0; i < sizeof counts / sizeof counts[0]; i++) {
        nothing_moved(counts[i]);
        put(RIGHT, (size_t)counts[i] - 1, LAST, MINUS | 3);
        tell((size_t)counts[i] - 1, LAST, KELUBASHI_FIGURE_DISTANCE, 3);
        are("rows at the limits", (size_t)counts[i], counts[i] - 1, LAST, 3);
    }
    if (file.length != KELUBASHI_MOST_RESULTS) {
        printf("%s: the longest file has %zu bytes\n", test_name, file.length);
        exit(EXIT_FAILURE);
    }
}

/* "Then 51 row counts differ". */
static void counts_apart(void)
{
    static const uint64_t counts[][2] = { { 0, 1 }, { 1, 0 }, { 1, 2 }, { 2, 1 }, { 1499, 1500 }, { 1500, 1499 }, { 1500, 0 }, { 0, 1500 } };
    size_t i;

    for (i = 0; i < sizeof counts / sizeof counts[0]; i++) {
        rows_of_side(LEFT, counts[i][LEFT]);
        rows_of_side(RIGHT, counts[i][RIGHT]);
        refuses_pair("other row counts", 51, 0, 0);
    }
}

/* ---- files at fault ---- */

/* A file of two rows, 24 words, whose edition and count are these, and which has so many bytes. */
static void spoil(int side, uint64_t edition, uint64_t count, size_t length)
{
    struct file *f = side == LEFT ? &file : &right_file;

    rows_of_side(side, 2);
    put_word(f, 0, edition);
    put_word(f, 8, count);
    f->length = length;
}

static const struct fault {
    const char *name;
    uint64_t edition, count;
    size_t length;
    uint64_t number, place;
} FAULTS[] = {
    { "edition 0", 0, 2, 192, 22, 0 },
    { "edition 2", 2, 2, 192, 22, 0 },
    { "edition 2 and nothing else", 2, 2, 8, 22, 0 },
    { "edition 2 of 1,501 rows", 2, 1501, 192, 22, 0 },
    { "edition 1 in its lower half alone", W(100000001), 2, 192, 22, 0 },
    { "edition 1 as a double", ONE, 2, 192, 22, 0 },
    { "1,501 rows, of which two are there", 1, 1501, 192, 23, 8 },
    { "1,501 rows and no more", 1, 1501, 16, 23, 8 },
    { "1,501 rows and a byte of two", 1, 1501, 193, 23, 8 },
    { "two rows in its lower half alone", 1, W(100000002), 192, 23, 8 },
    { "so many rows that their bytes wrap around to two rows'", 1, W(2000000000000002), 192, 23, 8 },
    { "so many that they wrap around to less than none", 1, UINT64_MAX, 192, 23, 8 },
    { "so many that they and the head wrap around", 1, (UINT64_MAX - 15) / 88 + 1, 192, 23, 8 },
    { "2^63 rows", 1, MINUS, 192, 23, 8 },
    { "three rows, of which two are there", 1, 3, 192, 21, 192 },
    { "1,500 rows, of which two are there", 1, 1500, 192, 21, 192 },
    { "two rows and a byte", 1, 2, 193, 25, 192 },
    { "two rows and eight", 1, 2, 200, 25, 192 },
    { "two rows and 65,536", 1, 2, 65728, 25, 192 },
    { "one row of two", 1, 1, 192, 25, 104 },
    { "no row of two", 1, 0, 192, 25, 16 },
    { "no row and a byte", 1, 0, 17, 25, 16 },
    { "the three words of a refused file", 1, 0, 24, 25, 16 }
};

/* On the left, whatever the right one is; on the right, whatever its count is. */
static void faulty(const struct fault *at)
{
    spoil(LEFT, at->edition, at->count, at->length);
    rows_of_side(RIGHT, 2);
    refuses_pair(at->name, at->number, LEFT, at->place);
    spoil(RIGHT, at->edition, at->count, at->length);
    refuses_pair(at->name, at->number, LEFT, at->place);
    right_file.length = 0;
    refuses_pair(at->name, at->number, LEFT, at->place);
    spoil(RIGHT, 2, 2, 192);
    refuses_pair(at->name, at->number, LEFT, at->place);

    spoil(RIGHT, at->edition, at->count, at->length);
    rows_of_side(LEFT, 2);
    refuses_pair(at->name, at->number, RIGHT, at->place);
    rows_of_side(LEFT, 1500);
    refuses_pair(at->name, at->number, RIGHT, at->place);
    rows_of_side(LEFT, 0);
    refuses_pair(at->name, at->number, RIGHT, at->place);
}

/* "21 a needed word not whole", at its first byte: every cut of two rows, before any fault of the other side and behind none. */
static void cuts(void)
{
    size_t length;

    for (length = 0; length < 192; length++) {
        spoil(LEFT, 1, 2, length);
        rows_of_side(RIGHT, 2);
        refuses_pair("two rows, broken off on the left", 21, LEFT, length / 8 * 8);
        spoil(RIGHT, 1, 2, 191 - length);
        refuses_pair("two rows, broken off on both sides", 21, LEFT, length / 8 * 8);
        spoil(RIGHT, 1, 2, length);
        rows_of_side(LEFT, 3);
        refuses_pair("two rows, broken off on the right, and three", 21, RIGHT, length / 8 * 8);
    }
}

/* 1,501 whole rows, and 1,500 with a byte less or more, on either side. */
static void long_files(void)
{
    static const struct fault faults[] = {
        { "1,501 rows", 1, 1501, 132104, 23, 8 },
        { "1,500 rows, a byte short", 1, 1500, 132015, 21, 132008 },
        { "1,500 rows and a byte", 1, 1500, 132017, 25, 132016 }
    };
    size_t i;

    for (i = 0; i < sizeof faults / sizeof faults[0]; i++) {
        rows_of_side(LEFT, faults[i].count);
        file.length = faults[i].length;
        rows_of_side(RIGHT, 1500);
        refuses_pair(faults[i].name, faults[i].number, LEFT, faults[i].place);
        exchange();
        refuses_pair(faults[i].name, faults[i].number, RIGHT, faults[i].place);
    }
}

/* 60, before all else. */
static void other_answers(void)
{
    static const size_t counts[] = { 0, 1, 2, 6, 8, 15 };
    size_t i;

    for (i = 0; i < sizeof counts / sizeof counts[0]; i++) {
        nothing_moved(2);
        refuses_count("two rows and an answer of another length", counts[i]);
        right_file.length = 193;
        refuses_count("a byte more and an answer of another length", counts[i]);
        rows_of_side(RIGHT, 1);
        refuses_count("other row counts and an answer of another length", counts[i]);
        file.length = right_file.length = 0;
        refuses_count("no files and an answer of another length", counts[i]);
    }
}

int main(void)
{
    size_t i;

    by_figure();
    none_finite();
    by_row();
    other_points();
    for (i = 0; i < sizeof LARGESTS / sizeof LARGESTS[0]; i++)
        largest_is(&LARGESTS[i]);
    every_kind();
    limits();
    counts_apart();
    for (i = 0; i < sizeof FAULTS / sizeof FAULTS[0]; i++)
        faulty(&FAULTS[i]);
    cuts();
    long_files();
    other_answers();
    printf("cases of pairs: figures and rows by hand, the first of the largest, the limits, every refusal's side and place: %u calls, none differs\n", calls);
    return EXIT_SUCCESS;
}
