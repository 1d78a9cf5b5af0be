#include "aims_compare.h"

#include "compared/shared/line_of_doubles.h"

#define LARGEST_OF_ALL (2 * (INFINITE - 1))     /* from the one end of the line to the other */

enum aim {
    /* files at fault; each of these on the left, and behind it on the right */
    NO_BYTE, NO_BYTE_RIGHT, EDITION_CUT, EDITION_CUT_RIGHT, EDITION_ALONE, EDITION_ALONE_RIGHT, COUNT_CUT, COUNT_CUT_RIGHT,
    WORD_CUT, WORD_CUT_RIGHT, CUT_1500, CUT_1500_RIGHT, COUNT_1501, COUNT_1501_RIGHT, COUNT_HUGE, COUNT_HUGE_RIGHT,
    COUNT_WRAPS, COUNT_WRAPS_RIGHT, COUNT_NEGATIVE, COUNT_NEGATIVE_RIGHT, LEFT_OVER, LEFT_OVER_RIGHT, ROW_LEFT, ROW_LEFT_RIGHT,
    THREE_WORDS, THREE_WORDS_RIGHT, OVER_1500, OVER_1500_RIGHT,
    /* what comes before what */
    BOTH_ALIKE, BOTH_UNLIKE, BOTH_REFUSED, BEFORE_51, APART, APART_BY_ONE, APART_AT_LIMIT, NONE_AND_SOME, APART_WITH_RUN,
    NO_RUN, RUN_SHORT, ROWS_FOR_WORDS, RUN_SHORT_OF_1500,
    /* rows */
    NO_ROW, NO_ROW_WITH_RUN, ROW_1, ROWS_2, ROWS_1499, ROWS_1500, LONGER_RUN,
    ANSWERED, LEFT_ALONE, RIGHT_ALONE, ALIKE, UNLIKE, UNLIKE_HIGH, HIGH_HALF, BY_SIGN, FARTHER_REFUSED, POINTS_ALONE, MIXED,
    /* figures */
    AT_DISTANCE, BITS_EQUAL, BITS_UNEQUAL, UNTOLD,
    AT_0, AT_1, AT_2, ABOVE_2_32, ABOVE_2_63, AT_MOST, ZEROS, BESIDE_ZERO, ACROSS_ZERO, ACROSS_POWER, TURNED_SIGN, BELOW_ZERO, EQUAL_FIGURES,
    INFINITIES, INFINITIES_APART, NANS, NANS_APART, NAN_ON_LEFT, NAN_ON_RIGHT, BESIDE_INFINITE,
    /* the first largest */
    NONE_OF_NONE, NONE_OF_SOME, NONE_BY_BITS, ALL_AT_0, AT_0_LATER, TIED_IN_ROW, TIED_IN_ROWS, LARGEST_AT, IN_FIRST, IN_LAST, IN_MIDDLE, LAST_OF_1500,
    AIMS
};

static const char *const names[AIMS] = {
    "empty file", "right", "cut in the edition", "right", "the edition alone", "right", "cut in the count", "right",
    "the rarest of a row's words to be cut at", "right", "cut in 1,500 rows", "right", "1,501 rows", "right", "more than 2^32 rows", "right",
    "a count whose bytes wrap around", "right", "a count below zero", "right", "a byte left", "right", "a row left", "right",
    "three words of a refused file", "right", "bytes left behind 1,500 rows", "right",
    "both at fault alike", "both at fault", "both three words", "right at fault and counts apart", "counts apart", "by one", "1,499 and 1,500",
    "none and some", "with a run long enough",
    "no run", "run a word short", "a word for each row", "run a word short of 28,500",
    "no row and no run", "no row and a run", "1 row", "2 rows", "1,499 rows", "1,500 rows", "longer run",
    "answered", "refused on the left alone", "on the right alone", "alike", "unlike", "unlike in the higher half alone", "by the higher half alone",
    "by the sign alone", "a refused row farther apart than the largest", "points alone", "answered and refused rows in a pair",
    "distances", "equal bits", "unequal bits", "nothing told",
    "0", "1", "2", "above 2^32", "above 2^63", "the largest of all", "zeros of two signs", "a zero and the place beside it", "across zero",
    "across a power of two", "turned", "both below zero", "equal and no zero",
    "one infinity", "infinities of two signs", "one NaN", "two NaNs", "NaN on the left", "on the right", "the largest double and infinity",
    "none of no rows", "none of refused rows", "none of figures that are not finite", "all distances 0", "the first 0 behind others",
    "the same twice in a row", "in two rows", "the rarest of nine words", "in the first row", "in the last", "between", "last word of 1,500 rows",
};

static uint64_t seen[AIMS];
static uint64_t faults[2][64], cut_at[2][RESULT_ROW], largest_at[RESULT_FIGURES];     /* by number, by word, by figure */

static void see(enum aim aim, int hit)
{
    seen[aim] += hit != 0;
}

/* The same of the file on either side. */
static void see_on(int side, enum aim aim, int hit)
{
    see((enum aim)((int)aim + side), hit);
}

/* ---- a file at fault ---- */

static void see_cut(int side, const struct file *f)
{
    see_on(side, NO_BYTE, f->length == 0);
    see_on(side, EDITION_CUT, f->length > 0 && f->length < 8);
    see_on(side, EDITION_ALONE, f->length == 8);
    see_on(side, COUNT_CUT, f->length > 8 && f->length < 16);
    if (f->length < 16)
        return;
    see_on(side, CUT_1500, word_at(f, 8) == MOST_RESULT_ROWS);
    cut_at[side][(f->length / 8 - 2) % RESULT_ROW]++;
}

/* A count above the limit; "wraps" where all that is there would do, were its bytes counted in 64 bits. */
static void see_count(int side, const struct file *f)
{
    uint64_t rows = word_at(f, 8);

    see_on(side, COUNT_1501, rows == MOST_RESULT_ROWS + 1);
    see_on(side, COUNT_HUGE, rows >> 32 != 0);
    see_on(side, COUNT_NEGATIVE, rows >> 63 != 0);
    see_on(side, COUNT_WRAPS, 16 + 88 * rows == f->length);
}

static void see_left_over(int side, const struct file *f)
{
    size_t left = f->length - results_length(word_at(f, 8));

    see_on(side, LEFT_OVER, left == 1);
    see_on(side, ROW_LEFT, left == 8 * RESULT_ROW);
    see_on(side, THREE_WORDS, word_at(f, 8) == 0 && left == 8 && word_at(f, 16) >= 21 && word_at(f, 16) <= 25);
    see_on(side, OVER_1500, word_at(f, 8) == MOST_RESULT_ROWS);
}

static void see_fault(int side, const struct file *f)
{
    faults[side][library.status]++;
    if (library.status == 21)
        see_cut(side, f);
    if (library.status == 23)
        see_count(side, f);
    if (library.status == 25)
        see_left_over(side, f);
}

/* Whether the file is long enough to have a count. */
static int counted(const struct file *f)
{
    return f->length >= 16;
}

static void see_refused_file(const struct file *left, const struct file *right)
{
    int side = (int)library.answer[SIDE];
    uint64_t place, other = file_fault(right, &place);

    see_fault(side, side == 0 ? left : right);
    see(BOTH_ALIKE, side == 0 && other == library.status);
    see(BOTH_UNLIKE, side == 0 && other != 0 && other != library.status);
    see(BOTH_REFUSED, side == 0 && other == 25 && left->length == 24 && right->length == 24);
    see(BEFORE_51, side == 1 && counted(right) && word_at(left, 8) != word_at(right, 8));
}

/* ---- a run too short, and row counts that differ ---- */

static void see_apart(uint64_t left, uint64_t right, size_t k)
{
    uint64_t less = left < right ? left : right, more = left < right ? right : left;

    see(APART, 1);
    see(APART_BY_ONE, more - less == 1);
    see(APART_AT_LIMIT, less == MOST_RESULT_ROWS - 1 && more == MOST_RESULT_ROWS);
    see(NONE_AND_SOME, less == 0);
    see(APART_WITH_RUN, k >= COMPARED * more);
}

static void see_short(uint64_t rows, size_t k)
{
    see(NO_RUN, k == 0);
    see(RUN_SHORT, k > 0 && k == COMPARED * rows - 1);
    see(ROWS_FOR_WORDS, k == rows);
    see(RUN_SHORT_OF_1500, k == COMPARED * MOST_RESULT_ROWS - 1 && rows == MOST_RESULT_ROWS);
}

/* ---- figures ---- */

static void see_beyond(uint64_t left, uint64_t right)
{
    uint64_t size_left = left & ~SIGN, size_right = right & ~SIGN;

    see(BITS_EQUAL, left == right);
    see(BITS_UNEQUAL, left != right);
    see(INFINITIES, left == right && size_left == INFINITE);
    see(INFINITIES_APART, left != right && size_left == INFINITE && size_right == INFINITE);
    see(NANS, left == right && size_left > INFINITE);
    see(NANS_APART, left != right && size_left > INFINITE && size_right > INFINITE);
    see(NAN_ON_LEFT, size_left > INFINITE && on_line(right));
    see(NAN_ON_RIGHT, size_right > INFINITE && on_line(left));
    see(BESIDE_INFINITE, left + 1 == right && size_right == INFINITE);
}

/* Whether the places from the one to the other lie on both sides of a power of two, of numbers of one sign. */
static int across_power(uint64_t left, uint64_t right)
{
    return (left ^ right) >> 63 == 0 && left >> 52 != right >> 52;
}

static void see_distance(uint64_t left, uint64_t right, uint64_t distance)
{
    int signs = (left ^ right) >> 63 != 0;

    see(AT_DISTANCE, 1);
    see(AT_0, distance == 0);
    see(AT_1, distance == 1);
    see(AT_2, distance == 2);
    see(ABOVE_2_32, distance > UINT64_C(1) << 32 && distance < UNIT);
    see(ABOVE_2_63, distance > SIGN);
    see(AT_MOST, distance == LARGEST_OF_ALL);
    see(ZEROS, signs && left << 1 == 0 && right << 1 == 0);
    see(BESIDE_ZERO, distance == 1 && (left << 1 == 0 || right << 1 == 0));
    see(ACROSS_ZERO, signs && distance == 2 && left << 1 != 0 && right << 1 != 0);
    see(ACROSS_POWER, distance <= 3 && across_power(left, right));
    see(TURNED_SIGN, signs && left << 1 == right << 1 && left << 1 != 0);
    see(BELOW_ZERO, left >> 63 && right >> 63 && distance == 1);
    see(EQUAL_FIGURES, left == right && left << 1 != 0);
}

/* ---- rows ---- */

static void see_refused_row(uint64_t left, uint64_t right)
{
    see(UNTOLD, 1);
    see(LEFT_ALONE, right == 0);
    see(RIGHT_ALONE, left == 0);
    see(ALIKE, left == right);
    see(UNLIKE, left != 0 && right != 0 && left != right);
    see(UNLIKE_HIGH, left != 0 && right != 0 && left != right && left << 32 == right << 32);
    see(HIGH_HALF, left != right && (left | right) << 32 == 0);
    see(BY_SIGN, left != right && (left | right) == SIGN);
}

/* Whether a figure of the refused row is farther apart than any that is told. */
static int farther(const struct file *left, const struct file *right, uint64_t row)
{
    size_t word;

    for (word = FIRST_FIGURE; word < RESULT_ROW; word++) {
        uint64_t of_left = result_word(left, row, word), of_right = result_word(right, row, word);

        if (on_line(of_left) && on_line(of_right) && distance_on_line(of_left, of_right) > library.answer[LARGEST_DISTANCE])
            return 1;
    }
    return 0;
}

static void see_figures(const struct file *left, const struct file *right, uint64_t row)
{
    uint64_t moved = 0;
    size_t i;

    for (i = 0; i < RESULT_FIGURES; i++) {
        uint64_t of_left = result_word(left, row, FIRST_FIGURE + i), of_right = result_word(right, row, FIRST_FIGURE + i);
        const uint64_t *told = told_figure(&library, row, i);

        if (told[0] == DISTANCE)
            see_distance(of_left, of_right, told[1]);
        else
            see_beyond(of_left, of_right);
        moved |= of_left ^ of_right;
    }
    see(POINTS_ALONE, moved == 0 && result_word(left, row, 1) != result_word(right, row, 1));
}

static void see_rows(const struct file *left, const struct file *right, uint64_t rows)
{
    uint64_t row, kinds = 0;

    for (row = 0; row < rows; row++) {
        uint64_t kind = told_row(&library, row)[0];

        kinds |= UINT64_C(1) << kind;
        see(ANSWERED, kind == BOTH_ANSWERED);
        if (kind == BOTH_ANSWERED)
            see_figures(left, right, row);
        else {
            see_refused_row(result_word(left, row, 0), result_word(right, row, 0));
            see(FARTHER_REFUSED, library.answer[LARGEST_ROW] < rows && farther(left, right, row));
        }
    }
    see(MIXED, kinds >> BOTH_ANSWERED & 1 && kinds >> LEFT_REFUSED != 0);
}

/* ---- the first largest ---- */

static void see_none(uint64_t rows)
{
    uint64_t row, answered = 0;

    for (row = 0; row < rows; row++)
        answered += told_row(&library, row)[0] == BOTH_ANSWERED;
    see(NONE_OF_NONE, rows == 0);
    see(NONE_OF_SOME, rows > 0 && answered == 0);
    see(NONE_BY_BITS, answered > 0);
}

/* How often it is told again, behind its place: in its row, and in others. */
static void see_ties(uint64_t rows, uint64_t row, size_t figure)
{
    uint64_t i, in_row = 0, in_rows = 0;

    for (i = RESULT_FIGURES * row + figure + 1; i < RESULT_FIGURES * rows; i++) {
        const uint64_t *told = told_figure(&library, i / RESULT_FIGURES, i % RESULT_FIGURES);

        if (told[0] != DISTANCE || told[1] != library.answer[LARGEST_DISTANCE])
            continue;
        in_row += i / RESULT_FIGURES == row;
        in_rows += i / RESULT_FIGURES != row;
    }
    see(TIED_IN_ROW, in_row > 0 && library.answer[LARGEST_DISTANCE] > 0);
    see(TIED_IN_ROWS, in_rows > 0 && library.answer[LARGEST_DISTANCE] > 0);
}

static void see_largest(uint64_t rows)
{
    uint64_t row = library.answer[LARGEST_ROW], distance = library.answer[LARGEST_DISTANCE];
    size_t figure = (size_t)library.answer[LARGEST_WORD] - FIRST_FIGURE;

    if (row == rows) {
        see_none(rows);
        return;
    }
    see_ties(rows, row, figure);
    see(ALL_AT_0, distance == 0);
    see(AT_0_LATER, distance == 0 && RESULT_FIGURES * row + figure > 0);
    if (distance == 0)
        return;
    largest_at[figure]++;
    see(IN_FIRST, rows > 1 && row == 0);
    see(IN_LAST, rows > 1 && row == rows - 1);
    see(IN_MIDDLE, row > 0 && row < rows - 1);
    see(LAST_OF_1500, row == MOST_RESULT_ROWS - 1 && figure == RESULT_FIGURES - 1);
}

static void see_compared(const struct file *left, const struct file *right, size_t k)
{
    uint64_t rows = library.answer[ROWS_TOLD];

    see(NO_ROW, rows == 0 && k == 0);
    see(NO_ROW_WITH_RUN, rows == 0 && k > 0);
    see(ROW_1, rows == 1);
    see(ROWS_2, rows == 2);
    see(ROWS_1499, rows == MOST_RESULT_ROWS - 1);
    see(ROWS_1500, rows == MOST_RESULT_ROWS);
    see(LONGER_RUN, rows > 0 && k > COMPARED * rows);
    see_rows(left, right, rows);
    see_largest(rows);
}

void aims_see_compare(const struct file *left, const struct file *right, size_t k)
{
    switch (library.status) {
    case 0:
        see_compared(left, right, k);
        break;
    case 26:
        see_short(word_at(left, 8), k);
        break;
    case 51:
        see_apart(word_at(left, 8), word_at(right, 8), k);
        break;
    default:
        see_refused_file(left, right);
        break;
    }
}

/* ---- what is told ---- */

int aims_compare_tell(void)
{
    static const int numbers[] = { 21, 22, 23, 25 };
    int missed = numbers_tell("left files", faults[0], numbers, sizeof numbers / sizeof numbers[0]);

    missed += numbers_tell("right files", faults[1], numbers, sizeof numbers / sizeof numbers[0]);
    seen[WORD_CUT] = rarest(cut_at[0], RESULT_ROW);
    seen[WORD_CUT_RIGHT] = rarest(cut_at[1], RESULT_ROW);
    seen[LARGEST_AT] = rarest(largest_at, RESULT_FIGURES);
    return missed + aims_tell_all(names, seen, AIMS);
}
