#include "rules_compare.h"

#include "compared/shared/line_of_doubles.h"
#include "compared/shared/orbits.h"

#include <math.h>
#include <string.h>

#define FEW_STEPS 8     /* distances up to which the next double is asked for */

/* ---- refusals ---- */

uint64_t file_fault(const struct file *f, uint64_t *place)
{
    uint64_t rows;

    *place = 0;
    if (f->length < 8)
        return 21;
    if (word_at(f, 0) != 1)
        return 22;
    *place = 8;
    if (f->length < 16)
        return 21;
    rows = word_at(f, 8);
    if (rows > MOST_RESULT_ROWS)
        return 23;
    *place = f->length - f->length % 8;
    if (f->length < results_length(rows))
        return 21;
    *place = results_length(rows);
    return f->length > results_length(rows) ? 25 : 0;
}

/* "21, 22, 23 and 25, left file first, then 51 row counts differ", then 26 with the words needed. */
static uint64_t refusal_of(const struct file *left, const struct file *right, size_t k, uint64_t *side, uint64_t *place)
{
    uint64_t number = file_fault(left, place);

    *side = 0;
    if (number != 0)
        return number;
    number = file_fault(right, place);
    *side = number != 0;
    if (number != 0)
        return number;
    *place = 0;
    if (word_at(left, 8) != word_at(right, 8))
        return 51;
    if (k >= COMPARED * word_at(left, 8))
        return 0;
    *place = COMPARED * word_at(left, 8);
    return 26;
}

/* ---- what is told of a figure and of a row ---- */

const uint64_t *told_row(const struct given *g, uint64_t row)
{
    return g->room + EDGE / 8 + COMPARED * row;
}

const uint64_t *told_figure(const struct given *g, uint64_t row, size_t figure)
{
    return told_row(g, row) + 1 + 2 * figure;
}

/* Whether so many steps from double to double lead from the one to the other; from either zero they go on to the next beside both. */
static int leads(uint64_t from, uint64_t to, uint64_t steps)
{
    double at = figure_at(&from, 0), end = figure_at(&to, 0);

    for (; steps > 0; steps--) {
        if (at == end)
            return 0;
        at = nextafter(at, end);
    }
    return at == end;
}

static void expect_figure(uint64_t left, uint64_t right, const uint64_t *told)
{
    if (!on_line(left) || !on_line(right)) {
        if (told[0] != (left == right ? EQUAL_BITS : UNEQUAL_BITS) || told[1] != 0)
            differs("a figure not finite on a side is not told as equal or unequal bits");
        return;
    }
    if (told[0] != DISTANCE || told[1] != distance_on_line(left, right))
        differs("another distance than that of the numbers on the line");
    if (told[1] <= FEW_STEPS && !leads(left, right, told[1]))
        differs("the steps from double to double are not as many as the distance");
}

static uint64_t row_kind(uint64_t left, uint64_t right)
{
    if (left == 0)
        return right == 0 ? BOTH_ANSWERED : RIGHT_REFUSED;
    return right == 0 ? LEFT_REFUSED : left == right ? REFUSED_ALIKE : REFUSED_UNLIKE;
}

static void expect_row(const struct file *left, const struct file *right, uint64_t row)
{
    uint64_t kind = row_kind(result_word(left, row, 0), result_word(right, row, 0));
    size_t i;

    if (told_row(&library, row)[0] != kind)
        differs("another kind of row than its two first words make it");
    for (i = 0; i < RESULT_FIGURES; i++) {
        const uint64_t *told = told_figure(&library, row, i);

        if (kind == BOTH_ANSWERED)
            expect_figure(result_word(left, row, FIRST_FIGURE + i), result_word(right, row, FIRST_FIGURE + i), told);
        else if (told[0] != NOT_TOLD || told[1] != 0)
            differs("something is told of a figure in a refused row");
    }
}

/* ---- the first of the largest ---- */

/* "The row and word of the first largest distance (both from 0; the row count and 11 where no figure has one)", of the distances in the run. */
static void expect_largest(uint64_t rows)
{
    uint64_t right[3] = { rows, RESULT_ROW, 0 }, i;
    int any = 0;

    for (i = 0; i < RESULT_FIGURES * rows; i++) {
        const uint64_t *told = told_figure(&library, i / RESULT_FIGURES, i % RESULT_FIGURES);

        if (told[0] != DISTANCE || (any && told[1] <= right[2]))
            continue;
        any = 1;
        right[0] = i / RESULT_FIGURES;
        right[1] = FIRST_FIGURE + i % RESULT_FIGURES;
        right[2] = told[1];
    }
    if (memcmp(library.answer + LARGEST_ROW, right, sizeof right) != 0)
        differs("not the row, word and distance of the first largest in the run");
}

/* ---- a call ---- */

static void expect_refused(void)
{
    static const uint64_t zeros[4];

    if (memcmp(library.answer + ROWS_TOLD, zeros, sizeof zeros) != 0)
        differs("the last four words of a refusal's answer are not 0");
    if (!room_kept(0))
        differs("written to the run under a refusal");
}

void expect_compare(const struct file *left, const struct file *right, size_t k)
{
    uint64_t side, place, refusal = refusal_of(left, right, k, &side, &place), row;

    if (library.status != refusal || library.answer[STATUS] != refusal || library.answer[SIDE] != side || library.answer[PLACE] != place)
        differs("another refusal, side or place than document 02's");
    if (refusal != 0) {
        expect_refused();
        return;
    }
    if (library.answer[ROWS_TOLD] != word_at(left, 8))
        differs("another row count than that of the files");
    for (row = 0; row < word_at(left, 8); row++)
        expect_row(left, right, row);
    expect_largest(word_at(left, 8));
    if (!room_kept(8 * COMPARED * (size_t)word_at(left, 8)))
        differs("written beside what is told of the rows");
}

/* ---- two calls ---- */

/* Whatever is told of a row or of a figure says nothing of a side, but for a row refused on one alone. */
void expect_mirrored(const struct given *forward)
{
    static const uint64_t mirrored[ROW_KINDS] = { BOTH_ANSWERED, RIGHT_REFUSED, LEFT_REFUSED, REFUSED_ALIKE, REFUSED_UNLIKE };
    uint64_t row;

    if (memcmp(library.answer, forward->answer, sizeof library.answer) != 0)
        differs("with the sides exchanged the answer is another");
    for (row = 0; row < library.answer[ROWS_TOLD]; row++)
        if (told_row(&library, row)[0] != mirrored[told_row(forward, row)[0]]
            || memcmp(told_figure(&library, row, 0), told_figure(forward, row, 0), 8 * (COMPARED - 1)) != 0)
            differs("with the sides exchanged a row is told otherwise");
}

void expect_nothing_moved(void)
{
    uint64_t row;
    size_t i;

    if (library.answer[LARGEST_DISTANCE] != 0)
        differs("a file is apart from itself");
    for (row = 0; row < library.answer[ROWS_TOLD]; row++) {
        uint64_t kind = told_row(&library, row)[0];

        if (kind != BOTH_ANSWERED && kind != REFUSED_ALIKE)
            differs("a row is refused otherwise in the same file");
        for (i = 0; i < RESULT_FIGURES; i++)
            if (told_figure(&library, row, i)[0] == UNEQUAL_BITS || told_figure(&library, row, i)[1] != 0)
                differs("a figure is apart from itself");
    }
}
