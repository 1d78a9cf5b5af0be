#include "pair_makers.h"

#include "compared/shared/line_of_doubles.h"
#include "kelubashi.h"

#include <string.h>

#define OWN_ROWS 8     /* of a file that has more, these again and again */

size_t result_place(uint64_t row, size_t word)
{
    return 16 + 8 * (RESULT_ROW * (size_t)row + word);
}

size_t results_length(uint64_t rows)
{
    return result_place(rows, 0);
}

uint64_t result_word(const struct file *f, uint64_t row, size_t word)
{
    return word_at(f, result_place(row, word));
}

void set_result_word(struct file *f, uint64_t row, size_t word, uint64_t bits)
{
    put_word(f, result_place(row, word), bits);
}

void copy_file(struct file *to, const struct file *from)
{
    memcpy(to->bytes, from->bytes, from->length);
    to->length = from->length;
}

/* ---- our own results ---- */

/* Of few requests, half of which take a search. */
static void own_results(struct file *f, size_t requests)
{
    static struct sections s;
    static struct file elements;
    uint64_t answer[2];

    any_sections(&s, 2, 3, requests, 2);
    lay_out(&elements, &s);
    f->length = kelubashi1_results(elements.bytes, elements.length, f->bytes, sizeof f->bytes, answer, 2) == 0 ? (size_t)answer[1] : 0;
}

void own_rows(struct file *f, uint64_t rows)
{
    uint64_t i;

    own_results(f, rows < OWN_ROWS ? (size_t)rows : OWN_ROWS);
    put_word(f, 8, rows);
    for (i = OWN_ROWS; i < rows; i++)
        memcpy(f->bytes + result_place(i, 0), f->bytes + result_place(i % OWN_ROWS, 0), 8 * RESULT_ROW);
    f->length = results_length(rows);
}

void own_pair(struct pair *p, uint64_t rows)
{
    own_rows(&p->left, rows);
    copy_file(&p->right, &p->left);
}

void same_pair(struct pair *p, uint64_t turn)
{
    own_pair(p, turn % (FEW_ROWS + 1));
}

void answer_both(struct pair *p, uint64_t row)
{
    set_result_word(&p->left, row, 0, 0);
    set_result_word(&p->right, row, 0, 0);
}

/* From one to a few rows, all answered; how many. */
static uint64_t answered_pair(struct pair *p, uint64_t turn)
{
    uint64_t rows = 1 + turn % FEW_ROWS, row;

    own_pair(p, rows);
    for (row = 0; row < rows; row++)
        answer_both(p, row);
    return rows;
}

/* The same, with one of them answered at least; which. */
static uint64_t own_pair_but_one(struct pair *p, uint64_t turn)
{
    uint64_t rows = 1 + turn % FEW_ROWS, row = any_below(rows);

    own_pair(p, rows);
    answer_both(p, row);
    return row;
}

/* ---- figures moved ---- */

static uint64_t left_figure(const struct pair *p, uint64_t row, size_t figure)
{
    return result_word(&p->left, row, FIRST_FIGURE + figure);
}

static void set_figures(struct pair *p, uint64_t row, size_t figure, uint64_t left, uint64_t right)
{
    set_result_word(&p->left, row, FIRST_FIGURE + figure, left);
    set_result_word(&p->right, row, FIRST_FIGURE + figure, right);
}

void move_figure(struct pair *p, uint64_t row, size_t figure, uint64_t steps)
{
    uint64_t word = left_figure(p, row, figure);

    set_figures(p, row, figure, word, moved_on_line(word, one_in(2) ? (int64_t)steps : -(int64_t)steps));
}

/* Each of the nine, up and down. */
void one_place_pair(struct pair *p, uint64_t turn)
{
    uint64_t row = own_pair_but_one(p, turn / RESULT_FIGURES / 2), word = left_figure(p, row, turn % RESULT_FIGURES);

    set_figures(p, row, turn % RESULT_FIGURES, word, moved_on_line(word, turn / RESULT_FIGURES % 2 ? 1 : -1));
}

/* A third of them, by numbers of steps with any number of binary digits. */
void some_places_pair(struct pair *p, uint64_t turn)
{
    uint64_t row = own_pair_but_one(p, turn);
    size_t figure;

    for (figure = 0; figure < RESULT_FIGURES; figure++) {
        uint64_t digits = any_below(53), steps = any_below(UINT64_C(1) << digits);

        if (one_in(3))
            move_figure(p, row, figure, 1 + steps);
    }
}

void turned_pair(struct pair *p, uint64_t turn)
{
    uint64_t row = own_pair_but_one(p, turn / RESULT_FIGURES), word = left_figure(p, row, turn % RESULT_FIGURES);

    set_figures(p, row, turn % RESULT_FIGURES, word, word ^ SIGN);
}

static uint64_t near_zero(void)
{
    uint64_t place = any_below(3);

    return one_in(2) ? place | SIGN : place;
}

/* All nine at either zero or one or two places beside it: 0 is a distance, many have the same, and lines of other zeros are seen. */
void beside_zero_pair(struct pair *p, uint64_t turn)
{
    uint64_t row = own_pair_but_one(p, turn);
    size_t figure;

    for (figure = 0; figure < RESULT_FIGURES; figure++) {
        uint64_t left = near_zero(), right = near_zero();

        set_figures(p, row, figure, left, right);
    }
}

/* All nine at a power of two, or one or two places beside it, of either sign. */
void beside_power_pair(struct pair *p, uint64_t turn)
{
    uint64_t row = own_pair_but_one(p, turn), power = (1 + turn % 2045) * UNIT;
    size_t figure;

    for (figure = 0; figure < RESULT_FIGURES; figure++) {
        uint64_t sign = one_in(2) ? SIGN : 0, left = power - 2 + any_below(5), right = power - 2 + any_below(5);

        set_figures(p, row, figure, sign | left, sign | right);
    }
}

/* ---- ends of the line, and what lies beyond ---- */

static const uint64_t ends[] = {
    0, SIGN, 1, SIGN | 1, INFINITE - 1, SIGN | (INFINITE - 1), INFINITE - 2, SIGN | (INFINITE - 2), UNIT, UNIT - 1, 1023 * UNIT,
    INFINITE, SIGN | INFINITE, INFINITE + 1, SIGN | (INFINITE + 1), INFINITE + 2, INFINITE + UNIT / 2, SIGN | (INFINITE + UNIT / 2), SIGN - 1, UINT64_MAX,
};
#define ENDS (sizeof ends / sizeof ends[0])
#define ON_LINE 11     /* the first of them */

static uint64_t any_beyond(void)
{
    return ends[ON_LINE + any_below(ENDS - ON_LINE)];
}

/* Every two of them, in one figure. */
void end_pair(struct pair *p, uint64_t turn)
{
    uint64_t row = own_pair_but_one(p, turn);

    set_figures(p, row, any_below(RESULT_FIGURES), ends[turn % ENDS], ends[turn / ENDS % ENDS]);
}

/* In all figures; every second pair has none that is finite on both sides, in any row. */
void many_ends_pair(struct pair *p, uint64_t turn)
{
    uint64_t rows = answered_pair(p, turn / 2), i;

    for (i = 0; i < RESULT_FIGURES * rows; i++) {
        uint64_t left = ends[any_below(ENDS)], right = one_in(3) ? left : ends[any_below(ENDS)];

        if (turn % 2 == 0 && on_line(left) && on_line(right))
            right = any_beyond();
        set_figures(p, i / RESULT_FIGURES, i % RESULT_FIGURES, left, right);
    }
}

/* ---- refused rows, and points ---- */

/* Those of the rules, 0, and words that are 0 or one of them to a careless width or sign. */
static uint64_t any_number(void)
{
    static const uint64_t numbers[] = {
        0, 3, 4, 5, 6, 7, 8, 31, 32, 33, 34, 35, 36, 37, 38, 0, 1, 2, 21, 51, 256, UINT64_C(1) << 32, (UINT64_C(1) << 32) + 3, SIGN, SIGN | 3, UINT64_MAX,
    };

    return one_in(12) ? any_word() : numbers[any_below(sizeof numbers / sizeof numbers[0])];
}

/* Mostly far apart. */
static void any_figures(struct pair *p, uint64_t row)
{
    size_t figure;

    for (figure = 0; figure < RESULT_FIGURES; figure++) {
        uint64_t left = any_word(), right = any_word();

        set_figures(p, row, figure, left, right);
    }
}

/* On a side or on both, with one number or with two; what the other words hold does not matter. */
static void refuse_row(struct pair *p, uint64_t row)
{
    uint64_t left = any_number(), right = one_in(3) ? left : any_number();

    set_result_word(&p->left, row, 0, left);
    set_result_word(&p->right, row, 0, right);
    if (one_in(2))
        any_figures(p, row);
    if (one_in(3))
        set_result_word(&p->right, row, 1, any_word());
}

/* A part of the rows, or, in every second pair, all. */
void refused_pair(struct pair *p, uint64_t turn)
{
    uint64_t rows = 1 + turn / 2 % FEW_ROWS, row;

    own_pair(p, rows);
    for (row = 0; row < rows; row++)
        if (turn % 2 || one_in(2))
            refuse_row(p, row);
}

void points_pair(struct pair *p, uint64_t turn)
{
    uint64_t row = own_pair_but_one(p, turn);

    set_result_word(&p->right, row, 1, one_in(2) ? any_word() : any_below(168));
}

/* ---- the first of the largest ---- */

/* A refused row, whose figures are farther apart than any other, and to which no program may look. */
static void refuse_farthest(struct pair *p, uint64_t row)
{
    uint64_t number = 1 + any_below(9);

    any_figures(p, row);
    set_result_word(one_in(2) ? &p->left : &p->right, row, 0, number);
}

/* Several of one distance, in a row or in more; others are less far apart, and at times one is not finite. */
void tied_pair(struct pair *p, uint64_t turn)
{
    static const uint64_t distances[] = { 1, 2, 3, UINT64_C(1) << 32, UNIT };
    uint64_t rows = answered_pair(p, turn), most = distances[turn / FEW_ROWS % 5], i;

    for (i = 0; i < RESULT_FIGURES * rows; i++) {
        uint64_t less = any_below(most), steps = one_in(2) ? most : less;

        if (one_in(3))
            move_figure(p, i / RESULT_FIGURES, i % RESULT_FIGURES, steps);
        if (one_in(20))
            set_figures(p, i / RESULT_FIGURES, i % RESULT_FIGURES, INFINITE, less);
    }
    if (one_in(3))
        refuse_farthest(p, any_below(rows));
}

/* At every word of every row, with smaller distances around it. */
void largest_pair(struct pair *p, uint64_t turn)
{
    uint64_t rows = answered_pair(p, turn / RESULT_FIGURES), i;

    for (i = 0; i < RESULT_FIGURES * rows; i++)
        move_figure(p, i / RESULT_FIGURES, i % RESULT_FIGURES, any_below(1000));
    i = any_below(rows);
    move_figure(p, i, turn % RESULT_FIGURES, 1000 + any_below(UNIT / 2));
}

/* ---- any bits ---- */

/* In all figures, and in a part of the rows in their first two words as well. */
void any_bits_pair(struct pair *p, uint64_t turn)
{
    uint64_t rows = answered_pair(p, turn), row;

    for (row = 0; row < rows; row++) {
        size_t word = any_below(2);

        any_figures(p, row);
        if (one_in(3))
            set_result_word(&p->left, row, word, any_word());
        if (one_in(3))
            set_result_word(&p->right, row, word, any_word());
    }
}
