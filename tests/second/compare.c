/* Two stations' result files (T-07): what moved, in last places. */
#include "parts.h"
#include "second.h"

#define EDITION 1u
#define ROWS_LIMIT 1500u
#define ROW_WORDS 11u
#define FIRST_ROW 16u   /* behind the edition and the count */
#define FIRST_FIGURE 2u /* behind the refusal and the points */
#define TOLD_WORDS 19u  /* of a row: its kind, then two for each figure */
#define ANSWER_WORDS 7u

enum side { LEFT, RIGHT };

enum row_kind {
    BOTH_ANSWERED,
    LEFT_REFUSED,
    RIGHT_REFUSED,
    ONE_NUMBER,
    TWO_NUMBERS
};

enum figure_kind { DISTANCE, EQUAL_BITS, UNEQUAL_BITS, NOT_COMPARED };

/* ---- a figure ---- */

/* What is told of it; the distance is 0 where it has none. */
struct told {
    enum figure_kind kind;
    uint64_t distance;
};

static struct told tell(enum figure_kind kind, uint64_t distance)
{
    struct told t;

    t.kind = kind;
    t.distance = distance;
    return t;
}

/* The steps between two finite doubles.  A place counts the steps from zero,
 * so they are added where zero, which is one place, lies between the two. */
static uint64_t steps(double left, double right)
{
    uint64_t a = sec_place(left), b = sec_place(right);

    if (sec_negative(left) != sec_negative(right))
        return a + b;
    return a > b ? a - b : b - a;
}

/* Bits are asked only where a side is not finite: the two zeros have other
 * bits, but a distance. */
static struct told compare_figure(uint64_t left, uint64_t right)
{
    double a = sec_double(left), b = sec_double(right);

    if (sec_finite(a) && sec_finite(b))
        return tell(DISTANCE, steps(a, b));
    return tell(left == right ? EQUAL_BITS : UNEQUAL_BITS, 0);
}

/* ---- the first largest ---- */

/* Of the distances so far; at the row count and word 11 while there is none. */
struct largest {
    uint64_t row, word, distance;
};

static struct largest no_distance(uint64_t rows)
{
    struct largest l;

    l.row = rows;
    l.word = ROW_WORDS;
    l.distance = 0;
    return l;
}

/* They come in order, so that only a larger one takes its place.  A distance
 * of 0 is one too. */
static void weigh(struct largest *l, uint64_t row, uint64_t word,
                  uint64_t distance)
{
    if (l->word != ROW_WORDS && distance <= l->distance)
        return;
    l->row = row;
    l->word = word;
    l->distance = distance;
}

/* ---- a row ---- */

/* A row is refused when its first word isn't 0, whatever number that is. */
static enum row_kind compare_refusals(uint64_t left, uint64_t right)
{
    if (left == 0)
        return right == 0 ? BOTH_ANSWERED : RIGHT_REFUSED;
    if (right == 0)
        return LEFT_REFUSED;
    return left == right ? ONE_NUMBER : TWO_NUMBERS;
}

static uint64_t word_of(const uint8_t *file, uint64_t row, uint64_t word)
{
    return sec_word_at(file, FIRST_ROW + 8 * (ROW_WORDS * row + word));
}

/* The points are never compared. */
static void tell_row(const uint8_t *left, const uint8_t *right, uint64_t row,
                     uint64_t told[TOLD_WORDS], struct largest *largest)
{
    enum row_kind kind =
        compare_refusals(word_of(left, row, 0), word_of(right, row, 0));
    uint64_t word;

    *told++ = kind;
    for (word = FIRST_FIGURE; word < ROW_WORDS; word++) {
        struct told t = tell(NOT_COMPARED, 0);

        if (kind == BOTH_ANSWERED)
            t = compare_figure(word_of(left, row, word),
                               word_of(right, row, word));
        if (t.kind == DISTANCE)
            weigh(largest, row, word, t.distance);
        *told++ = t.kind;
        *told++ = t.distance;
    }
}

static struct largest tell_rows(const uint8_t *left, const uint8_t *right,
                                uint64_t count, uint64_t *rows)
{
    struct largest largest = no_distance(count);
    uint64_t row;

    for (row = 0; row < count; row++)
        tell_row(left, right, row, rows + TOLD_WORDS * row, &largest);
    return largest;
}

/* ---- the two files ---- */

/* The bytes of a file, and its rows where it is not refused. */
struct result_file {
    const uint8_t *bytes;
    uint64_t length;
    uint64_t rows;
};

/* 21, 22, 23 and 25 as the walk finds them.  So the three words of a refused
 * file, 1, 0 and its number, are no rows with bytes left. */
static struct refusal check_file(struct result_file *f)
{
    struct walk w = sec_walk(f->bytes, f->length);

    (void)(sec_take_edition(&w, EDITION)
           && sec_take_count(&w, ROWS_LIMIT, &f->rows)
           && sec_take_floats(&w, ROW_WORDS * f->rows) && sec_take_end(&w));
    return w.refusal;
}

/* A refusal of neither file has the side 0, which is the left one's. */
struct sided {
    struct refusal refusal;
    enum side side;
};

static struct sided on_side(enum side side, struct refusal refusal)
{
    struct sided s;

    s.refusal = refusal;
    s.side = side;
    return s;
}

/* The whole left file, the whole right one, then 51, then 26. */
static struct sided check_files(struct result_file *left,
                                struct result_file *right, uint64_t k)
{
    struct refusal refusal = check_file(left);
    uint64_t needed;

    if (refusal.number != 0)
        return on_side(LEFT, refusal);
    refusal = check_file(right);
    if (refusal.number != 0)
        return on_side(RIGHT, refusal);
    if (left->rows != right->rows)
        return on_side(LEFT, sec_say(51, 0));
    needed = TOLD_WORDS * left->rows;
    return on_side(LEFT, k < needed ? sec_say(26, needed) : sec_say(0, 0));
}

static struct result_file file_of(const uint8_t *bytes, uint64_t length)
{
    struct result_file f;

    f.bytes = bytes;
    f.length = length;
    f.rows = 0;
    return f;
}

/* The last four words are of the rows, and 0 under a refusal. */
uint64_t second_compare(const uint8_t *left, size_t left_length,
                        const uint8_t *right, size_t right_length,
                        uint64_t *rows, size_t k,
                        uint64_t *answer, size_t n)
{
    struct result_file l = file_of(left, left_length);
    struct result_file r = file_of(right, right_length);
    struct largest largest = {0, 0, 0};
    struct sided s;
    int accepted;

    if (n != ANSWER_WORDS)
        return WRONG_ANSWER_RUN;
    s = check_files(&l, &r, k);
    accepted = s.refusal.number == 0;
    if (accepted)
        largest = tell_rows(left, right, l.rows, rows);
    answer[0] = s.refusal.number;
    answer[1] = s.side;
    answer[2] = s.refusal.place;
    answer[3] = accepted ? l.rows : 0;
    answer[4] = largest.row;
    answer[5] = largest.word;
    answer[6] = largest.distance;
    return s.refusal.number;
}
