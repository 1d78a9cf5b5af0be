/* Changes of a pair of result files. */
#include "changes.h"

#include "compared/compare/result_pairs.h"
#include "compared/shared/drive.h"
#include "compared/shared/line_of_doubles.h"

#include <string.h>

/* Rows that are whole on both sides, as far as the counts go or not. */
static uint64_t rows_in(const struct pair *p)
{
    size_t less = p->left.length < p->right.length ? p->left.length : p->right.length;

    return less < 16 ? 0 : (less - 16) / (8 * RESULT_ROW);
}

/* A row more at the end, like another, or one less. */
static void change_length(struct file *f, uint64_t rows, int more)
{
    if (!more) {
        f->length -= 8 * RESULT_ROW;
        return;
    }
    memset(f->bytes + f->length, 0, 8 * RESULT_ROW);
    if (rows > 0)
        memcpy(f->bytes + f->length, f->bytes + result_place(rows - 1, 0), 8 * RESULT_ROW);
    f->length += 8 * RESULT_ROW;
}

/* On both sides but for a few; the counts go along but for a few. */
static void change_counts(struct pair *p, uint64_t rows)
{
    int more = rows == 0 || (rows < MOST_RESULT_ROWS && one_in(2)), apart = one_in(8);
    uint64_t count = rows + (more ? 1 : UINT64_MAX), other;

    if (p->left.length < 16 || p->right.length < 16)
        return;
    other = one_in(8) ? changed(count) : count;
    change_length(&p->left, rows, more);
    put_word(&p->left, 8, other);
    if (apart)
        return;
    change_length(&p->right, rows, more);
    put_word(&p->right, 8, count);
}

/* The edition, the count, or the end of one file. */
static void change_file(struct file *f, const struct pair *others)
{
    size_t place = one_in(2) ? 8 : 0;

    if (one_in(2))
        change_end(f);
    else if (one_in(2))
        splice(f, one_in(2) ? &others->left : &others->right);
    else if (f->length >= place + 8)
        put_word(f, place, changed(word_at(f, place)));
}

/* The word of the other side, some places from it, its opposite, or any near it. */
static uint64_t answering(uint64_t word)
{
    switch (any_below(6)) {
    case 0:
        return word;
    case 1:
        return word ^ SIGN;
    case 2:
        return changed(word);
    default:
        return on_line(word) ? moved_on_line(word, any_from(-3, 3)) : word;
    }
}

/* A word on one side, on both, or from the other pair. */
static void change_word(struct pair *p, uint64_t row, size_t word, uint64_t lent)
{
    struct file *side = one_in(2) ? &p->left : &p->right, *other = side == &p->left ? &p->right : &p->left;
    uint64_t bits = one_in(4) ? lent : changed(result_word(side, row, word));

    if (!one_in(3))
        set_result_word(side, row, word, bits);
    if (one_in(2))
        set_result_word(other, row, word, answering(result_word(side, row, word)));
}

/* A row answered or refused, on a side or on both. */
static void change_refusal(struct pair *p, uint64_t row)
{
    uint64_t number = one_in(2) ? 0 : 1 + any_below(40);

    if (!one_in(3))
        set_result_word(&p->left, row, 0, number);
    if (!one_in(3))
        set_result_word(&p->right, row, 0, one_in(3) ? changed(number) : number);
}

/* The distance of one figure for another, so that the largest is there more than once. */
static void tie(struct pair *p, uint64_t row, uint64_t other)
{
    size_t from = FIRST_FIGURE + any_below(RESULT_FIGURES), to = FIRST_FIGURE + any_below(RESULT_FIGURES);

    set_result_word(&p->left, other, to, result_word(&p->left, row, from));
    set_result_word(&p->right, other, to, result_word(&p->right, row, from));
}

static void change_row(struct pair *p, uint64_t rows, const struct pair *others)
{
    uint64_t row = any_below(rows), other = any_below(rows), lent = rows_in(others) > 0 ? any_below(rows_in(others)) : 0;
    size_t word = any_below(RESULT_ROW);

    switch (any_below(6)) {
    case 0:
        change_refusal(p, row);
        break;
    case 1:
        tie(p, row, other);
        break;
    default:
        change_word(p, row, word, rows_in(others) > 0 ? result_word(&others->left, lent, word) : 0);
        break;
    }
}

/* What no longer fits when it is packed is cut off. */
static void fit(struct pair *p)
{
    size_t most = (MOST_PACKED - 8) / 2;

    if (p->left.length > most)
        p->left.length = most;
    if (p->right.length > most)
        p->right.length = most;
}

void change_pair(struct file *f, const struct file *other)
{
    static struct pair p, others;
    uint64_t rows;

    unpack_pair(f, &p);
    unpack_pair(other, &others);
    rows = rows_in(&p);
    if (one_in(10))
        change_counts(&p, rows);
    else if (rows == 0 || one_in(5))
        change_file(one_in(2) ? &p.left : &p.right, &others);
    else
        change_row(&p, rows, &others);
    fit(&p);
    pack_pair(f, &p);
}
