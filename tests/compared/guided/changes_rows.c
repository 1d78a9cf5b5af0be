/* Changes of a file of rows. */
#include "changes.h"

#include "compared/rows/row_files.h"
#include "compared/shared/drive.h"
#include "compared/states/aimed.h"

#include <string.h>

#define SIGN (UINT64_C(1) << 63)

/* Rows that are whole, as far as the count goes or not. */
static uint64_t rows_in(const struct file *f)
{
    return f->length < 8 ? 0 : (f->length - 8) / ROW_BYTES;
}

/* A row more at the end, like another, or one less; the count goes along but for a few. */
static void change_count(struct file *f, uint64_t rows)
{
    uint64_t row[ROW_WORDS] = { 0 }, count = word_or_zero(f, 0);

    if (rows > 0 && one_in(2)) {
        f->length -= ROW_BYTES;
        count--;
    } else if (rows < MOST_ROWS && f->length >= 8) {
        if (rows > 0)
            take_row(f, any_below(rows), row);
        set_row(f, rows, row);
        f->length += ROW_BYTES;
        count++;
    }
    if (f->length >= 8)
        put_word(f, 0, one_in(8) ? changed(count) : count);
}

/* The anomaly, with the figures there but for a few. */
static void change_psi(uint64_t *row)
{
    uint64_t psi = row[PSI];

    switch (any_below(4)) {
    case 0:
        psi ^= SIGN;
        break;
    case 1:
        psi = changed(psi);
        break;
    default:
        psi += (uint64_t)any_from(-3, 3);
        break;
    }
    if (one_in(5))
        row[PSI] = psi;
    else
        propose(row, psi);
}

/* The input, with the anomaly and the figures that we answer to it, or with the figures at the anomaly that it had. */
static void change_input(uint64_t *row, const uint64_t *others)
{
    uint64_t place = any_below(EIGHT);

    switch (any_below(4)) {
    case 0:
        memcpy(row + place, others + place, (EIGHT - place) * sizeof *row);
        break;
    case 1:
        more_turns(row);
        break;
    default:
        row[place] = changed(row[place]);
        break;
    }
    if (one_in(2) && answer_row(row) == 0)
        return;
    if (one_in(2))
        propose(row, row[PSI]);
}

static void change_row(uint64_t *row, const uint64_t *others)
{
    uint64_t place = any_below(ROW_WORDS);

    switch (any_below(6)) {
    case 0:
        row[place] = others[place];
        break;
    case 1:
        row[place] = changed(row[place]);
        break;
    case 2:
    case 3:
        change_psi(row);
        break;
    default:
        change_input(row, others);
        break;
    }
}

void change_rows(struct file *f, const struct file *other)
{
    uint64_t rows = rows_in(f), lent = rows_in(other), row[ROW_WORDS], others[ROW_WORDS] = { 0 }, which;

    if (rows == 0 || one_in(8)) {
        change_count(f, rows);
        return;
    }
    if (one_in(8)) {
        if (one_in(2))
            change_end(f);
        else
            splice(f, other);
        return;
    }
    which = any_below(rows);
    take_row(f, which, row);
    if (lent > 0)
        take_row(other, any_below(lent), others);
    change_row(row, others);
    set_row(f, which, row);
}
