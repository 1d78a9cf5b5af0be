#include "rules_rows.h"

#include "compared/shared/lent_to_both.h"

#include <string.h>

/* "Refusals: 21, 23, 25 as for element files", then 26. */
static uint64_t refusal_of(const struct file *f, size_t k, uint64_t *place)
{
    uint64_t rows;

    *place = 0;
    if (f->length < 8)
        return 21;
    rows = word_at(f, 0);
    if (rows > MOST_ROWS)
        return 23;
    *place = f->length - f->length % 8;
    if (f->length < 8 + ROW_BYTES * rows)
        return 21;
    *place = 8 + ROW_BYTES * rows;
    if (f->length > *place)
        return 25;
    *place = rows;
    return k < rows ? 26 : 0;
}

/* "A yes or no per row", and words behind them stay. */
static void expect_verdicts(uint64_t rows)
{
    uint64_t i;

    for (i = 0; i < rows; i++)
        if (words_of(&library)[i] > 1)
            differs("a verdict that is neither 1 nor 0");
    if (!room_kept(8 * (size_t)rows))
        differs("written beside the verdicts");
}

void expect_check(const struct file *f, size_t k)
{
    uint64_t place, refusal = refusal_of(f, k, &place);

    if (library.status != refusal || library.answer[1] != refusal || library.answer[2] != place)
        differs("another refusal or place than document 02's");
    expect_verdicts(refusal == 0 ? place : 0);
}

void expect_verdict(const uint64_t *row, uint64_t verdict, const struct own *own)
{
    int same_psi = row[PSI] == own->row[PSI];
    int same_figures = memcmp(row + FIGURES, own->row + FIGURES, 9 * sizeof *row) == 0;

    if (own->refusal == 0 && same_psi && same_figures && verdict != 1)
        differs("a row that we answer is not accepted");
    if (own->refusal == 0 && same_psi && !same_figures && verdict != 0)
        differs("other figures at our own anomaly are accepted");
    if ((own->refusal == 3 || own->refusal == 4 || own->refusal >= 31) && verdict != 0)
        differs("a row is accepted that we refuse by 31 to 38, 3 or 4");
}
