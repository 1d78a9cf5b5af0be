/* The sentence of T-06, written down a second time, and rows to ask it of. */
#include "checked.h"

#include "second/second.h"

#include <string.h>

/* The file begins at an odd byte; behind each lent run stands a word. */
void expect_row(const uint64_t row[ROW_WORDS], int yes, const char *what)
{
    uint8_t file[9 + ROW_BYTES];
    uint64_t verdicts[2], a[3];
    size_t i;

    put64(file + 1, 1);
    for (i = 0; i < ROW_WORDS; i++)
        put64(file + 9 + 8 * i, row[i]);
    fill(verdicts, 2);
    fill(a, 3);
    check(second_check(file + 1, 8 + ROW_BYTES, verdicts, 1, a, 2) == 0
              && a[0] == 0 && a[1] == 1, what);
    check(kept(verdicts + 1, 1) && kept(a + 2, 1), what);
    check(verdicts[0] == (yes ? 1u : 0u), what);
}

int own_row(const double e[8], uint64_t row[ROW_WORDS])
{
    uint64_t a[15];
    size_t i;

    if (propagate(e, a) != 0)
        return 0;
    for (i = 0; i < 8; i++)
        row[i] = sec_word(e[i]);
    row[PSI] = a[14];
    memcpy(row + FIGURES, a + 2, 9 * sizeof a[0]);
    return 1;
}

/* ---- the sentence ---- */

/* Of two places beside each other and on either side of the time the nearer,
 * the short one on a tie; a NaN is on neither side. */
int right_psi(const struct start *s, uint64_t psi)
{
    double here, other;

    if (sec_zero(s->searched))
        return psi == 0;
    if (psi >> 63 != sec_word(s->searched) >> 63)
        return 0;
    here = beyond(s, psi);
    if (here < 0) {
        other = beyond(s, psi + 1);
        return other > 0 && other >= -here;
    }
    if (here > 0) {
        other = beyond(s, psi - 1);
        return other < 0 && -other > here;
    }
    return here == 0;
}

/* A zero divisor leaves an acceleration or a velocity that is not finite. */
int no_refusal(const struct start *s, const uint64_t row[ROW_WORDS])
{
    double r0 = s->r0;
    int finite = 1;
    size_t i;

    for (i = 0; i < 9; i++)
        finite = finite && sec_finite(sec_double(row[FIGURES + i]));
    for (i = 0; i < 3; i++)
        finite = finite && sec_finite((-s->mu * s->position[i])
                                      / ((r0 * r0) * r0));
    return finite && sec_figures(s, sec_double(row[PSI])).radius > 0;
}

int right_row(const uint64_t row[ROW_WORDS])
{
    double e[8];
    struct start s;
    uint64_t right[ROW_WORDS];
    size_t i;

    for (i = 0; i < 8; i++)
        e[i] = sec_double(row[i]);
    if (sec_start(e, &s) != 0 || !right_psi(&s, row[PSI]))
        return 0;
    put_row(&s, row[PSI], right);
    return no_refusal(&s, right) && memcmp(row, right, sizeof right) == 0;
}

uint64_t halved(const struct start *s, double low, double high)
{
    uint64_t sign = sec_word(s->searched) & MINUS_ZERO;
    uint64_t a = sign | sec_word(low), b = sign | sec_word(high);

    while (b - a > 1) {
        uint64_t middle = a + (b - a) / 2;

        if (beyond(s, middle) < 0)
            a = middle;
        else
            b = middle;
    }
    return beyond(s, b) < -beyond(s, a) ? b : a;
}
