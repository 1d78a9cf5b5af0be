#include "aims_rows.h"

#include "compared/shared/drive.h"
#include "compared/shared/lent_to_both.h"
#include "second/parts.h"
#include "second/selftest/formulas.h"

#include <string.h>

#define SIGN (UINT64_C(1) << 63)
#define INFINITE (2047 * (UINT64_C(1) << 52))

enum aim {
    RIGHT,     /* no fault of the anomaly */
    /* accepted */
    OWN, OTHER_PSI, NOT_OURS_5, NOT_OURS_6,
    ZERO, MINUS_ZERO, NOTHING_LEFT, TURNED, OTHER_SIGN,
    EXACT_POINT, NEARER_SHORT, NEARER_PAST, TIE, AT_ZERO, AT_MINUS_ZERO, BESIDE_ZERO, BESIDE_INFINITE, BOTH_INFINITE,
    BOTH_ZEROS,
    /* not accepted by the anomaly alone */
    ZERO_TURNED, NOT_ZERO, WRONG_SIGN, PSI_INFINITE, PSI_NAN, L_INFINITE, R_NAN,
    SHORT_SHORT, SHORT_EXACT, SHORT_UNREADABLE, PAST_PAST, PAST_EXACT, PAST_UNREADABLE,
    SHORT_FARTHER, PAST_FARTHER, PAST_TIED, ZERO_FARTHER, ONE_FARTHER,
    /* by the rest alone */
    BY_H, BY_7, BY_8, BY_FIGURE, BY_ZERO, BY_NAN,
    /* of the file */
    NO_BYTE, COUNT_CUT, WORD_CUT, CUT_400, COUNT_401, COUNT_HUGE,
    LEFT_ONE, LEFT_MORE, LEFT_ROW, LEFT_BEHIND_NONE, LEFT_BEHIND_400, NO_RUN, RUN_SHORT, RUN_399,
    NO_ROW, NO_ROW_WITH_RUN, ROW_1, ROWS_2, ROWS_399, ROWS_400, LONGER_RUN, BOTH_VERDICTS,
    AIMS
};

static const char *const names[AIMS] = {
    "rows looked at with a right anomaly",
    "our own", "another psi than ours", "5 for us", "6 for us",
    "tau +0", "tau -0", "nothing left of tau", "turns off", "sign other than tau's",
    "exact", "short end", "past end", "tie", "psi +0 for a tau above zero", "psi -0 for a tau below zero", "place 1 past zero",
    "short end beside an infinite R", "both R infinite", "zeros of both signs among the figures",
    "-0 where nothing is searched", "another psi there", "sign", "psi infinite", "psi NaN", "L not finite", "R NaN",
    "short beside short", "short beside exact", "short beside unreadable",
    "past beside past", "past beside exact", "past beside unreadable",
    "short end with a nearer past one", "past end with a nearer short one", "past end of a tie",
    "zero with a nearer place 1", "place 1 with a nearer zero",
    "4 by H and all else right", "7 and all else right", "8 and all else right", "the rarest of nine figures", "sign of a zero figure",
    "a NaN figure",
    "empty file", "cut in the count", "the rarest of a row's words to be cut at", "cut in 400 rows", "401 rows", "more than 2^32 rows",
    "a byte left", "eight or more left", "a row left", "bytes left behind no row", "bytes left behind 400 rows",
    "no run", "run a word short", "399 words for 400", "no row and no run", "no row and a run", "1 row", "2 rows", "399 rows", "400 rows",
    "longer run", "both verdicts in a file",
};

static uint64_t seen[AIMS];
static uint64_t refused[64], cut_at[ROW_WORDS], figure[9];     /* by number, by word, by figure */

static void see(enum aim aim, int hit)
{
    seen[aim] += hit != 0;
}

/* ---- the anomaly ---- */

/* Of an interval that is no zero. */
static enum aim unreadable(const struct start *s, uint64_t place)
{
    if (place >= INFINITE)
        return place == INFINITE ? PSI_INFINITE : PSI_NAN;
    return sec_finite(sec_length(s, sec_double(place))) ? R_NAN : L_INFINITE;
}

/* A short and a past end, of which p is the one that is proposed. */
static enum aim choice(const struct point *p, const struct point *other)
{
    double mine = sec_size(p->error), its = sec_size(other->error);

    if (mine < its || (mine == its && p->sort == SHORT))
        return RIGHT;
    if (p->sort == SHORT)
        return p->place == 0 ? ZERO_FARTHER : SHORT_FARTHER;
    return mine == its ? PAST_TIED : p->place == 1 ? ONE_FARTHER : PAST_FARTHER;
}

/* The proposed one, short or past, beside its neighbour. */
static enum aim beside(const struct point *p, const struct point *other)
{
    static const enum aim faults[2][4] = {
        [SHORT] = { [SHORT] = SHORT_SHORT, [EXACT] = SHORT_EXACT, [UNREADABLE] = SHORT_UNREADABLE },
        [PAST] = { [PAST] = PAST_PAST, [EXACT] = PAST_EXACT, [UNREADABLE] = PAST_UNREADABLE },
    };
    enum aim fault = faults[p->sort][other->sort];

    return fault == RIGHT ? choice(p, other) : fault;
}

/* Why it is wrong. */
static enum aim fault_of(const struct start *s, uint64_t psi)
{
    uint64_t place = psi & ~SIGN;
    struct point p, other;

    if (sec_zero(s->searched))
        return psi == 0 ? RIGHT : psi == SIGN ? ZERO_TURNED : NOT_ZERO;
    if ((psi & SIGN) != (sec_word(s->searched) & SIGN))
        return WRONG_SIGN;
    p = sec_sorted(s, place);
    if (p.sort == UNREADABLE)
        return unreadable(s, place);
    if (p.sort == EXACT)
        return RIGHT;
    other = sec_sorted(s, p.sort == SHORT ? place + 1 : place - 1);
    return beside(&p, &other);
}

/* How it is right, where something is searched. */
static void see_right(const struct start *s, uint64_t psi)
{
    uint64_t place = psi & ~SIGN;
    struct point p = sec_sorted(s, place), other;

    see(EXACT_POINT, p.sort == EXACT);
    if (p.sort == PAST) {
        see(NEARER_PAST, place != 1);
        see(BESIDE_ZERO, place == 1);
    }
    if (p.sort != SHORT)
        return;
    other = sec_sorted(s, place + 1);
    see(AT_ZERO, psi == 0);
    see(AT_MINUS_ZERO, psi == SIGN);
    see(TIE, sec_finite(p.error) && sec_size(p.error) == sec_size(other.error));
    see(NEARER_SHORT, place != 0 && sec_size(p.error) < sec_size(other.error));
    see(BESIDE_INFINITE, sec_finite(p.error) && !sec_finite(other.error));
    see(BOTH_INFINITE, !sec_finite(p.error));
}

/* ---- a row ---- */

/* Whether the figures are those of the formulas, 7 and 8 aside. */
static int by_formulas(const struct start *s, const uint64_t *row)
{
    uint64_t right[ROW_WORDS];

    if (!sec_finite(sec_length(s, sec_double(row[PSI]))))
        return 0;
    put_row(s, row[PSI], right);
    return memcmp(row + FIGURES, right + FIGURES, 9 * sizeof *row) == 0;
}

static void see_zeros(const uint64_t *figures)
{
    int i, zeros = 0, minus_zeros = 0;

    for (i = 0; i < 9; i++) {
        zeros += figures[i] == 0;
        minus_zeros += figures[i] == SIGN;
    }
    see(BOTH_ZEROS, zeros && minus_zeros);
}

static void see_accepted(const struct start *s, const uint64_t *row, const struct own *own)
{
    see(OWN, own->refusal == 0 && row[PSI] == own->row[PSI]);
    see(OTHER_PSI, own->refusal == 0 && row[PSI] != own->row[PSI]);
    see(NOT_OURS_5, own->refusal == 5);
    see(NOT_OURS_6, own->refusal == 6);
    see_zeros(row + FIGURES);
    see(TURNED, sec_unwound(s) && !sec_zero(s->searched));
    see(NOTHING_LEFT, sec_unwound(s) && sec_zero(s->searched));
    see(ZERO, row[TAU] == 0);
    see(MINUS_ZERO, row[TAU] == SIGN);
    if (sec_zero(s->searched))
        return;
    see(OTHER_SIGN, (row[TAU] ^ row[PSI]) >> 63 != 0);
    see_right(s, row[PSI]);
}

/* At a right anomaly, without 7 and 8: which figure alone is wrong. */
static void see_figures(const struct start *s, const uint64_t *row)
{
    uint64_t right[ROW_WORDS];
    int i, wrong = 0, which = 0;

    put_row(s, row[PSI], right);
    for (i = 0; i < 9; i++)
        if (row[FIGURES + i] != right[FIGURES + i]) {
            wrong++;
            which = i;
        }
    if (wrong != 1)
        return;
    figure[which]++;
    see(BY_ZERO, right[FIGURES + which] << 1 == 0 && row[FIGURES + which] << 1 == 0);
    see(BY_NAN, (row[FIGURES + which] & ~SIGN) > INFINITE);
}

/* Whether it is the fault of the anomaly alone. */
static int alone(enum aim fault, unsigned results, const struct start *s, const uint64_t *row)
{
    if (fault == WRONG_SIGN && fault_of(s, row[PSI] ^ SIGN) != RIGHT)
        return 0;
    return results == 0 && by_formulas(s, row);
}

static void see_refused(const struct start *s, const uint64_t *row)
{
    enum aim fault = fault_of(s, row[PSI]);
    unsigned results;

    if (!sec_finite(sec_length(s, sec_double(row[PSI])))) {     /* there are no figures */
        see(fault, fault == PSI_INFINITE || fault == PSI_NAN || fault == L_INFINITE);
        return;
    }
    results = sec_results(s, sec_double(row[PSI])).refusal;
    if (fault != RIGHT)
        see(fault, alone(fault, results, s, row));
    else if (results == 0)
        see_figures(s, row);
    else
        see(results == 7 ? BY_7 : BY_8, by_formulas(s, row));
}

void aims_see_row(const uint64_t *row, uint64_t verdict, const struct own *own)
{
    double eight[EIGHT];
    struct start s;
    unsigned refusal;
    int i;

    for (i = 0; i < EIGHT; i++)
        eight[i] = figure_at(row, i);
    refusal = sec_start(eight, &s);
    refused[refusal]++;
    if (refusal == 4)     /* where H is at fault, it is alone */
        see(BY_H, sec_finite(s.alpha) && !sec_finite(s.h) && fault_of(&s, row[PSI]) == RIGHT && by_formulas(&s, row)
                      && sec_results(&s, sec_double(row[PSI])).refusal == 0);
    if (refusal != 0)
        return;
    see(RIGHT, fault_of(&s, row[PSI]) == RIGHT);
    if (verdict == 1)
        see_accepted(&s, row, own);
    else
        see_refused(&s, row);
}

/* ---- the file ---- */

static void see_cut(const struct file *f)
{
    see(NO_BYTE, f->length == 0);
    see(COUNT_CUT, f->length > 0 && f->length < 8);
    if (f->length < 8)
        return;
    see(CUT_400, word_at(f, 0) == MOST_ROWS);
    cut_at[(f->length / 8 - 1) % ROW_WORDS]++;
}

static void see_left(const struct file *f)
{
    uint64_t rows = word_at(f, 0), left = f->length - 8 - ROW_BYTES * rows;

    see(LEFT_ONE, left == 1);
    see(LEFT_MORE, left >= 8);
    see(LEFT_ROW, left == ROW_BYTES);
    see(LEFT_BEHIND_NONE, rows == 0);
    see(LEFT_BEHIND_400, rows == MOST_ROWS);
}

static void see_judged(uint64_t rows, size_t k)
{
    uint64_t i, accepted = 0;

    for (i = 0; i < rows; i++)
        accepted += words_of(&library)[i];
    see(NO_ROW, rows == 0 && k == 0);
    see(NO_ROW_WITH_RUN, rows == 0 && k > 0);
    see(ROW_1, rows == 1);
    see(ROWS_2, rows == 2);
    see(ROWS_399, rows == MOST_ROWS - 1);
    see(ROWS_400, rows == MOST_ROWS);
    see(LONGER_RUN, rows > 0 && k > rows);
    see(BOTH_VERDICTS, accepted > 0 && accepted < rows);
}

void aims_see_check(const struct file *f, size_t k)
{
    uint64_t rows = library.answer[2];

    switch (library.status) {
    case 21:
        see_cut(f);
        break;
    case 23:
        see(COUNT_401, word_at(f, 0) == MOST_ROWS + 1);
        see(COUNT_HUGE, word_at(f, 0) >> 32 != 0);
        break;
    case 25:
        see_left(f);
        break;
    case 26:
        see(NO_RUN, k == 0);
        see(RUN_SHORT, k > 0 && k == rows - 1);
        see(RUN_399, k == MOST_ROWS - 1 && rows == MOST_ROWS);
        break;
    default:
        see_judged(rows, k);
        break;
    }
}

/* ---- what is told ---- */

int aims_rows_tell(void)
{
    static const int numbers[] = { 0, 31, 32, 33, 34, 35, 36, 37, 38, 3, 4 };
    int missed = numbers_tell("rows", refused, numbers, sizeof numbers / sizeof numbers[0]);

    seen[WORD_CUT] = rarest(cut_at, ROW_WORDS);
    seen[BY_FIGURE] = rarest(figure, 9);
    return missed + aims_tell_all(names, seen, AIMS);
}
