/* Another station's rows (T-06): a yes or no for each, without a search. */
#include "parts.h"
#include "second.h"

#include <string.h>

#define ROWS_LIMIT 400u
#define ROW_WORDS 18u
#define FIRST_ROW 8u /* behind the count word */

/* The eight that come in, the anomaly proposed, the nine end figures. */
struct row {
    double eight[8];
    uint64_t anomaly;
    uint64_t figures[9];
};

static struct row row_at(const uint8_t *file, uint64_t place)
{
    struct row row;
    uint64_t i;

    for (i = 0; i < 8; i++)
        row.eight[i] = sec_double(sec_word_at(file, place + 8 * i));
    row.anomaly = sec_word_at(file, place + 64);
    for (i = 0; i < 9; i++)
        row.figures[i] = sec_word_at(file, place + 72 + 8 * i);
    return row;
}

/* ---- the anomaly ---- */

/* The pair is the point and the next place out if it is short, the next in if
 * past; there is one, since place 0 is short.  Only a short and a past end
 * are a pair to choose from. */
static int picked(const struct start *s, const struct point *p)
{
    struct point other;

    if (p->sort == SHORT) {
        other = sec_sorted(s, p->place + 1);
        return other.sort == PAST && sec_nearer(p, &other) == p;
    }
    other = sec_sorted(s, p->place - 1);
    return other.sort == SHORT && sec_nearer(&other, p) == p;
}

static int exact_or_picked(const struct start *s, uint64_t place)
{
    struct point p = sec_sorted(s, place);

    switch (p.sort) {
    case EXACT:
        return 1;
    case UNREADABLE:
        return 0;
    default:
        return picked(s, &p);
    }
}

/* Of the searched interval: +0 alone where it is either zero, else one with
 * its sign. */
static int right_anomaly(const struct start *s, uint64_t anomaly)
{
    double psi = sec_double(anomaly);

    if (sec_zero(s->searched))
        return anomaly == 0;
    return sec_negative(psi) == sec_negative(s->searched)
        && exact_or_picked(s, sec_place(psi));
}

/* ---- the verdict ---- */

/* Words are compared, so that the two zeros differ. */
static int same_figures(const struct answer *a, const uint64_t figures[9])
{
    uint64_t words[15];

    sec_put(a, words);
    return memcmp(words + 2, figures, 9 * sizeof figures[0]) == 0;
}

/* Refusals 5 and 6 are of the search, which is not run, and are not asked. */
static int accepted(const struct row *row)
{
    struct start s;
    struct answer a;

    if (sec_start(row->eight, &s) != 0 || !right_anomaly(&s, row->anomaly))
        return 0;
    a = sec_results(&s, sec_double(row->anomaly));
    return a.refusal == 0 && same_figures(&a, row->figures);
}

/* ---- the file ---- */

/* 21, 23 and 25 as the walk finds them, then 26.  With it, and with number 0,
 * the place is the rows. */
static struct refusal check_file(const uint8_t *file, uint64_t length,
                                 uint64_t k)
{
    struct walk w = sec_walk(file, length);
    uint64_t rows;

    if (!sec_take_count(&w, ROWS_LIMIT, &rows)
        || !sec_take_floats(&w, ROW_WORDS * rows) || !sec_take_end(&w))
        return w.refusal;
    return sec_say(k < rows ? 26 : 0, rows);
}

static void judge(const uint8_t *file, uint64_t rows, uint64_t *verdicts)
{
    uint64_t i;

    for (i = 0; i < rows; i++) {
        struct row row = row_at(file, FIRST_ROW + 8 * ROW_WORDS * i);

        verdicts[i] = accepted(&row) ? 1 : 0;
    }
}

uint64_t second_check(const uint8_t *file, size_t length,
                      uint64_t *verdicts, size_t k,
                      uint64_t *answer, size_t n)
{
    struct refusal refusal;

    if (n != 2)
        return WRONG_ANSWER_RUN;
    refusal = check_file(file, length, k);
    if (refusal.number == 0)
        judge(file, refusal.place, verdicts);
    answer[0] = refusal.number;
    answer[1] = refusal.place;
    return refusal.number;
}
