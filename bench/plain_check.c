/*
**  The check of another station's rows in plain C (document 02, T-06). The series at a row's anomaly is worked out once, for its sort and for its figures. Words
**  are copied as they lie: x86-64 has the lowest byte first, as the files have.
*/
#include "plain.h"
#include "plain_point.h"
#include "plain_start.h"

enum { MOST_ROWS = 400, ROW = 18, PSI = 8, NINE = 9 };     /* psi is word 8, and the nine figures stand behind it */

/* Whether a place that is not exact is the one answered: it and its neighbour are a short and a past one, and it is the nearer. */
static inline int is_nearer(const struct orbit *o, uint64_t sign, uint64_t place, double error, enum sort sort)
{
    const int is_short = sort == SHORT;
    struct end own = { place, error }, other = { is_short ? place + 1 : place - 1, 0 };
    struct point p;

    if (sort == UNREADABLE || sort_at(o, sign, other.place, &p) != (is_short ? PAST : SHORT))
        return 0;
    other.error = p.error;
    return nearer(is_short ? &own : &other, is_short ? &other : &own) == place;
}

/* Whether the search may answer this anomaly, whose sums are given. One of the other sign has a place beyond every readable one. */
static inline int is_answer(const struct orbit *o, uint64_t psi, const struct sums *s)
{
    uint64_t sign = word_of(o->tau) & SIGN, place = psi ^ sign;
    double error = error_of(o, s->s1, s->s2, s->s3);
    enum sort sort = sort_of(sign, error);

    if (o->tau == 0)
        return psi == 0;
    return place < INFINITE && (sort == EXACT || is_nearer(o, sign, place, error, sort));
}

/* Whether the formulas at an anomaly, with 7 and 8 not applying, give these nine figures word for word. */
static inline int are_figures(const struct orbit *o, const double *eight, double psi, const struct sums *s, const uint64_t *nine)
{
    struct arc a = arc_of(o, s);
    double figures[13];
    uint64_t unlike = 0;
    int i;

    figures_of(eight, &a, psi, figures);
    for (i = 0; i < NINE; i++)
        unlike |= word_of(figures[i]) ^ nine[i];
    return unlike == 0 && a.r > 0 && all_finite(figures, 13);
}

static uint64_t verdict_on(const uint64_t *row)
{
    double eight[8], psi = figure_of(row[PSI]), l;
    struct orbit o;
    struct sums s;

    memcpy(eight, row, sizeof eight);
    if (!all_finite(eight, 8) || begin(eight, 1, &o) != 0)
        return 0;
    l = o.alpha * (psi * psi);
    if (!isfinite(l))
        return 0;
    s = sums_of(psi, l);
    return is_answer(&o, row[PSI], &s) && are_figures(&o, eight, psi, &s, row + PSI + 1);
}

/* The refusal of a file, with its place, or 0 with the rows. */
static uint64_t count_rows(const uint8_t *file, size_t length, uint64_t *place_or_rows)
{
    uint64_t rows;
    size_t end;

    *place_or_rows = 0;
    if (length < 8)
        return 21;
    memcpy(&rows, file, 8);
    if (rows > MOST_ROWS)
        return 23;
    end = 8 + 8 * ROW * rows;
    *place_or_rows = length < end ? length / 8 * 8 : length > end ? end : rows;
    return length < end ? 21 : length > end ? 25 : 0;
}

uint64_t plain_check(const uint8_t *file, size_t length, uint64_t *verdicts, size_t k, uint64_t *answer, size_t n)
{
    uint64_t row[ROW], i;

    if (n != 2)
        return 60;
    answer[0] = count_rows(file, length, answer + 1);
    if (answer[0] == 0 && k < answer[1])
        answer[0] = 26;
    for (i = 0; answer[0] == 0 && i < answer[1]; i++) {
        memcpy(row, file + 8 + sizeof row * i, sizeof row);
        verdicts[i] = verdict_on(row);
    }
    return answer[0];
}
