#include "aims_states.h"

#include "compared/shared/drive.h"
#include "compared/shared/orbits.h"
#include "second/parts.h"

#include <stddef.h>

#define STEP (UINT64_C(1) << 52)

enum aim {
    BAD_ALONE, BAD_PAIR,
    SUM, SIGMA, SPEED, PULL, ALPHA, INTERVAL,
    EVEN_SUM, ODD_SUM, FEW_DIGITS,
    SUBNORMAL_H, H_AT_ZERO, ALPHA_ZERO,
    L_AT_ONE, L_NOT_FINITE, R_NAN, R_SHORT, R_PAST, READABLE_NO_MORE,
    FOUND_AT_ZERO, FOUND_AT_MINUS_ZERO, EXACT_OUTWARD, EXACT_INWARD,
    PAST_NEARER, SHORT_NEARER, FINITE_TIE, SUBNORMAL_TIE, BOTH_INFINITE, INFINITE_ANSWERED,
    SHORT_INFINITE, PAST_INFINITE,
    ZERO_BY_TIE, MINUS_ZERO_BY_TIE, ZERO_NEARER, MINUS_ZERO_NEARER, PAST_ZERO, PAST_MINUS_ZERO,
    NOT_ABOVE, NAN_RADIUS, INFINITE_RADIUS, START_ACCELERATION, PARTIALS_ONLY,
    PERIOD_ZERO, PERIOD_INFINITE, PERIOD_NAN, QUOTIENT_INFINITE, SUBNORMAL_MU, SUBNORMAL_DIVISOR,
    NO_TURN, ONE_TURN, ONE_TURN_BACK, MOST_TURNS, MOST_TURNS_BACK, TOO_MANY, TOO_MANY_BACK,
    HALFWAY, HALFWAY_BACK, ROUNDED_UP,
    NOTHING_LEFT, NOTHING_LEFT_BACK, TURNED_BACK, TURNED_FORTH,
    MANY_TURNS, MANY_PARTIALS, FIRST_PAST, TURNED_INFINITE,
    TURNED_SEVEN, TURNED_EIGHT, TURNED_PARTIALS, S3, S4, S5, U,
    AIMS
};

static const char *const names[AIMS] = {
    "the rarest of the eight alone not finite", "the rarest two of them not finite",
    "4 by the sum alone", "4 by sigma0 alone", "4 by v squared", "4 by (2 mu)/r0", "4 by alpha alone", "4 by H alone",
    "subnormal sum of an even power", "subnormal sum of an odd power", "subnormal sum of eight binary digits or fewer",
    "subnormal H", "H at place 0", "alpha zero",
    "L of size 1", "L not finite", "R NaN", "R infinite and short", "R infinite and past", "6 after a past point",
    "psi +0 for a tau above zero", "psi -0 for a tau below zero", "exact outward", "exact inward",
    "past end nearer", "short end nearer", "finite tie", "subnormal tie",
    "both R infinite", "both R infinite and psi answered",
    "past end beside an infinite R", "short end beside an infinite R",
    "+0 by a tie", "-0 by a tie", "+0 nearer", "-0 nearer", "place 1 past +0", "place 1 past -0",
    "7 by r at zero or below", "7 by r a NaN", "an infinite r answered", "8 with no start acceleration", "8 by the partials only",
    "P zero", "P infinite", "P NaN", "tau/P infinite", "turns off by a subnormal mu", "turns off by a subnormal divisor",
    "n 0", "n 1", "n -1", "n 2^40", "n -2^40", "n 2^40+1", "n -2^40-1",
    "tau/P halfway above zero", "tau/P halfway below zero", "tau/P+1/2 rounded up to a whole number",
    "nothing left of a tau above zero", "nothing left of a tau below zero",
    "less than nothing left of a tau above zero", "more than nothing left of a tau below zero",
    "a hundred turns answered", "partials after ten thousand turns", "turns off and the first point past",
    "turns off and an infinite R past", "7 with turns off", "8 with turns off", "8 by the partials only with turns off",
    "8 by s3", "8 by s4 and not s3", "8 by s5 alone", "8 by U alone",
};

static uint64_t seen[AIMS];
static uint64_t alone[EIGHT], together[EIGHT][EIGHT];     /* how often one figure, or two, were not finite */

/* Which of the eight are not finite, where one or two are. */
static void see_bad(const double *e)
{
    int i, first = 0, last = 0, count = 0;

    for (i = 0; i < EIGHT; i++)
        if (!sec_finite(e[i])) {
            first = count++ == 0 ? i : first;
            last = i;
        }
    alone[first] += count == 1;
    together[first][last] += count == 2;
}

/* The counts of the rarest. */
static void settle_bad(void)
{
    int i, j;

    seen[BAD_ALONE] = alone[0];
    seen[BAD_PAIR] = together[0][1];
    for (i = 0; i < EIGHT; i++) {
        if (alone[i] < seen[BAD_ALONE])
            seen[BAD_ALONE] = alone[i];
        for (j = i + 1; j < EIGHT; j++)
            if (together[i][j] < seen[BAD_PAIR])
                seen[BAD_PAIR] = together[i][j];
    }
}

/* The number whose root is r0. */
static double sum_of(const double *e)
{
    return e[X] * e[X] + e[Y] * e[Y] + e[Z] * e[Z];
}

/* A subnormal sum, where there is a search. No r0 so small has an acceleration, so the call is refused: a wrong root shows in the points, or in the refusal. */
static void see_sum(uint64_t sum)
{
    int digits = 0;

    if (sum == 0 || sum >= STEP)
        return;
    for (; sum > 0; sum /= 2)
        digits++;
    seen[digits % 2 == 1 ? EVEN_SUM : ODD_SUM]++;
    seen[FEW_DIGITS] += digits <= 8;
}

/* Which figure alone brings refusal 4, in terms of the rules' own formulas. H is that of the whole tau: nothing comes off where one of the others is not finite, or where H is not. */
static void see_four(const double *e)
{
    double sum = sum_of(e), r0 = 0;
    double sigma = e[X] * e[VX] + e[Y] * e[VY] + e[Z] * e[VZ];
    double square = e[VX] * e[VX] + e[VY] * e[VY] + e[VZ] * e[VZ];
    double pull, h;

    if (!sec_finite(sum)) {
        seen[SUM] += sec_finite(sigma) && sec_finite(square);
        return;
    }
    sec_root(sum, &r0);
    pull = 2 * e[MU] / r0;
    h = sec_size(e[TAU]) / r0;
    if (!sec_finite(square))
        seen[SPEED] += sec_finite(sigma) && sec_finite(pull) && sec_finite(h);
    else if (!sec_finite(pull))
        seen[PULL] += sec_finite(sigma) && sec_finite(h);
    else if (!sec_finite(square - pull))
        seen[ALPHA] += sec_finite(sigma) && sec_finite(h);
    else if (!sec_finite(sigma))
        seen[SIGMA] += sec_finite(h);
    else
        seen[INTERVAL]++;
}

/* The outward points again; answers the sort of the last: -1 short, 0 exact, 1 past, 2 unreadable. */
static int see_outward(const struct start *s)
{
    uint64_t place = sec_word(s->h), k;
    int sort = -1;

    for (k = 0; k <= 40 && sort < 0; k++, place += STEP) {
        double psi = sec_negative(s->searched) ? sec_flip(sec_double(place)) : sec_double(place), error;

        if (place == 0)
            continue;
        if (!sec_finite(psi) || !sec_finite(sec_length(s, psi))) {
            seen[L_NOT_FINITE]++;
            return 2;
        }
        seen[L_AT_ONE] += sec_size(sec_length(s, psi)) == 1;
        error = sec_figures(s, psi).error;
        if (sec_nan(error)) {
            seen[R_NAN]++;
            return 2;
        }
        sort = sec_zero(error) ? 0 : sec_negative(error) != sec_negative(s->searched) ? -1 : 1;
        seen[FIRST_PAST] += sec_unwound(s) && k == 0 && sort == 1;
        if (!sec_finite(error)) {
            seen[sort < 0 ? R_SHORT : R_PAST]++;
            seen[TURNED_INFINITE] += sec_unwound(s) && sort == 1;
        }
    }
    return sort;
}

/* Two errors of one size: the short end is found. */
static void see_tie(double psi, double size, uint64_t propagated)
{
    seen[sec_finite(size) ? FINITE_TIE : BOTH_INFINITE]++;
    seen[INFINITE_ANSWERED] += !sec_finite(size) && propagated == 0;
    seen[SUBNORMAL_TIE] += sec_word(size) < STEP;
    if (sec_zero(psi))
        seen[sec_negative(psi) ? MINUS_ZERO_BY_TIE : ZERO_BY_TIE]++;
}

static void see_short(double psi, double beyond)
{
    seen[SHORT_NEARER]++;
    seen[PAST_INFINITE] += !sec_finite(beyond);
    if (sec_zero(psi))
        seen[sec_negative(psi) ? MINUS_ZERO_NEARER : ZERO_NEARER]++;
}

static void see_past(double psi, double before)
{
    seen[PAST_NEARER]++;
    seen[SHORT_INFINITE] += !sec_finite(before);
    if (sec_word(sec_size(psi)) == 1)
        seen[sec_negative(psi) ? PAST_MINUS_ZERO : PAST_ZERO]++;
}

/* The pair that was closed on: by its sort, the found psi is one end, and the place above or below it the other. */
static void see_pair(const struct start *s, double psi, double error, uint64_t propagated)
{
    uint64_t word = sec_word(psi);
    int past = sec_negative(error) == sec_negative(s->searched);
    double other = sec_figures(s, sec_double(past ? word - 1 : word + 1)).error;

    if (past)
        see_past(psi, other);
    else if (sec_size(error) == sec_size(other))
        see_tie(psi, sec_size(error), propagated);
    else
        see_short(psi, other);
}

static void see_found(const struct start *s, int sort, uint64_t propagated)
{
    struct found found = sec_search(s);
    struct figures at;
    double cube = s->r0 * s->r0 * s->r0;

    seen[READABLE_NO_MORE] += sort == 1 && found.refusal == 6;
    if (found.refusal != 0)
        return;
    at = sec_figures(s, found.psi);
    seen[FOUND_AT_ZERO] += sec_word(found.psi) == 0;
    seen[FOUND_AT_MINUS_ZERO] += sec_zero(found.psi) && sec_word(found.psi) != 0;
    seen[EXACT_OUTWARD] += sort == 0;
    seen[EXACT_INWARD] += sort == 1 && sec_zero(at.error);
    if (!sec_zero(at.error))
        see_pair(s, found.psi, at.error, propagated);
    seen[NOT_ABOVE] += at.radius <= 0;
    seen[NAN_RADIUS] += sec_nan(at.radius) && propagated == 7;
    seen[INFINITE_RADIUS] += !sec_finite(at.radius) && propagated == 0;
    if (propagated == 8 && !sec_zero(cube))
        seen[START_ACCELERATION] += !sec_finite(s->mu * s->position[0] / cube);
}

/* ---- whole revolutions ---- */

/* The count of periods by its edges, whether or not they come off. */
static void see_count(double n)
{
    static const struct {
        double n;
        enum aim aim;
    } edges[] = {
        { 0, NO_TURN }, { 1, ONE_TURN }, { -1, ONE_TURN_BACK }, { 0x1p40, MOST_TURNS }, { -0x1p40, MOST_TURNS_BACK },
        { 0x1p40 + 1, TOO_MANY }, { -0x1p40 - 1, TOO_MANY_BACK },
    };
    size_t i;

    for (i = 0; i < sizeof edges / sizeof edges[0]; i++)
        seen[edges[i].aim] += n == edges[i].n;
}

/* The sum tau/P + 1/2 is a whole number: since tau/P is halfway between two, or by rounding. */
static void see_whole_sum(const struct start *s, double quotient, double n)
{
    if (!sec_unwound(s) || quotient + 0.5 != n)
        return;
    if (quotient != n - 0.5)
        seen[ROUNDED_UP]++;
    else
        seen[sec_negative(s->whole) ? HALFWAY_BACK : HALFWAY]++;
}

/* The period of an ellipse, and how many of it tau is. */
static void see_period(const struct start *s)
{
    double period = sec_period(s->mu, s->alpha), quotient = s->whole / period, n = sec_floor(quotient + 0.5);

    if (sec_nan(period))
        seen[PERIOD_NAN]++;
    else if (!sec_finite(period))
        seen[PERIOD_INFINITE]++;
    else if (sec_zero(period))
        seen[PERIOD_ZERO]++;
    else if (!sec_finite(quotient))
        seen[QUOTIENT_INFINITE]++;
    else {
        see_count(n);
        see_whole_sum(s, quotient, n);
    }
}

/* What turns leave of the interval: zero, or a sign other than tau's. */
static void see_left(const struct start *s)
{
    int back = sec_negative(s->whole);

    if (sec_zero(s->searched))
        seen[back ? NOTHING_LEFT_BACK : NOTHING_LEFT]++;
    else if (sec_negative(s->searched) != back)
        seen[back ? TURNED_FORTH : TURNED_BACK]++;
}

/* The first figure of the whole anomaly that is not finite, where the plain call answers. That anomaly itself always is: for an alpha near enough to zero P is infinite. */
static void see_whole(const struct start *s)
{
    double psi = sec_search(s).psi;
    struct figures at = sec_figures(s, psi);
    struct whole w = sec_wound(s, &at, psi);

    if (!sec_finite(w.s3))
        seen[S3]++;
    else if (!sec_finite(w.s4))
        seen[S4]++;
    else if (!sec_finite(w.s5))
        seen[S5]++;
    else
        seen[U] += !sec_finite(w.u);
}

/*
**  Neither 5 nor 6 comes after turns. Over any part of the way the mean of r is not far below r0, so a point is soon past;
**  and up to there L is finite, and nothing in R overflows but the term in mu, to the past side.
*/
static void see_turned(const struct start *s, uint64_t propagated, uint64_t with_partials)
{
    double n = sec_size(s->revolutions), root;

    sec_root(sec_flip(s->alpha), &root);
    seen[SUBNORMAL_MU] += sec_word(s->mu) < STEP;
    seen[SUBNORMAL_DIVISOR] += sec_word(sec_flip(s->alpha) * root) < STEP;
    see_left(s);
    seen[MANY_TURNS] += n >= 100 && propagated == 0;
    seen[MANY_PARTIALS] += n >= 10000 && with_partials == 0;
    seen[TURNED_SEVEN] += propagated == 7;
    seen[TURNED_EIGHT] += propagated == 8;
    if (propagated == 0 && with_partials == 8) {
        seen[TURNED_PARTIALS]++;
        see_whole(s);
    }
}

void aims_see(const uint64_t *words, uint64_t propagated, uint64_t with_partials)
{
    double e[EIGHT];
    struct start s;
    int i;

    for (i = 0; i < EIGHT; i++)
        e[i] = figure_at(words, i);
    see_bad(e);
    if (propagated == 4)
        see_four(e);
    if (sec_start(e, &s) != 0)
        return;
    if (s.alpha < 0)
        see_period(&s);
    if (sec_unwound(&s))
        see_turned(&s, propagated, with_partials);
    if (sec_zero(s.searched))
        return;
    see_sum(sec_word(sum_of(e)));
    seen[SUBNORMAL_H] += sec_word(s.h) != 0 && sec_word(s.h) < STEP;
    seen[H_AT_ZERO] += sec_word(s.h) == 0;
    seen[ALPHA_ZERO] += sec_zero(s.alpha);
    seen[PARTIALS_ONLY] += propagated == 0 && with_partials == 8;
    see_found(&s, see_outward(&s), propagated);
}

int aims_tell(void)
{
    settle_bad();
    return aims_tell_all(names, seen, AIMS);
}
