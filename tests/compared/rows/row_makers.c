#include "row_makers.h"

#include "compared/shared/drive.h"
#include "compared/states/aimed.h"
#include "compared/states/state_families.h"
#include "kelubashi.h"
#include "other_search.h"
#include "second/selftest/formulas.h"

#include <math.h>
#include <string.h>

#define SIGN (UINT64_C(1) << 63)
#define UNIT (UINT64_C(1) << 52)
#define INFINITE (2047 * UNIT)

typedef void (*maker)(uint64_t *words);

#define ANY_OF(makers) (makers)[any_below(sizeof(makers) / sizeof(makers)[0])]

uint64_t answer_row(uint64_t *row)
{
    uint64_t answer[15];
    uint64_t refusal = kelubashi1_propagate(row[MU], row[X], row[Y], row[Z], row[VX], row[VY], row[VZ], row[TAU], answer, 15);

    if (refusal == 0) {
        row[PSI] = answer[14];
        memcpy(row + FIGURES, answer + 2, 9 * sizeof *row);
    }
    return refusal;
}

static unsigned start_of(const uint64_t *row, struct start *s)
{
    double eight[EIGHT];
    int i;

    for (i = 0; i < EIGHT; i++)
        eight[i] = figure_at(row, i);
    return sec_start(eight, s);
}

/* The row of this anomaly and this start, whose refusal 4 by H alone is not asked for. */
static void put_anomaly(const struct start *s, uint64_t psi, uint64_t *row)
{
    if (sec_finite(sec_length(s, sec_double(psi))))
        put_row(s, psi, row);
    row[PSI] = psi;
}

void propose(uint64_t *row, uint64_t psi)
{
    struct start s;

    if (start_of(row, &s) == 0)
        put_anomaly(&s, psi, row);
    row[PSI] = psi;
}

/* ---- to be accepted ---- */

/* Every kind of state that the comparison of states has. */
static void any_input(uint64_t *words)
{
    state_family(any_word())->make(words);
}

static void own(uint64_t *row, maker make)
{
    do
        make(row);
    while (answer_row(row) != 0);
}

void own_row(uint64_t *row, uint64_t turn)
{
    (void)turn;
    own(row, any_input);
}

/* Whether this search finds an anomaly with results. */
static int found(uint64_t *row, int (*search)(const struct start *, uint64_t *))
{
    struct start s;
    uint64_t psi;

    if (start_of(row, &s) != 0 || sec_zero(s.searched) || !search(&s, &psi)
        || sec_results(&s, sec_double(psi)).refusal != 0)
        return 0;
    put_row(&s, psi, row);
    return 1;
}

void other_search_row(uint64_t *row, uint64_t turn)
{
    static int (*const searches[])(const struct start *, uint64_t *) = { by_halving, by_chance, from_zero };

    do
        any_input(row);
    while (!found(row, searches[turn % 3]));
}

/* "Without rerunning the search": 5 and 6 are refusals of the search alone. P12 has an anomaly below its first trial point. */
void unsearchable_row(uint64_t *row, uint64_t turn)
{
    static const maker makers[] = { all_short, far_out, any_scales, marked };
    uint64_t refusal;

    do {
        makers[turn % 4](row);
        refusal = answer_row(row);
    } while ((refusal != 5 && refusal != 6) || !found(row, from_zero));
}

/* ---- one thing changed ---- */

/* Each of the 18 words by one place, either way. */
void one_place_row(uint64_t *row, uint64_t turn)
{
    own_row(row, turn);
    row[turn % ROW_WORDS] += turn / ROW_WORDS % 2 ? 1 : UINT64_MAX;
}

/* Each bit of each of them. */
void one_bit_row(uint64_t *row, uint64_t turn)
{
    own_row(row, turn);
    row[turn % ROW_WORDS] ^= UINT64_C(1) << turn / ROW_WORDS % 64;
}

/* One of the eight by a place, and the figures made anew at the same anomaly. */
void moved_input_row(uint64_t *row, uint64_t turn)
{
    own_row(row, turn);
    row[turn % EIGHT] += turn / EIGHT % 2 ? 1 : UINT64_MAX;
    propose(row, row[PSI]);
}

/* Exact points, ties, neighbours of different sizes and ends at place 0, and every other kind. */
static void choosable(uint64_t *words)
{
    static const maker makers[] = { any_input, exact, whole_numbers, least_units, even_ends, place_zero, infinite_past };

    ANY_OF(makers)(words);
}

/* By one place and by two, either way; a part of them with the figures of the anomaly before. */
void moved_psi_row(uint64_t *row, uint64_t turn)
{
    static const uint64_t steps[] = { 1, UINT64_MAX, 2, UINT64_MAX - 1 };

    own(row, choosable);
    if (one_in(5))
        row[PSI] += steps[turn % 4];
    else
        propose(row, row[PSI] + steps[turn % 4]);
}

void turned_psi_row(uint64_t *row, uint64_t turn)
{
    (void)turn;
    own(row, choosable);
    if (one_in(5))
        row[PSI] ^= SIGN;
    else
        propose(row, row[PSI] ^ SIGN);
}

/* R is not in order from place to place: so many revolutions, or such sums, that only rounding is left of it. */
static void noisy(uint64_t *words)
{
    static const maker makers[] = { long_ellipse, long_ellipse, infinite_short, infinite_error, most_turns, needle, radial };

    ANY_OF(makers)(words);
}

/* Another anomaly, some places from that of the second program's search: every sort beside every sort. */
void near_psi_row(uint64_t *row, uint64_t turn)
{
    int reach = 1 << turn % 10;
    struct start s;
    struct found at;

    do {
        noisy(row);
        at.refusal = start_of(row, &s);
        if (at.refusal == 0)
            at = sec_search(&s);
    } while (at.refusal != 0);
    propose(row, sec_word(at.psi) + (uint64_t)any_from(-reach, reach));
}

/* ---- anomalies that no search finds ---- */

/* The last place that can be read, or one of several such where they are not in order. */
static uint64_t last_readable(const struct start *s)
{
    uint64_t low = 0, high = INFINITE;

    while (high - low > 1) {
        uint64_t middle = low + (high - low) / 2;

        if (sec_sorted(s, middle).sort != UNREADABLE)
            low = middle;
        else
            high = middle;
    }
    return low;
}

/* An ellipse of more than 2^40 revolutions, short at every place: the last one that can be read has a neighbour that cannot. */
static void endless(uint64_t *words)
{
    double mu = around(480, 520), r = around(-4, 4), tau = any_sign(around(600, 700));

    thrown(words, mu, r, 0, tau);
}

/* Without a pull, and in half of the cases towards the centre: then two infinite terms make R a NaN, while the results stay finite. */
static void approach(uint64_t *words)
{
    double mu = any_sign(0.0), r = around(440, 490), speed = around(-40, -20);

    thrown(words, mu, r, speed, any_sign(r / speed));
}

/* At the end of the places that can be read, beside it, beyond it, infinite, or a NaN. */
void far_psi_row(uint64_t *row, uint64_t turn)
{
    static const maker makers[] = { endless, approach, any_input, noisy };
    uint64_t place;
    struct start s;

    do
        makers[turn / 6 % 4](row);
    while (start_of(row, &s) != 0 || sec_zero(s.searched));
    place = last_readable(&s);
    switch (turn % 6) {
    case 0:
        break;
    case 1:
        place += 1;
        break;
    case 2:
        place += (uint64_t)any_from(-6, 6);
        break;
    case 3:
        place += any_below(INFINITE - place);
        break;
    case 4:
        place = INFINITE;
        break;
    default:
        place = INFINITE + 1 + any_below(UNIT - 1);
        break;
    }
    memset(row + FIGURES, 0, 9 * sizeof *row);
    propose(row, (sec_word(s.searched) & SIGN) | (place & ~SIGN));
}

/* An x, with which sigma0 s2 overflows at this place and not at the next one; 0 where s2 does not go down from the one to the other. */
static double overflows_at(const struct start *s, double speed, uint64_t place)
{
    double inner = sec_figures(s, sec_double(place)).s2, outer = sec_figures(s, sec_double(place + 1)).s2;
    double x = 0x1p1000 / inner * 0x1p24 / speed * (1 - 0x1p-51);
    int i;

    for (i = 0; outer < inner && i < 8; i++, x = nextafter(x, INFINITY))
        if (!isfinite(x * speed * inner) && isfinite(x * speed * outer))
            return x;
    return 0;
}

/*
**  A past place whose inner neighbour cannot be read. Towards the centre without a pull r0 s1 is infinite there, and sigma0 s2 at the inner place alone: of two
**  infinite terms R is a NaN, of one it is past. s2 goes by alpha, and up and down by last places where c0 stays as it is.
*/
void beyond_nan_row(uint64_t *row, uint64_t turn)
{
    double speed = around(-40, -20), side = any_sign(1.0), back = any_sign(1.0), mu = any_sign(0.0), x;
    double p[3] = { 0, 0, 0 }, v[3] = { 0, 0, 0 };
    uint64_t place = sec_word(between(350, 360) / speed);
    int axis = any_from(0, 2);
    struct start s;

    (void)turn;
    p[axis] = side;
    v[axis] = -back * side * speed;
    put(row, mu, p, v, back);
    start_of(row, &s);
    while ((x = overflows_at(&s, speed, place)) == 0)
        place++;
    p[axis] = side * x;
    p[(axis + 1) % 3] = any_sign(x / 2);
    put(row, mu, p, v, back * x / speed);
    propose(row, (kelubashi_word(back) & SIGN) | (place + 1));
}

/* The anomaly of the whole interval, and the figures for it: what a station without T-04 sends. */
void whole_psi_row(uint64_t *row, uint64_t turn)
{
    struct start s;
    struct found at;

    (void)turn;
    do {
        turns(row);
        at.refusal = start_of(row, &s);
        if (at.refusal == 0) {
            s.searched = s.whole;
            s.h = sec_size(s.whole) / s.r0 * 0x1p-20;
            at = sec_search(&s);
        }
    } while (at.refusal != 0);
    put_anomaly(&s, sec_word(at.psi), row);
}

/* ---- zeros ---- */

/* The sign of a zero, among the figures and among the eight. */
void zero_row(uint64_t *row, uint64_t turn)
{
    static const maker makers[] = { whole_numbers, exact, no_pull, marked, parabola };
    uint64_t i, from = turn % ROW_WORDS;

    own(row, ANY_OF(makers));
    for (i = 0; i < ROW_WORDS; i++) {
        uint64_t *word = row + (from + i) % ROW_WORDS;

        if ((*word & ~SIGN) == 0) {
            *word ^= SIGN;
            return;
        }
    }
}

/* Both zeros, their neighbours, and any place: where +0 alone is right. */
static uint64_t beside_zero(uint64_t turn)
{
    static const uint64_t words[] = { 0, SIGN, 1, SIGN | 1, 1023 * UNIT };
    uint64_t place = any_below(INFINITE);

    return turn % 6 < 5 ? words[turn % 6] : any_below(2) * SIGN | place;
}

void no_interval_row(uint64_t *row, uint64_t turn)
{
    no_interval(row);
    memset(row + FIGURES, 0, 9 * sizeof *row);
    propose(row, beside_zero(turn));
}

/* Whole revolutions, and nothing left. The whole anomaly is wrong, though the end is the same. */
void nothing_left_row(uint64_t *row, uint64_t turn)
{
    struct start s;

    do
        whole_turns(row);
    while (start_of(row, &s) != 0 || !sec_unwound(&s) || !sec_zero(s.searched));
    put_anomaly(&s, turn % 7 == 0 ? sec_word(sec_whole_psi(&s, 0)) : beside_zero(turn), row);
}

/* ---- refused ---- */

/* 31 to 38, 3 and 4; with zeros as a refused call has them, with the start for an end, or with any row's. */
void refused_row(uint64_t *row, uint64_t turn)
{
    static const maker makers[] = { not_finite, not_finite, small_sum, large_figures, sigma_alone };

    own_row(row, turn);
    ANY_OF(makers)(row);
    if (one_in(3))
        return;
    row[PSI] = 0;
    memset(row + FIGURES, 0, 9 * sizeof *row);
    if (one_in(2))
        memcpy(row + FIGURES, row + X, 6 * sizeof *row);
}

/*
**  4 by H alone, and all else right. alpha is zero and r0 so small that |tau|/r0 overflows, where the term in mu brings the
**  time up to tau; with a smaller tau of the same orbit the row is accepted.
*/
void large_h_row(uint64_t *row, uint64_t turn)
{
    int q = 1 - 2 * any_from(140, 160), axis = any_from(0, 2);
    double p[3] = { 0, 0, 0 }, v[3] = { 0, 0, 0 }, tau;
    struct start s;
    uint64_t psi = 0;

    p[axis] = any_sign(ldexp(1, q));
    v[(axis + 1) % 3] = any_sign(ldexp(1, (1 - q) / 2));
    tau = turn % 4 == 0 ? around(600, 1000 + q) : around(1025 + q, 1000);
    put(row, 1, p, v, any_sign(tau));
    start_of(row, &s);
    from_zero(&s, &psi);
    put_anomaly(&s, psi, row);
}

/* 7 and 8, with the figures of the formulas all the same: those of 8 by the acceleration at the start are finite. */
void no_results_row(uint64_t *row, uint64_t turn)
{
    static const maker makers[] = { to_centre, falls, no_figures, start_alone, start_alone, close_turns };
    struct start s;
    struct found at;

    (void)turn;
    do {
        ANY_OF(makers)(row);
        at.refusal = start_of(row, &s);
        if (at.refusal == 0)
            at = sec_search(&s);
    } while (at.refusal != 0 || sec_results(&s, at.psi).refusal == 0);
    put_row(&s, sec_word(at.psi), row);
}

/* ---- any bits ---- */

void any_bits_row(uint64_t *row, uint64_t turn)
{
    uint64_t i;

    own_row(row, turn);
    for (i = 0; i < ROW_WORDS; i++)
        if (turn % 4 == 0 || one_in(9))
            row[i] = any_word();
}
