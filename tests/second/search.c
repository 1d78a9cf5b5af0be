/* The search for the anomaly.  Its tau is the searched interval. */
#include "parts.h"

#define STEP ((uint64_t)1 << 52)
#define PLACE_LIMIT (2047u * STEP)
#define OUTWARD_POINTS 41u

struct search {
    const struct start *s;
    uint64_t points;
    struct point low;  /* the short end */
    struct point high; /* the past end */
    struct point last; /* the point tried last */
};

/* psi has the sign of tau; its place is the bits of its size. */
static double psi_at(const struct start *s, uint64_t place)
{
    double psi = sec_double(place);

    return sec_negative(s->searched) ? sec_flip(psi) : psi;
}

uint64_t sec_place(double psi)
{
    return sec_word(sec_size(psi));
}

/* Place 0 is short, and its time error is minus tau. */
static struct point place_zero(const struct start *s)
{
    struct point p;

    p.sort = SHORT;
    p.place = 0;
    p.psi = psi_at(s, 0);
    p.error = sec_flip(s->searched);
    p.radius = s->r0;
    return p;
}

/* An error that is NaN is unreadable; a zero is exact; the sign opposite to
 * tau is short; the rest are past.  An infinite error counts by its sign. */
static enum sort sort_error(const struct start *s, double error)
{
    if (sec_nan(error))
        return UNREADABLE;
    if (sec_zero(error))
        return EXACT;
    if (sec_negative(error) != sec_negative(s->searched))
        return SHORT;
    return PAST;
}

/* Psi or L not finite is unreadable, before R is looked at. */
static int unreadable_place(const struct start *s, uint64_t place)
{
    if (place >= PLACE_LIMIT)
        return 1;
    return !sec_finite(sec_length(s, psi_at(s, place)));
}

/* A trial point, sorted in the document's order. */
struct point sec_sorted(const struct start *s, uint64_t place)
{
    struct point p = place_zero(s);
    struct figures g;

    if (place == 0)
        return p;
    p.place = place;
    if (unreadable_place(s, place)) {
        p.sort = UNREADABLE;
        return p;
    }
    p.psi = psi_at(s, place);
    g = sec_figures(s, p.psi);
    p.error = g.error;
    p.radius = g.radius;
    p.sort = sort_error(s, p.error);
    return p;
}

/* Every place that is sorted is one point, evaluated or not. */
static enum sort try_place(struct search *q, uint64_t place)
{
    q->last = sec_sorted(q->s, place);
    q->points++;
    return q->last.sort;
}

/* Outward: the place of |H| plus k 2^52 for k = 0 to 40, until one is not
 * short.  The point before it, or place 0 when k = 0, stays as the low end. */
static enum sort outward(struct search *q)
{
    uint64_t first = sec_place(q->s->h);
    unsigned k;

    q->low = place_zero(q->s);
    for (k = 0; k < OUTWARD_POINTS; k++) {
        enum sort sort = try_place(q, first + k * STEP);

        if (sort != SHORT)
            return sort;
        q->low = q->last;
    }
    return SHORT;
}

/* A proposal fits when it is finite, has the sign of tau and lies strictly
 * between the two places. */
static int fits(const struct search *q, double psi)
{
    return sec_finite(psi)
        && sec_negative(psi) == sec_negative(q->s->searched)
        && sec_place(psi) > q->low.place
        && sec_place(psi) < q->high.place;
}

/* First proposal: psi - R/r of the last tried point. */
static int by_radius(const struct search *q, double *psi)
{
    if (sec_zero(q->last.radius))
        return 0;
    *psi = q->last.psi - q->last.error / q->last.radius;
    return fits(q, *psi);
}

/* Second proposal: psi (1 - R/tau) of the last tried point. */
static int by_interval(const struct search *q, double *psi)
{
    if (sec_zero(q->s->searched))
        return 0;
    *psi = q->last.psi * (1.0 - q->last.error / q->s->searched);
    return fits(q, *psi);
}

/* Third proposal: a - (Ra/(Rb - Ra)) (b - a), a the short end, b the past. */
static int by_ends(const struct search *q, double *psi)
{
    double a = q->low.psi, b = q->high.psi;
    double ra = q->low.error, rb = q->high.error;
    double divisor = rb - ra;

    if (sec_zero(divisor))
        return 0;
    *psi = a - (ra / divisor) * (b - a);
    return fits(q, *psi);
}

/* The first of the three that fits, if any; a zero divisor passes on. */
static int proposal(const struct search *q, uint64_t *place)
{
    double psi;

    if (!by_radius(q, &psi) && !by_interval(q, &psi) && !by_ends(q, &psi))
        return 0;
    *place = sec_place(psi);
    return 1;
}

/* The halving place is low plus half the difference, rounded down. */
static uint64_t halving(const struct search *q)
{
    return q->low.place + (q->high.place - q->low.place) / 2;
}

static int apart(const struct search *q)
{
    return q->high.place - q->low.place > 1;
}

/* A tried point replaces the end of its own sort. */
static enum sort narrow(struct search *q, uint64_t place)
{
    enum sort sort = try_place(q, place);

    if (sort == SHORT)
        q->low = q->last;
    if (sort == PAST)
        q->high = q->last;
    return sort;
}

static int ended(enum sort sort)
{
    return sort == EXACT || sort == UNREADABLE;
}

/* Inward, in rounds while the places differ by more than 1: a proposal, then,
 * if they still do, the halving place.  The answer is the sort of the point
 * that ended the search, or SHORT, which ends none, when the ends have met. */
static enum sort inward(struct search *q)
{
    uint64_t place;
    enum sort sort;

    q->high = q->last;
    while (apart(q)) {
        if (proposal(q, &place)) {
            sort = narrow(q, place);
            if (ended(sort))
                return sort;
        }
        if (apart(q)) {
            sort = narrow(q, halving(q));
            if (ended(sort))
                return sort;
        }
    }
    return SHORT;
}

/* Two errors of one size, also where both are infinite. */
static int tie(const struct point *low, const struct point *high)
{
    return sec_size(low->error) == sec_size(high->error);
}

/* T-01: of a pair, the end whose error has the smaller size; the short one on
 * a tie.  It asks nothing of how the pair was found. */
const struct point *sec_nearer(const struct point *low,
                               const struct point *high)
{
    if (tie(low, high))
        return low;
    if (sec_size(high->error) < sec_size(low->error))
        return high;
    return low;
}

static struct found close_search(unsigned refusal, uint64_t points, double psi)
{
    struct found f;

    f.refusal = refusal;
    f.points = points;
    f.psi = psi;
    return f;
}

/* Either zero of tau gives +0 with no points; 41 short points are refusal 5,
 * an unreadable point is 6; found is the exact point or the nearer end. */
struct found sec_search(const struct start *s)
{
    struct search q;
    enum sort sort;

    if (sec_zero(s->searched))
        return close_search(0, 0, 0.0);
    q.s = s;
    q.points = 0;
    sort = outward(&q);
    if (sort == SHORT)
        return close_search(5, q.points, 0.0);
    if (sort == PAST)
        sort = inward(&q);
    if (sort == UNREADABLE)
        return close_search(6, q.points, 0.0);
    if (sort == EXACT)
        return close_search(0, q.points, q.last.psi);
    return close_search(0, q.points, sec_nearer(&q.low, &q.high)->psi);
}
