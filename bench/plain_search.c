/*
**  The search for the anomaly in plain C: outward by doublings, then inward by proposals and halvings,
**  and of the last two neighbours the nearer one.
*/
#include "plain_parts.h"
#include "plain_point.h"

/*
**  The first proposal that lies strictly between the two places, or 0. Nothing else needs a test: a
**  number of the other sign, an infinity and a NaN have words beyond every readable place, and a zero
**  radius gives an infinity. Neither tau nor the difference of two errors of opposite sign is zero.
*/
static inline uint64_t proposal(const struct orbit *o, uint64_t sign, const struct end *low, const struct end *high,
                                uint64_t last, const struct point *p)
{
    double psi = anomaly_at(sign, last), a, b;
    uint64_t place = word_of(psi - p->error / radius_of(o, p->c0, p->s1, p->s2)) ^ sign;

    if (low->place < place && place < high->place)
        return place;
    place = word_of(psi * (1 - p->error / o->tau)) ^ sign;
    if (low->place < place && place < high->place)
        return place;
    a = anomaly_at(sign, low->place);
    b = anomaly_at(sign, high->place);
    place = word_of(a - low->error / (high->error - low->error) * (b - a)) ^ sign;
    return low->place < place && place < high->place ? place : 0;
}

static inline struct found ended(uint64_t refusal, uint64_t points, double psi)
{
    struct found f;

    f.refusal = refusal;
    f.points = points;
    f.psi = psi;
    return f;
}

/* From a short and a past end; the past one was tried last, and p is its point. */
static struct found inward(const struct orbit *o, uint64_t sign, struct end low, struct end high,
                           struct point p, uint64_t points)
{
    uint64_t last = high.place, place = 0;

    while (high.place - low.place > 1) {
        /* a proposal is followed by a halving, and a halving by the next round's proposal */
        place = place ? 0 : proposal(o, sign, &low, &high, last, &p);
        last = place ? place : low.place + (high.place - low.place) / 2;
        points++;
        switch (sort_at(o, sign, last, &p)) {
        case SHORT:
            low.place = last;
            low.error = p.error;
            break;
        case PAST:
            high.place = last;
            high.error = p.error;
            break;
        case EXACT:
            return ended(0, points, anomaly_at(sign, last));
        case UNREADABLE:
            return ended(6, points, 0);
        }
    }
    return ended(0, points, anomaly_at(sign, nearer(&low, &high)));
}

struct found plain_search(const struct orbit *o)
{
    uint64_t sign = word_of(o->tau) & SIGN, points;
    struct end low, next;
    struct point p;

    if (o->tau == 0)
        return ended(0, 0, 0);
    low.place = 0;
    low.error = -o->tau;
    next.place = word_of(o->h);
    for (points = 1; points <= 41; points++, next.place += UNIT) {
        if (next.place == 0)
            continue;     /* short, and already the low end */
        switch (sort_at(o, sign, next.place, &p)) {
        case SHORT:
            low.place = next.place;
            low.error = p.error;
            break;
        case PAST:
            next.error = p.error;
            return inward(o, sign, low, next, p, points);
        case EXACT:
            return ended(0, points, anomaly_at(sign, next.place));
        case UNREADABLE:
            return ended(6, points, 0);
        }
    }
    return ended(5, 41, 0);
}
