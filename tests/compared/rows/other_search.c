#include "other_search.h"

#include "compared/shared/drive.h"

#define STEP (UINT64_C(1) << 52)

/* From the two ends of a pair to two neighbours, and the nearer of these; or to an exact point. */
static int close_on(const struct start *s, struct point low, struct point high, int chance, uint64_t *psi)
{
    while (high.place - low.place > 1) {
        uint64_t inside = high.place - low.place - 1;
        struct point p = sec_sorted(s, low.place + 1 + (chance ? any_below(inside) : inside / 2));

        if (p.sort == UNREADABLE)
            return 0;
        if (p.sort == EXACT) {
            *psi = sec_word(p.psi);
            return 1;
        }
        if (p.sort == SHORT)
            low = p;
        else
            high = p;
    }
    *psi = sec_word(sec_nearer(&low, &high)->psi);
    return 1;
}

/* Some places, a power of two apart, until one is not short; the short end is one of them, or low. */
static int outward(const struct start *s, uint64_t low_place, uint64_t place, int count, int chance, uint64_t *psi)
{
    struct point low = sec_sorted(s, low_place);

    for (; count > 0; count--, place += STEP) {
        struct point p = sec_sorted(s, place);

        switch (p.sort) {
        case SHORT:
            low = p;
            break;
        case PAST:
            return close_on(s, low, p, chance, psi);
        case EXACT:
            *psi = sec_word(p.psi);
            return 1;
        default:
            return 0;
        }
    }
    return 0;
}

int by_halving(const struct start *s, uint64_t *psi)
{
    return outward(s, 0, sec_place(s->h), 41, 0, psi);
}

int by_chance(const struct start *s, uint64_t *psi)
{
    return outward(s, 0, sec_place(s->h), 41, 1, psi);
}

/* By every eighth power of two, and then by each from the last of those that are short on. */
int from_zero(const struct start *s, uint64_t *psi)
{
    uint64_t low = 0, place = STEP;

    for (; sec_sorted(s, place).sort == SHORT; place += 8 * STEP)
        low = place;
    return outward(s, low, low + STEP, 8, 0, psi);
}
