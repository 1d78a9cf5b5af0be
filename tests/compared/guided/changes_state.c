/* Changes of a word, and of a state. */
#include "changes.h"

#include "compared/shared/drive.h"
#include "compared/shared/orbits.h"
#include "compared/states/aimed.h"

#include <math.h>
#include <string.h>

#define SIGN (UINT64_C(1) << 63)
#define UNIT (UINT64_C(1) << 52)
#define INFINITE (2047 * UNIT)

/* Zeros, ones, ends of the doubles, and the limits of counts as records and as words, with those beside them. */
static uint64_t special(void)
{
    static const uint64_t words[] = {
        0, 1, 2, 3, 15, 16, 17, 399, 400, 401, 499, 500, 501, 1499, 1500, 1501, 3000, 3002, 4000, 4008, UNIT - 1, UNIT,
        INFINITE - 1, INFINITE, INFINITE + 1, INFINITE + UNIT / 2, 1023 * UNIT, 1023 * UNIT - 1, 1023 * UNIT + 1,
        UINT64_C(0x00000000FFFFFFFF), UINT64_C(0x0000000100000000), UINT64_C(0x7FFFFFFFFFFFFFFF),
    };
    uint64_t word = words[any_below(sizeof words / sizeof words[0])];

    return one_in(3) ? word | SIGN : word;
}

uint64_t changed(uint64_t word)
{
    switch (any_below(12)) {
    case 0:
        return word ^ UINT64_C(1) << any_below(64);
    case 1:     /* a neighbour, or near it */
        return word + 1 + any_below(3);
    case 2:
        return word - 1 - any_below(3);
    case 3:
        return word ^ SIGN;
    case 4:     /* an exponent near it */
        return word + (uint64_t)any_from(-40, 40) * UNIT;
    case 5:     /* any exponent */
        return (word & ~INFINITE) | any_below(2047) * UNIT;
    case 6:     /* a power of two */
        return (word & SIGN) | any_below(2047) * UNIT;
    case 7:     /* fewer digits */
        return word & ~UINT64_C(0) << any_below(53);
    case 8:
        return any_word();
    default:
        return special();
    }
}

static void scale(uint64_t *words, int first, int count, int exponent)
{
    int i;

    for (i = first; i < first + count; i++)
        put_at(words, i, ldexp(figure_at(words, i), exponent));
}

/* The same orbit in other units, but for what overflows or vanishes there. */
static void other_units(uint64_t *words)
{
    int reach = one_in(2) ? 20 : 300, length = any_from(-reach, reach), time = any_from(-reach, reach);

    scale(words, MU, 1, 3 * length - 2 * time);
    scale(words, X, 3, length);
    scale(words, VX, 3, length - time);
    scale(words, TAU, 1, time);
}

/* Hardly a digit in any word, so that figures come out whole, and at an edge exactly. */
static void few_digits(uint64_t *words)
{
    uint64_t digits = any_below(4);
    int i;

    for (i = 0; i < EIGHT; i++)
        words[i] &= ~UINT64_C(0) << (52 - digits);
}

static void change_state(struct file *f, const struct file *other)
{
    uint64_t words[EIGHT], others[EIGHT];
    size_t place = any_below(EIGHT), from = any_below(EIGHT);
    int vector = one_in(2) ? X : VX;

    unpack_state(f, words);
    unpack_state(other, others);
    switch (any_below(12)) {
    case 0:
        other_units(words);
        break;
    case 1:     /* a vector or tau alone */
        if (one_in(3))
            scale(words, TAU, 1, any_from(-60, 60));
        else
            scale(words, vector, 3, any_from(-60, 60));
        break;
    case 2:
        words[place] = words[from];
        break;
    case 3:
        words[place] = others[one_in(2) ? place : from];
        break;
    case 4:     /* the other from a place on */
        memcpy(words + place, others + place, (EIGHT - place) * sizeof *words);
        break;
    case 5:
        few_digits(words);
        break;
    case 6:
        more_turns(words);
        break;
    default:
        words[place] = changed(words[place]);
        break;
    }
    pack_state(f, words);
}

void change(enum kind kind, struct file *f, const struct file *other)
{
    do {
        if (kind == STATES)
            change_state(f, other);
        else if (kind == ROSTERS)
            change_roster(f, other);
        else if (kind == ROWS)
            change_rows(f, other);
        else if (kind == PAIRS)
            change_pair(f, other);
        else
            change_bytes(kind, f, other);
    } while (one_in(2));
}
