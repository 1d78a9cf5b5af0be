#include "records.h"

#include "compared/shared/drive.h"
#include "compared/shared/orbits.h"
#include "compared/shared/sections.h"

#define SIGN (UINT64_C(1) << 63)
#define UNIT (UINT64_C(1) << 52)
#define INFINITE (2047 * UNIT)
#define ONE (1023 * UNIT)

/* Zeros, subnormals and their ends, numbers and their neighbours, infinities, and NaNs; each of both signs. */
static const uint64_t specials[] = {
    0, 1, 2, UNIT - 1, UNIT, ONE - 1, ONE, ONE + 1, INFINITE - 1, INFINITE,
    INFINITE + 1, INFINITE + UNIT / 2 - 1, INFINITE + UNIT / 2, INFINITE + UNIT - 1,
};

static enum epochs its_epochs;
static uint64_t few[3];

static uint64_t special(void)
{
    uint64_t word = specials[any_below(sizeof specials / sizeof specials[0])];

    return one_in(2) ? word | SIGN : word;
}

/* Two of the few may be one word, or a number and what it is with the other sign. */
void records_begin(enum epochs how)
{
    int i;

    its_epochs = how;
    for (i = 0; i < 3; i++)
        few[i] = special();
    if (one_in(3))
        few[1] = few[0] ^ SIGN;
    if (one_in(3))
        few[2] = few[0];
}

uint64_t any_epoch(void)
{
    uint64_t word[1];

    switch (one_in(12) ? SPECIAL : its_epochs) {
    case PLAIN:
        put_at(word, 0, one_in(4) ? (double)any_from(-3, 3) : between(-1000, 1000));
        return word[0];
    case FEW:
        return few[any_below(3)];
    case SPECIAL:
        return special();
    default:
        return any_word();
    }
}

void any_record(uint64_t *record, uint64_t centres)
{
    int i;

    record[0] = centres ? any_below(centres) : 0;
    record[1] = any_epoch();
    for (i = 2; i < STATE; i++)
        record[i] = any_word();
}

uint64_t bad_centre(uint64_t centres)
{
    uint64_t low = centres ? any_below(centres) : 0, number;

    switch (any_below(5)) {
    case 0:
        number = centres;
        break;
    case 1:
        number = centres + 1;
        break;
    case 2:     /* right in its lower half */
        number = low | (1 + any_below(9)) << 32;
        break;
    case 3:     /* right where four times it wraps around */
        number = low | (1 + any_below(3)) << 62;
        break;
    default:
        number = any_word() | SIGN;
        break;
    }
    return number < centres ? centres : number;
}
