/*
**  The square root in plain C, digit by digit over whole numbers, and by the processor.
*/
#include "plain.h"
#include "series.h"

/*
**  The root of m * 2^54 rounded down, from 2^52 <= m < 2^54, by its digits. The first, of weight 2^53, is 1; a step
**  finds each of the 53 after it. `twice` is twice the root so far, and what its square leaves of m * 2^54 is `left`
**  times the next digit's weight.
*/
struct known {
    uint64_t left, twice;
};

static inline struct known first_digit(uint64_t m)
{
    struct known known = { 4 * (m - UNIT), 4 * UNIT };

    return known;
}

static inline struct known next_digit(struct known known, uint64_t digit)
{
    uint64_t take = known.twice + digit;

    if (take <= known.left) {
        known.left -= take;
        known.twice = take + digit;
    }
    known.left *= 2;
    return known;
}

/* A step a turn. */
static inline uint64_t by_ones(uint64_t m)
{
    struct known known = first_digit(m);
    uint64_t digit;

    for (digit = UNIT; digit > 0; digit /= 2)
        known = next_digit(known, digit);
    return known.twice / 2;
}

/* Four steps a turn, as in the library. */
static inline uint64_t by_fours(uint64_t m)
{
    struct known known = next_digit(first_digit(m), UNIT);
    uint64_t digit;

    for (digit = UNIT / 16; digit > 0; digit /= 16) {
        known = next_digit(known, 8 * digit);
        known = next_digit(known, 4 * digit);
        known = next_digit(known, 2 * digit);
        known = next_digit(known, digit);
    }
    return known.twice / 2;
}

typedef uint64_t digits_of(uint64_t m);

/* The word of the root of m * 2^e in units of 2^-1126, m of 53 digits. The first digit counts as 1 in the exponent's field. */
static inline uint64_t packed_root(uint64_t m, uint64_t e, digits_of *root)
{
    return (e / 2 + 485) * UNIT + (root(m << (e & 1)) + 1) / 2;
}

/* A subnormal's digits moved up by their leading zeros, so that there are 53 of them. */
static inline uint64_t subnormal_root(uint64_t digits, digits_of *root)
{
    unsigned up = (unsigned)__builtin_clzll(digits) - 11;

    return packed_root(digits << up, 52 - up, root);
}

static inline uint64_t rooted(uint64_t word, uint64_t *answer, size_t n, digits_of *root)
{
    uint64_t field = word >> 52;     /* with the sign above it, so that a negative number is no field below 2047 */

    if (n != 1)
        return 60;
    answer[0] = 0;
    if ((word & ~SIGN) == 0)
        return 0;
    if (field >= 2047)
        return 9;
    answer[0] = field > 0 ? packed_root(word % UNIT + UNIT, field + 51, root) : subnormal_root(word, root);
    return 0;
}

uint64_t plain_root(uint64_t word, uint64_t *answer, size_t n)
{
    return rooted(word, answer, n, by_ones);
}

uint64_t fours_root(uint64_t word, uint64_t *answer, size_t n)
{
    return rooted(word, answer, n, by_fours);
}

uint64_t processor_root(uint64_t word, uint64_t *answer, size_t n)
{
    if (n != 1)
        return 60;
    answer[0] = 0;
    if ((word & ~SIGN) == 0)
        return 0;
    if (word >= INFINITE)
        return 9;
    answer[0] = word_of(sqrt(figure_of(word)));
    return 0;
}
