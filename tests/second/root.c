/* Bits and square root. */
#include "parts.h"
#include "second.h"

#include <math.h>
#include <string.h>

#define SIGN_BIT ((uint64_t)1 << 63)

/* A number crosses as its 64-bit word. */
double sec_double(uint64_t word)
{
    double value;
    memcpy(&value, &word, sizeof value);
    return value;
}

uint64_t sec_word(double value)
{
    uint64_t word;
    memcpy(&word, &value, sizeof word);
    return word;
}

/* A minus before a bracket turns the sign bit round and subtracts nothing. */
double sec_flip(double value)
{
    return sec_double(sec_word(value) ^ SIGN_BIT);
}

/* The bars around a number clear its sign bit. */
double sec_size(double value)
{
    return sec_double(sec_word(value) & ~SIGN_BIT);
}

int sec_negative(double value)
{
    return (sec_word(value) & SIGN_BIT) != 0;
}

/* Doubles are told apart by the exponent field: 2047 is not finite. */
static unsigned field(double value)
{
    return (unsigned)(sec_word(value) >> 52) & 2047u;
}

int sec_finite(double value)
{
    return field(value) != 2047u;
}

/* Field 0 holds the zeros and the subnormals; a zero has no other bit. */
int sec_zero(double value)
{
    return (sec_word(value) & ~SIGN_BIT) == 0;
}

/* Field 2047 holds the infinities and, with any lower bit, the NaNs. */
int sec_nan(double value)
{
    return !sec_finite(value) && (sec_word(value) << 12) != 0;
}

/* The nearest double to the exact root of a non-negative finite double; the
 * root of either zero is +0; anything else is refused with 9 and zero. */
unsigned sec_root(double value, double *root)
{
    *root = 0.0;
    if (sec_zero(value))
        return 0;
    if (!sec_finite(value) || sec_negative(value))
        return 9;
    *root = sqrt(value);
    return 0;
}

uint64_t second_root(uint64_t word, uint64_t *answer, size_t n)
{
    double root;
    unsigned refusal;

    if (n != 1)
        return WRONG_ANSWER_RUN;
    refusal = sec_root(sec_double(word), &root);
    answer[0] = sec_word(root);
    return refusal;
}
