/*
**  The library's square root against the processor's own, over all classes of words.
**
**  What is expected comes from the rules alone: +0 for either zero; refusal 9 with +0 for any other
**  negative number, an infinity or a NaN; else the nearest double. IEEE 754 demands that of the
**  processor's sqrtsd, and on x86-64 sqrt is that. Where whole numbers give the root (squares, and
**  roots nearly halfway between two doubles) the processor is held to them before it is believed.
**
**  Every word is asked with both signs.
*/
#include "kelubashi.h"

#include <inttypes.h>
#include <math.h>
#include <stdio.h>
#include <stdlib.h>

#define SEED UINT64_C(1958)
#define SIGN (UINT64_C(1) << 63)
#define UNIT (UINT64_C(1) << 52)     /* of the exponent's field; the digits lie below it */
#define INFINITE (2047 * UNIT)
#define LENT UINT64_C(0x5EED5EED5EED5EED)     /* what a lent word holds before a call */
#define LEAST 1000000     /* so many subnormals, and so many normal numbers, have to be asked for their root */

static uint64_t asked, told, rooted, subnormal, negative;

/* The next word of a fixed sequence (splitmix64). */
static uint64_t any_word(void)
{
    static uint64_t state = SEED;
    uint64_t z = state += UINT64_C(0x9E3779B97F4A7C15);
    z = (z ^ z >> 30) * UINT64_C(0xBF58476D1CE4E5B9);
    z = (z ^ z >> 27) * UINT64_C(0x94D049BB133111EB);
    return z ^ z >> 31;
}

static uint64_t any_below(uint64_t limit)
{
    return any_word() % limit;
}

/* Ends the test with what differs. */
static void differs(const char *what, uint64_t word, uint64_t number, uint64_t answer,
                    uint64_t right_number, uint64_t right_answer)
{
    printf("\nroot: %s, word %016" PRIX64 " (%.17g): status %" PRIu64 " and answer %016" PRIX64
           ", expected %" PRIu64 " and %016" PRIX64 "\n",
           what, word, kelubashi_figure(word), number, answer, right_number, right_answer);
    exit(EXIT_FAILURE);
}

static void expect(uint64_t word, uint64_t right_number, uint64_t right_answer)
{
    uint64_t run[3] = { LENT, LENT, LENT };
    uint64_t number = kelubashi1_root(word, run + 1, 1);

    if (number != right_number || run[1] != right_answer)
        differs("another answer", word, number, run[1], right_number, right_answer);
    if (run[0] != LENT || run[2] != LENT)
        differs("written beside the answer", word, number, run[1], right_number, right_answer);
    asked++;
}

/* One word against the rules. */
static void ask(uint64_t word)
{
    if ((word & ~SIGN) == 0) {
        expect(word, 0, 0);
    } else if (word >= INFINITE) {     /* infinite, a NaN, or with the sign set */
        expect(word, 9, 0);
        negative += word > SIGN && word < SIGN + INFINITE;
    } else {
        expect(word, 0, kelubashi_word(sqrt(kelubashi_figure(word))));
        rooted++;
        subnormal += word < UNIT;
    }
}

static void ask_both(uint64_t word)
{
    ask(word);
    ask(word ^ SIGN);
}

static void ask_three(uint64_t word)
{
    ask_both(word - 1);
    ask_both(word);
    ask_both(word + 1);
}

/* The word of a number whose root is known, once the processor agrees. */
static uint64_t known(double number, double root)
{
    uint64_t word = kelubashi_word(number);

    if (sqrt(number) != root)
        differs("the processor's own root", word, 0, kelubashi_word(sqrt(number)), 0, kelubashi_word(root));
    return word;
}

static void tell(const char *words)
{
    printf(" %" PRIu64 " %s,", asked - told, words);
    told = asked;
}

/* The marked cases P1 to P4, and the largest double: its root lies just below halfway to 2^512. */
static void marked(void)
{
    expect(UINT64_C(0x4010000000000000), 0, UINT64_C(0x4000000000000000));
    expect(UINT64_C(0x4002000000000000), 0, UINT64_C(0x3FF8000000000000));
    expect(UINT64_C(0x0000000000000001), 0, UINT64_C(0x1E60000000000000));
    expect(UINT64_C(0xBFF0000000000000), 9, 0);
    expect(UINT64_C(0x7FEFFFFFFFFFFFFF), 0, UINT64_C(0x5FEFFFFFFFFFFFFF));
    tell("marked");
}

static void zeros(void)
{
    ask_both(0);
    tell("zeros");
}

/* Every one of up to 18 binary digits; of each greater length the least, the greatest and others. */
static void subnormals(void)
{
    uint64_t word, top;
    int i;

    for (word = 1; word < UINT64_C(1) << 18; word++)
        ask_both(word);
    for (top = word; top < UNIT; top *= 2) {
        ask_both(top);
        ask_both(2 * top - 1);
        for (i = 0; i < 22000; i++)
            ask_both(top + any_below(top));
    }
    tell("subnormals of every length");
}

/* Up to nine binary digits, with as many zeros behind them as a subnormal has room for. */
static void few_digits(void)
{
    uint64_t digits, word;

    for (digits = 1; digits < 512; digits += 2)
        for (word = digits; word < UNIT; word *= 2)
            ask_both(word);
    tell("subnormals of few digits");
}

/* a * a * 2^-1074 for an a of each length up to 26 binary digits, which has the root a * 2^-537, and the word before and after. */
static void subnormal_squares(void)
{
    uint64_t top;
    int i;

    for (top = 1; top < UINT64_C(1) << 26; top *= 2)
        for (i = 0; i < 1000; i++) {
            double a = (double)(top + any_below(top));
            ask_three(known(ldexp(a * a, -1074), ldexp(a, -537)));
        }
    tell("subnormal squares and neighbours");
}

/* The least, the greatest and others of each exponent field from 1 to 2046. */
static void normals(void)
{
    uint64_t field;
    int i;

    for (field = UNIT; field < INFINITE; field += UNIT) {
        ask_both(field);
        ask_both(field + UNIT - 1);
        for (i = 0; i < 200; i++)
            ask_both(field + any_below(UNIT));
    }
    tell("normals of every field");
}

/* From 2^-1074 to 2^1023, and 2^1024, which is infinite; each with the word before and after. */
static void powers(void)
{
    uint64_t word;

    for (word = 1; word < UNIT; word *= 2)
        ask_three(word);
    for (; word <= INFINITE; word += UNIT)
        ask_three(word);
    tell("powers of two and neighbours");
}

/* a * a * 4^k, which is exact for an a of 26 binary digits, and the word before and after. */
static void squares(void)
{
    int i;

    for (i = 0; i < 100000; i++) {
        double a = (double)(1 + any_below((1 << 26) - 1));
        int k = (int)any_below(1020) - 537;
        ask_three(known(ldexp(a * a, 2 * k), ldexp(a, k)));
    }
    tell("squares and neighbours");
}

/*
**  Roots as near to halfway as roots come. An odd y of 54 binary digits lies halfway between two
**  doubles, y - 1 and y + 1. Where y * y = m * 2^k + c with m of 53 digits and a small c, the root of
**  m * 2^k is just below y for c > 0, and just above it for c < 0. Such a y has a square that ends in
**  the digits of c, and there is one for each c that is 1 modulo 8.
*/
static void halfway(uint64_t c)
{
    uint64_t end = 1, half = UINT64_C(1) << 53;
    int i, side, below = c < SIGN;

    /* end * end and c agree in their last i digits, and one more after each round */
    for (i = 3; i < 55; i++)
        end += ((end * end ^ c) >> i & 1) << (i - 1);

    for (side = 0; side < 2; side++, end = -end) {
        uint64_t y = half + end % half;
        uint64_t y1 = y >> 32, y0 = y & UINT32_MAX;
        uint64_t high = y1 * y1 + ((2 * y1 * y0 + (y0 * y0 >> 32)) >> 32), low = y * y;
        int k = high >> 43 ? 55 : 54;     /* y * y has 108 or 107 digits */
        int j = (int)any_below(1000) - 550;
        uint64_t m = (high << (64 - k)) + (low >> k) + !below;

        if ((low ^ c) << (64 - k) == 0)
            ask_both(known(ldexp((double)m, k + 2 * j), ldexp((double)(below ? y - 1 : y + 1), j)));
    }
}

static void halfways(void)
{
    uint64_t c;

    for (c = 1; c < 400000; c += 8) {
        halfway(c);
        halfway(c - 400000);
    }
    tell("nearly halfway");
}

static void any(void)
{
    int i;

    for (i = 0; i < 500000; i++)
        ask_both(any_word());
    tell("of any bits");
}

static void infinities(void)
{
    ask_both(INFINITE);
    tell("infinities");
}

/* Each digit alone, all of them, and others. */
static void nans(void)
{
    uint64_t digit;
    int i;

    for (digit = 1; digit < UNIT; digit *= 2)
        ask_both(INFINITE + digit);
    ask_both(INFINITE + UNIT - 1);
    for (i = 0; i < 50000; i++)
        ask_both(INFINITE + 1 + any_below(UNIT - 1));
    tell("NaNs");
}

/* A count that is not 1 is refused before all else, and nothing is written. */
static void counts(void)
{
    const uint64_t words[] = { 0, UINT64_C(0x4010000000000000), SIGN + 1, INFINITE, INFINITE + 1 };
    const size_t wrong[] = { 0, 2, 3 };
    size_t i, j;

    for (i = 0; i < sizeof words / sizeof words[0]; i++) {
        uint64_t run[3] = { LENT, LENT, LENT };
        uint64_t number = kelubashi1_root(words[i], NULL, 0);
        if (number != 60)
            differs("no run lent", words[i], number, LENT, 60, LENT);
        for (j = 0; j < sizeof wrong / sizeof wrong[0]; j++) {
            number = kelubashi1_root(words[i], run, wrong[j]);
            if (number != 60 || run[0] != LENT || run[1] != LENT || run[2] != LENT)
                differs("a run of another count", words[i], number, run[0], 60, LENT);
        }
    }
}

int main(void)
{
    printf("root: seed %" PRIu64 ", words of both signs:", SEED);
    marked();
    zeros();
    subnormals();
    few_digits();
    subnormal_squares();
    normals();
    powers();
    squares();
    halfways();
    any();
    infinities();
    nans();
    counts();
    printf(" none differs: %" PRIu64 " roots as the processor's, %" PRIu64 " of them of subnormals, %" PRIu64 " negatives refused\n",
           rooted, subnormal, negative);
    if (subnormal >= LEAST && rooted - subnormal >= LEAST)
        return EXIT_SUCCESS;
    printf("root: too few were asked: %d subnormals and as many normal numbers are the least\n", LEAST);
    return EXIT_FAILURE;
}
