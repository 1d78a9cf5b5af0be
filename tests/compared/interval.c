/*
**  The interval of a request against the processor's own difference, over all classes of words.
**
**  What is expected comes from the rules alone: time less epoch, rounded once, to nearest and ties to even; where that is a NaN, the
**  word 7FF8000000000000. IEEE 754 demands the difference of the processor's subsd. Where whole numbers give it (numbers of one exponent,
**  with sums in the middle of two doubles, and subnormals) the processor is held to them before it is believed.
**
**  Every pair is asked both ways round, and the two answers are held to one another.
*/
#include "kelubashi.h"

#include <inttypes.h>
#include <math.h>
#include <stdio.h>
#include <stdlib.h>

#define SEED UINT64_C(1958)
#define SIGN (UINT64_C(1) << 63)
#define UNIT (UINT64_C(1) << 52)     /* of the exponent's field; the digits lie below it */
#define INFINITE (2047 * UNIT)
#define NAN_WORD UINT64_C(0x7FF8000000000000)
#define LENT UINT64_C(0x5EED5EED5EED5EED)     /* what a lent word holds before a call */
#define LEAST 1000000     /* so many have to be rounded */

static uint64_t asked, told, rounded, middle, subnormal, infinite, nan_count;

/* The next word of a fixed sequence (splitmix64). */
static uint64_t any_word(void)
{
    static uint64_t state = SEED;
    uint64_t z = state += UINT64_C(0x9E3779B97F4A7C15);
    z = (z ^ z >> 30) * UINT64_C(0xBF58476D1CE4E5B9);
    z = (z ^ z >> 27) * UINT64_C(0x94D049BB133111EB);
    return z ^ z >> 31;
}

static uint64_t any_below(uint64_t limit)
{
    return any_word() % limit;
}

/* Ends the test with what differs. */
static void differs(const char *what, uint64_t time, uint64_t epoch, uint64_t number, uint64_t answer, uint64_t right)
{
    printf("\ninterval: %s, time %016" PRIX64 " (%.17g) and epoch %016" PRIX64 " (%.17g): status %" PRIu64 " and answer %016" PRIX64
           ", expected 0 and %016" PRIX64 "\n",
           what, time, kelubashi_figure(time), epoch, kelubashi_figure(epoch), number, answer, right);
    exit(EXIT_FAILURE);
}

static int is_nan(uint64_t word)
{
    return (word & ~SIGN) > INFINITE;
}

static void expect(uint64_t time, uint64_t epoch, uint64_t right)
{
    uint64_t run[3] = { LENT, LENT, LENT };
    uint64_t number = kelubashi1_interval(time, epoch, run + 1, 1);

    if (number != 0 || run[1] != right)
        differs("another answer", time, epoch, number, run[1], right);
    if (run[0] != LENT || run[2] != LENT)
        differs("written beside the answer", time, epoch, number, run[1], right);
    asked++;
    subnormal += (right & ~SIGN) != 0 && (right & ~SIGN) < UNIT;
    infinite += (right & ~SIGN) == INFINITE;
    nan_count += right == NAN_WORD;
}

/* The word of the processor's difference, with one word for every NaN; what the sum loses is what Knuth's two-sum finds. */
static uint64_t difference(uint64_t time, uint64_t epoch)
{
    volatile double left = kelubashi_figure(time), right = kelubashi_figure(epoch), whole = left - right;
    volatile double of_right = left - whole, of_left = whole + of_right;
    volatile double lost = (left - of_left) - (right - of_right);

    rounded += isfinite(whole) && lost != 0;
    return is_nan(kelubashi_word(whole)) ? NAN_WORD : kelubashi_word(whole);
}

/* Turned round, every number but a zero has the other sign; of zeros -0 less +0 alone is -0. */
static uint64_t turned(uint64_t time, uint64_t epoch, uint64_t right)
{
    if (is_nan(right))
        return NAN_WORD;
    if ((right & ~SIGN) != 0)
        return right ^ SIGN;
    return time == SIGN && epoch == 0 ? SIGN : 0;
}

/* One pair, both ways round. */
static void ask(uint64_t time, uint64_t epoch)
{
    uint64_t right = difference(time, epoch), back = difference(epoch, time);

    if (back != turned(epoch, time, right))
        differs("the processor's own difference, turned round", epoch, time, 0, back, turned(epoch, time, right));
    expect(time, epoch, right);
    expect(epoch, time, back);
}

/* A pair with every sign. */
static void ask_signs(uint64_t time, uint64_t epoch)
{
    ask(time, epoch);
    ask(time ^ SIGN, epoch);
    ask(time, epoch ^ SIGN);
    ask(time ^ SIGN, epoch ^ SIGN);
}

/* A pair whose interval is known, once the processor agrees. */
static void ask_known(double time, double epoch, double right)
{
    uint64_t found = difference(kelubashi_word(time), kelubashi_word(epoch));

    if (found != kelubashi_word(right))
        differs("the processor's own difference", kelubashi_word(time), kelubashi_word(epoch), 0, found, kelubashi_word(right));
    ask_signs(kelubashi_word(time), kelubashi_word(epoch));
}

static void tell(const char *words)
{
    printf(" %" PRIu64 " %s,", asked - told, words);
    told = asked;
}

/* By hand: P10's request, seconds, zeros, the least and the largest double, infinities. */
static void by_hand(void)
{
    const uint64_t one = UINT64_C(0x3FF0000000000000), largest = INFINITE - 1;

    expect(one, 0, one);
    expect(0, one, SIGN | one);
    expect(UINT64_C(0x4008000000000000), UINT64_C(0x4014000000000000), UINT64_C(0xC000000000000000));     /* 3 - 5 */
    expect(UINT64_C(0x3FD3333333333333), UINT64_C(0x3FB999999999999A), UINT64_C(0x3FC9999999999999));     /* 0.3 - 0.1, a last place below 0.2 */
    expect(0, 0, 0);
    expect(0, SIGN, 0);
    expect(SIGN, 0, SIGN);
    expect(SIGN, SIGN, 0);
    expect(one, one, 0);
    expect(2, 1, 1);
    expect(UNIT, 1, UNIT - 1);
    expect(one + 1, UINT64_C(0xBCA0000000000000), one + 2);     /* in the middle, to the even one */
    expect(one, UINT64_C(0xBCA0000000000000), one);
    expect(largest, SIGN | largest, INFINITE);
    expect(largest, SIGN | UINT64_C(0x7C90000000000000), INFINITE);     /* half a last place more than the largest */
    expect(largest, SIGN | UINT64_C(0x7C8FFFFFFFFFFFFF), largest);
    expect(INFINITE, one, INFINITE);
    expect(one, INFINITE, SIGN | INFINITE);
    expect(INFINITE, SIGN | INFINITE, INFINITE);
    expect(INFINITE, INFINITE, NAN_WORD);
    expect(SIGN | INFINITE, SIGN | INFINITE, NAN_WORD);
    tell("by hand");
}

/* Seconds as stations write them: whole ones, microseconds, and what a century counts. */
static void seconds(void)
{
    int i;

    for (i = 0; i < 200000; i++) {
        double time = (double)any_below(UINT64_C(3155760000)) + (double)any_below(1000000) / 1e6;
        double epoch = time + ((double)any_below(172800000000) - 86400e6) / 1e6;

        ask(kelubashi_word(time), kelubashi_word(epoch));
        ask(kelubashi_word(floor(time)), kelubashi_word(floor(epoch)));
    }
    tell("of seconds");
}

/* Whole numbers of up to 53 digits, scaled: below 2^53 their sum is exact; above it an odd one lies in the middle, and goes to the even double. */
static void whole_numbers(void)
{
    int i;

    for (i = 0; i < 250000; i++) {
        uint64_t a = any_below(UINT64_C(1) << 53), b = any_below(UINT64_C(1) << 53), sum = a + b;
        int scale = (int)any_below(2000) - 1030;

        if (sum >> 53 != 0 && sum % 2 != 0) {
            sum += sum % 4 == 3 ? 1 : UINT64_MAX;
            middle++;
        }
        if (scale < -1022)     /* all of them subnormal, or nearly: there every sum of 53 digits is exact */
            scale = -1074;
        ask_known(ldexp((double)a, scale), -ldexp((double)b, scale), ldexp((double)sum, scale));
        ask_known(ldexp((double)a, scale), ldexp((double)b, scale), ldexp((double)a - (double)b, scale));
    }
    tell("of whole numbers, scaled");
}

/* Words up to 2^53: below 2^-1021, where a word counts in 2^-1074, a difference is that of the words. */
static void subnormals(void)
{
    int i;

    for (i = 0; i < 100000; i++) {
        uint64_t a = any_below(2 * UNIT) >> any_below(52), b = any_below(2 * UNIT) >> any_below(52);

        ask_known(kelubashi_figure(a), kelubashi_figure(b), a < b ? -kelubashi_figure(b - a) : kelubashi_figure(a - b));
    }
    tell("of subnormals");
}

/* Any digits, with so much between the two exponents that the smaller one is whole, cut, or next to nothing. */
static void apart(void)
{
    int i, fields;

    for (fields = 0; fields < 110; fields++)
        for (i = 0; i < 2000; i++) {
            uint64_t low = 1 + any_below(2046 - (uint64_t)fields);

            ask_signs((low + (uint64_t)fields) * UNIT + any_below(UNIT), low * UNIT + any_below(UNIT));
        }
    tell("with exponents apart");
}

/* The places next to one another, powers of two among them. */
static void neighbours(void)
{
    uint64_t field;
    int i;

    for (field = UNIT; field < INFINITE; field += UNIT) {
        ask_signs(field, field - 1);
        for (i = 0; i < 20; i++) {
            uint64_t word = field + any_below(UNIT - 16);

            ask_signs(word, word + any_below(16));
        }
    }
    tell("of neighbours");
}

static void largest(void)
{
    int i;

    for (i = 0; i < 50000; i++)
        ask_signs(INFINITE - 1 - any_below(4 * UNIT), INFINITE - 1 - any_below(60 * UNIT));
    tell("of the largest");
}

static void any(void)
{
    int i;

    for (i = 0; i < 500000; i++)
        ask(any_word(), any_word());
    tell("of any bits");
}

/* Infinities and NaNs, each digit alone, all of them, and others, against every class and one another. */
static void not_numbers(void)
{
    const uint64_t others[] = { 0, 1, UNIT - 1, UNIT, UINT64_C(0x3FF0000000000000), INFINITE - 1, INFINITE, INFINITE + 1, NAN_WORD, SIGN - 1 };
    uint64_t digit;
    size_t i, j;

    for (i = 0; i < sizeof others / sizeof others[0]; i++) {
        ask_signs(INFINITE, others[i]);
        for (digit = 1; digit < UNIT; digit *= 2)
            ask_signs(INFINITE + digit, others[i]);
        for (j = 0; j < 5000; j++)
            ask_signs(INFINITE + 1 + any_below(UNIT - 1), others[i]);
    }
    tell("of infinities and NaNs");
}

/* A count that is not 1 is refused, and nothing is written. */
static void counts(void)
{
    const uint64_t words[] = { 0, UINT64_C(0x4010000000000000), SIGN + 1, INFINITE, INFINITE + 1 };
    const size_t wrong[] = { 0, 2, 3 };
    size_t i, j;

    for (i = 0; i < sizeof words / sizeof words[0]; i++) {
        uint64_t run[3] = { LENT, LENT, LENT };
        uint64_t number = kelubashi1_interval(words[i], 0, NULL, 0);

        if (number != 60)
            differs("no run lent, which is 60", words[i], 0, number, LENT, LENT);
        for (j = 0; j < sizeof wrong / sizeof wrong[0]; j++) {
            number = kelubashi1_interval(words[i], 0, run, wrong[j]);
            if (number != 60 || run[0] != LENT || run[1] != LENT || run[2] != LENT)
                differs("a run of another count, which is 60", words[i], 0, number, run[0], LENT);
        }
    }
}

int main(void)
{
    printf("interval: seed %" PRIu64 ", pairs both ways round:", SEED);
    by_hand();
    seconds();
    whole_numbers();
    subnormals();
    apart();
    neighbours();
    largest();
    any();
    not_numbers();
    counts();
    printf(" none differs: %" PRIu64 " differences rounded as the processor's, %" PRIu64 " pairs in the middle of two doubles; answers subnormal %" PRIu64
           ", infinite %" PRIu64 ", NaN %" PRIu64 "\n", rounded, middle, subnormal, infinite, nan_count);
    if (rounded >= LEAST && middle != 0 && subnormal != 0 && infinite != 0 && nan_count != 0)
        return EXIT_SUCCESS;
    printf("interval: too few were asked: %d that are rounded are the least, and some of each other sort\n", LEAST);
    return EXIT_FAILURE;
}
