/*
**  The self-check on a host that is sound, and on one whose processor was set otherwise.
**
**     selfcheck          silent; then each fault is set, told in its own words, and taken away again
**     selfcheck fast     for the program linked with -ffast-math: told before anything is set
**
**  A fault that this machine does not take is named, and not counted.
*/
#include "kelubashi.h"
#include "kelubashi_selfcheck.h"

#include <fenv.h>
#include <stdio.h>
#include <stdlib.h>
#include <string.h>
#include <xmmintrin.h>

enum { FTZ = 0x8000, DAZ = 0x0040 };    /* bits of MXCSR */

#define TENTH_BELOW UINT64_C(0x3FB9999999999999)
#define TENTH_ABOVE UINT64_C(0x3FB999999999999A)
#define MINUS UINT64_C(0x8000000000000000)

static unsigned told, untried;

static void expect_silence(const char *when)
{
    const char *line = kelubashi_selfcheck();

    if (line != NULL) {
        printf("selfcheck: %s it should be silent, and says: %s\n", when, line);
        exit(EXIT_FAILURE);
    }
}

/* One line that starts with these words and goes on with what to do. */
static void expect_line(const char *fault, const char *line, const char *words)
{
    size_t length = strlen(words);

    if (line == NULL || strncmp(line, words, length) != 0 || strncmp(line + length, ": ", 2) != 0 ||
        strchr(line, '\n') != NULL) {
        printf("selfcheck: %s should be told as '%s', and is told as: %s\n", fault, words,
               line == NULL ? "nothing" : line);
        exit(EXIT_FAILURE);
    }
    told++;
}

static void not_taken(const char *fault)
{
    printf("selfcheck: NOT TRIED: %s, which this machine or emulator does not take\n", fault);
    untried++;
}

/* ---- rounding ---- */

static const struct rounding {
    int mode;
    const char *name;
    const char *words;
    uint64_t tenth, minus_tenth;    /* the words of 1/10 and -1/10 in this mode */
} ROUNDINGS[] = {
    { FE_UPWARD, "rounding upward", "the processor rounds upward and not to nearest",
      TENTH_ABOVE, MINUS | TENTH_BELOW },
    { FE_DOWNWARD, "rounding downward", "the processor rounds downward and not to nearest",
      TENTH_BELOW, MINUS | TENTH_ABOVE },
    { FE_TOWARDZERO, "rounding toward zero", "the processor rounds toward zero and not to nearest",
      TENTH_BELOW, MINUS | TENTH_BELOW }
};

static int rounds_so(const struct rounding *r)
{
    volatile double one = 1, ten = 10, tenth, minus_tenth;

    tenth = one / ten;
    minus_tenth = -one / ten;
    return kelubashi_word(tenth) == r->tenth && kelubashi_word(minus_tenth) == r->minus_tenth;
}

static void try_rounding(const struct rounding *r)
{
    const char *line;
    int taken;

    fesetround(r->mode);
    taken = rounds_so(r);
    line = kelubashi_selfcheck();
    fesetround(FE_TONEAREST);
    if (taken)
        expect_line(r->name, line, r->words);
    else
        not_taken(r->name);
    expect_silence("with rounding to nearest set again");
}

/* ---- subnormals ---- */

#define BOTH "the processor makes subnormal results zero (FTZ) and takes subnormal operands for zero (DAZ)"

static const struct flushing {
    unsigned bits;
    const char *name;
    const char *words;
} FLUSHINGS[] = {
    { FTZ, "FTZ", "the processor makes subnormal results zero (FTZ)" },
    { DAZ, "DAZ", "the processor takes subnormal operands for zero (DAZ)" },
    { FTZ | DAZ, "FTZ and DAZ", BOTH }
};

/* The bits by which the processor works now: of a result below 2^-1022, and of an operand there. */
static unsigned flushes(void)
{
    volatile double small = 0x1p-1000, smaller = 0x1p-60, subnormal = 0x1p-1060, large = 0x1p100, result, scaled;

    result = small * smaller;
    scaled = subnormal * large;
    return (kelubashi_word(result) == 0 ? FTZ : 0) | (kelubashi_word(scaled) == 0 ? DAZ : 0);
}

static void try_flushing(const struct flushing *f)
{
    unsigned before = _mm_getcsr();
    const char *line;
    unsigned taken;

    _mm_setcsr(before | f->bits);
    taken = flushes();
    line = kelubashi_selfcheck();
    _mm_setcsr(before);
    if (taken == f->bits)
        expect_line(f->name, line, f->words);
    else
        not_taken(f->name);
    expect_silence("with subnormals kept again");
}

/* ---- a host linked with -ffast-math ---- */

static int fast(void)
{
    if (flushes() != (FTZ | DAZ)) {
        printf("selfcheck: NOT TRIED: a host linked with -ffast-math, which keeps subnormals with this compiler\n");
        return EXIT_SUCCESS;
    }
    expect_line("a host linked with -ffast-math", kelubashi_selfcheck(), BOTH);
    _mm_setcsr(_mm_getcsr() & ~(unsigned)(FTZ | DAZ));
    expect_silence("with subnormals kept again");
    return EXIT_SUCCESS;
}

int main(int count, char **words)
{
    size_t i;

    if (count > 1 && strcmp(words[1], "fast") == 0)
        return fast();
    expect_silence("on a sound host");
    for (i = 0; i < sizeof ROUNDINGS / sizeof ROUNDINGS[0]; i++)
        try_rounding(&ROUNDINGS[i]);
    for (i = 0; i < sizeof FLUSHINGS / sizeof FLUSHINGS[0]; i++)
        try_flushing(&FLUSHINGS[i]);
    printf("selfcheck: silent on a sound host; %u faults of the processor told, %u not tried\n", told, untried);
    return EXIT_SUCCESS;
}
