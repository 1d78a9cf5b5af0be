/*
**  The row of the root, and roots by classes.
**
**  The row's set is 64 words, 56 normal from the whole range of exponents and 8 subnormal. Each class has two sets of 64:
**  squares, whose root is exact, and others.
**
**  A column is named by its call, over the row's set (library), or by set and call (small normals, squares, library).
*/
#include "kelubashi.h"
#include "plain.h"
#include "row.h"

#include <math.h>
#include <stdio.h>

#define NORMALS 56
#define WORDS 64
#define COUNT(list) (sizeof (list) / sizeof (list)[0])

static uint64_t (*const calls[])(uint64_t, uint64_t *, size_t) = {
    kelubashi1_root, plain_root, fours_root, processor_root, empty_root
};

#define CALLS COUNT(calls)

/* The calls' names, alone and over the sets of a class. */
#define OVER(set) set "library", set "plain", set "fours", set "processor", set "empty"
#define BOTH(class) OVER(class ", squares, "), OVER(class ", others, ")

static const char *const columns[] = {
    OVER(""),
    BOTH("smallest subnormals"),
    BOTH("middle subnormals"),
    BOTH("largest subnormals"),
    BOTH("small normals"),
    BOTH("plain normals"),
    NULL
};

#define SETS ((COUNT(columns) - 1) / CALLS)
#define NORMAL_SETS 7     /* by classes are subnormals from set 1 on and normals from here on, squares and others by turns */

static uint64_t sets[SETS][WORDS];

/* Digits without a pattern, from a fixed sequence (Knuth's multiplier). */
static uint64_t any_digits(void)
{
    static uint64_t digits = 1;

    return digits = digits * UINT64_C(6364136223846793005) + UINT64_C(1442695040888963407);
}

/* A whole number of so many binary digits. */
static uint64_t any_of(unsigned length)
{
    return any_digits() >> (64 - length) | UINT64_C(1) << (length - 1);
}

static void spread(uint64_t *set)
{
    uint64_t i;

    for (i = 0; i < WORDS; i++)
        set[i] = i < NORMALS ? (1 + i * 37) << 52 | any_digits() >> 12 : any_digits() >> (12 + 6 * (i - NORMALS));
}

/* A subnormal's word counts in 2^-1074, the square of 2^-537: where it is a square, so is the number. Of so many digits, or one less. */
static void subnormals(uint64_t *squares, uint64_t *others, unsigned length)
{
    unsigned i;

    for (i = 0; i < WORDS; i++) {
        uint64_t a = any_of(length / 2);
        squares[i] = a * a;
        others[i] = any_of(length - i % 2);
    }
}

/* The first eight squares from 2^-1074 on, and the words behind them, each eight times. */
static void smallest(uint64_t *squares, uint64_t *others)
{
    uint64_t i;

    for (i = 0; i < WORDS; i++) {
        squares[i] = (i % 8 + 1) * (i % 8 + 1);
        others[i] = squares[i] + 1;
    }
}

/* In 64 binades from that of 2^least on; the squares are those of numbers of 26 digits, two for each power of four. */
static void normals(uint64_t *squares, uint64_t *others, int least)
{
    int i;

    for (i = 0; i < WORDS; i++) {
        double a = ldexp((double)any_of(26), least / 2 - 25 + i / 2);
        squares[i] = kelubashi_word(a * a);
        others[i] = (uint64_t)(1023 + least + i) << 52 | any_digits() >> 12;
    }
}

static void fill(void)
{
    spread(sets[0]);
    smallest(sets[1], sets[2]);
    subnormals(sets[3], sets[4], 26);
    subnormals(sets[5], sets[6], 52);
    normals(sets[7], sets[8], -1022);
    normals(sets[9], sets[10], -32);
}

static void pass(size_t column)
{
    const uint64_t *set = sets[column / CALLS];
    uint64_t answer;
    size_t i;

    for (i = 0; i < WORDS; i++)
        calls[column % CALLS](set[i], &answer, 1);
}

/* Whether a word is of the class that its set has the name of: a square's root has 26 digits at most, and ends in zeros. */
static int belongs(size_t set, uint64_t word, uint64_t root)
{
    return set == 0 || ((set >= NORMAL_SETS) == (word >> 52 > 0) && (set % 2 == 1) == (root << 38 == 0));
}

/* Word i of a set, by all calls but the empty one. */
static void check_word(size_t set, size_t i)
{
    uint64_t word = sets[set][i], library, other;
    size_t call;

    for (call = 1; call < CALLS - 1; call++)
        if (kelubashi1_root(word, &library, 1) != 0 || calls[call](word, &other, 1) != 0 || library != other)
            row_differs("the roots differ", set * WORDS + i);
    if (!belongs(set, word, library))
        row_differs("a number stands in another class", set * WORDS + i);
}

static void check(void)
{
    size_t set, i;

    for (set = 0; set < SETS; set++)
        for (i = 0; i < WORDS; i++)
            check_word(set, i);
    printf("root: %d words, %d of them subnormal, and %d sets by classes; library, plain C and processor answer alike\n",
           WORDS, WORDS - NORMALS, (int)SETS - 1);
}

int main(int count, char **words)
{
    const struct row row = { columns, WORDS, pass, check };

    fill();
    return row_run(&row, count, words);
}
