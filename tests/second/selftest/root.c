/* The root and the series, with P1 to P5. */
#include "selftest.h"

#include "second/parts.h"
#include "second/second.h"

#include <math.h>

struct wide {
    uint64_t high, low;
};

static struct wide product(uint64_t a, uint64_t b)
{
    uint64_t mask = 0xFFFFFFFFu;
    uint64_t al = a & mask, ah = a >> 32, bl = b & mask, bh = b >> 32;
    uint64_t ll = al * bl, lh = al * bh, hl = ah * bl, hh = ah * bh;
    uint64_t middle = (ll >> 32) + (lh & mask) + (hl & mask);
    struct wide w;

    w.low = (ll & mask) | (middle << 32);
    w.high = hh + (lh >> 32) + (hl >> 32) + (middle >> 32);
    return w;
}

static struct wide moved_left(uint64_t a, int bits)
{
    struct wide w;

    w.low = bits >= 64 ? 0 : a << bits;
    w.high = bits >= 64 ? a << (bits - 64) : bits == 0 ? 0 : a >> (64 - bits);
    return w;
}

static int below(struct wide a, struct wide b)
{
    return a.high != b.high ? a.high < b.high : a.low < b.low;
}

/* The whole number and the power of two of a positive double. */
static uint64_t split(double value, int *power)
{
    uint64_t word = sec_word(value), whole = word & (((uint64_t)1 << 52) - 1);
    int field = (int)(word >> 52);

    *power = (field == 0 ? 1 : field) - 1075;
    return field == 0 ? whole : whole | (uint64_t)1 << 52;
}

/* The root is nearest: the squares of both midpoints enclose the value, and
 * never equal it, since they have more digits than a double. Below a power of
 * two the midpoint is half as far. Both squares are between 2^107 and 2^110,
 * and so is a value between them: its whole number, below 2^53, moves up by at
 * least 55 digits, and none of its own comes to stand above the 110. */
static int nearest(double value, double root)
{
    int pv, pr, bits;
    uint64_t v = split(value, &pv), r = split(root, &pr);
    uint64_t lower = r == (uint64_t)1 << 52 ? 4 * r - 1 : 4 * r - 2;
    uint64_t upper = 4 * r + 2;

    bits = pv - (2 * pr - 4);
    if (bits < 55 || bits > 110 || v >> (110 - bits) != 0)
        return 0;
    return below(product(lower, lower), moved_left(v, bits))
        && below(moved_left(v, bits), product(upper, upper));
}

/* It is the one that is nearest: neither of those beside it is. */
static int nearest_alone(uint64_t word, uint64_t root)
{
    double value = sec_double(word);

    return nearest(value, sec_double(root))
        && !nearest(value, sec_double(root - 1))
        && !nearest(value, sec_double(root + 1));
}

static void check_root(uint64_t word)
{
    uint64_t answer = KEPT;

    check(second_root(word, &answer, 1) == 0, "root refused");
    check(nearest_alone(word, answer), "root not nearest");
}

static void expect_root(uint64_t word, uint64_t number, uint64_t root,
                        const char *what)
{
    uint64_t answer = KEPT;

    check(second_root(word, &answer, 1) == number, what);
    check(answer == root, what);
}

static void test_root(void)
{
    uint64_t answer = KEPT;
    long i;

    expect_root(sec_word(4.0), 0, sec_word(2.0), "P1");
    expect_root(sec_word(2.25), 0, sec_word(1.5), "P2");
    expect_root(1, 0, sec_word(ldexp(1.0, -537)), "P3");
    expect_root(sec_word(-1.0), 9, 0, "P4");
    expect_root(0, 0, 0, "root of +0");
    expect_root(MINUS_ZERO, 0, 0, "root of -0");
    expect_root(MINUS_ZERO | 1, 9, 0, "root of the least negative");
    expect_root(INFINITE_WORD, 9, 0, "root of infinity");
    expect_root(MINUS_ZERO | INFINITE_WORD, 9, 0, "root of -infinity");
    expect_root(NAN_WORD, 9, 0, "root of NaN");
    expect_root(INFINITE_WORD | 1, 9, 0, "root of a signalling NaN");
    check(second_root(ONE, &answer, 0) == 60 && answer == KEPT, "root 60");
    check(second_root(ONE, &answer, 2) == 60 && answer == KEPT, "root 60");
    for (i = 0; i < 300000; i++)
        check_root((chance() % (INFINITE_WORD - 1)) + 1);
    for (i = 1; i < 2000; i++) {
        double d = (double)i;

        check_root((uint64_t)i);
        check_root(INFINITE_WORD - (uint64_t)i);
        check_root(ONE - (uint64_t)i);
        check_root(ONE + (uint64_t)i);
        expect_root(sec_word(d * d), 0, sec_word(d), "root of a square");
    }
    group("root, P1 to P4");
}

/* ---- roots of small numbers, by whole numbers alone ---- */

/* The word of whole * 2^power, a positive double: what split takes apart. */
static uint64_t joined(uint64_t whole, int power)
{
    for (; whole < (uint64_t)1 << 52 && power > -1074; power--)
        whole *= 2;
    return ((uint64_t)(power + 1074) << 52) + whole;
}

/* A root known beforehand is answered, and is what nearest says too. */
static void expect_known(uint64_t word, uint64_t root, const char *what)
{
    expect_root(word, 0, root, what);
    check(nearest_alone(word, root), what);
}

/* nearest takes no root of another sign, power or kind. */
static void expect_none(uint64_t word, uint64_t root, const char *what)
{
    double value = sec_double(word);

    check(!nearest(value, sec_double(0)), what);
    check(!nearest(value, sec_double(word)), what);
    check(!nearest(value, sec_double(root | MINUS_ZERO)), what);
    check(!nearest(value, sec_double(root + ((uint64_t)1 << 52))), what);
    check(!nearest(value, sec_double(root - ((uint64_t)1 << 52))), what);
    check(!nearest(value, sec_double(INFINITE_WORD)), what);
    check(!nearest(value, sec_double(NAN_WORD)), what);
}

/* A power of four has a power of two as root. From 2^-1022 on, the word above
 * it has the same, since 1 + 2^-52 is below the square of 1 + 2^-53; the word
 * below it has the root below, since 1 - 2^-53, or 1 - 2^-52 of a subnormal,
 * is between the squares of 1 - 3 * 2^-54 and 1 - 2^-54. */
static void test_powers(void)
{
    int power;

    for (power = -537; power < -481; power++) {
        uint64_t word = joined(1, 2 * power), root = joined(1, power);

        expect_known(word, root, "root of a power of four");
        expect_none(word, root, "no root of a power of four");
        if (power >= -511) {
            expect_known(word + 1, root, "root above a power of four");
            expect_known(word - 1, root - 1, "root below a power of four");
        }
    }
    group("roots that are powers of two");
}

/* A leading digit counts however far above the others it stands: nearest does
 * not take the root of those others. In field 1 it is the one not written. */
static void test_leading(void)
{
    uint64_t leading;
    int power;

    for (leading = 2; leading >> 53 == 0; leading *= 2)
        for (power = 0; (uint64_t)1 << (2 * power) < leading; power++) {
            double value = sec_double(leading + ((uint64_t)1 << (2 * power)));

            check(!nearest(value, sec_double(joined(1, power - 537))),
                  "leading digit");
        }
    group("leading digits");
}

#define TURNS 4096u

/* How many of the numbers from low to high have a turn: all if they are few. */
static uint64_t turns(uint64_t low, uint64_t high)
{
    return high - low < TURNS ? high - low + 1 : TURNS;
}

/* Whose turn it is: of many the least, the greatest and others far apart. */
static uint64_t at_turn(uint64_t turn, uint64_t low, uint64_t high)
{
    if (high - low < TURNS)
        return low + turn;
    if (turn == 1)
        return high;
    return low + turn * 0x9E3779B97F4A7C15u % (high - low + 1);
}

/* The words of one leading digit, from first to last: thousands of them, and
 * all with one digit set behind it, or one not set. */
static void check_binade(uint64_t first, uint64_t last)
{
    uint64_t turn, digit;

    for (turn = 0; turn < turns(first, last); turn++)
        check_root(at_turn(turn, first, last));
    for (digit = 1; digit <= last - first; digit *= 2) {
        check_root(first + digit);
        check_root(last - digit);
    }
}

/* Subnormals by their length in binary digits, normals by their field. */
static void test_binades(void)
{
    uint64_t length, field;

    for (length = 1; length <= 52; length++)
        check_binade((uint64_t)1 << (length - 1), ((uint64_t)1 << length) - 1);
    group("roots of subnormals, every length");
    for (field = 1; field <= 60; field++)
        check_binade(field << 52, ((field + 1) << 52) - 1);
    group("roots of normals, fields 1 to 60");
}

/* The squares of numbers from low to high, times 4^power, with their roots,
 * and the words beside them. */
static void expect_squares(uint64_t low, uint64_t high, int power)
{
    uint64_t turn;

    for (turn = 0; turn < turns(low, high); turn++) {
        uint64_t a = at_turn(turn, low, high);
        uint64_t word = joined(a * a, 2 * power);

        expect_known(word, joined(a, power), "root of a small square");
        if (word != 1)
            check_root(word - 1);
        check_root(word + 1);
    }
}

/* A subnormal square is the word a * a, with the root a * 2^-537. The squares
 * of an odd field are whole ones of 53 digits times a power of four, those of
 * an even field whole ones of 52; 2^51 is between the squares of 47453132 and
 * 47453133, and 2^53 between those of 94906265 and 94906266. */
static void test_squares(void)
{
    uint64_t middle = (uint64_t)1 << 26;
    int length, power;

    for (length = 1; length <= 26; length++)
        expect_squares((uint64_t)1 << (length - 1),
                       ((uint64_t)1 << length) - 1, -537);
    group("subnormal squares, words beside them");
    for (power = -537; power < -507; power++) {
        expect_squares(middle, 94906265, power);
        expect_squares(47453133, middle - 1, power + 1);
    }
    group("normal squares, words beside them");
}

/* ---- series ---- */

static void test_series(void)
{
    struct coefficients c = sec_coefficients(0.0);
    double l;

    check(c.c0 == 1.0 && c.c1 == 1.0 && c.c2 == 0.5, "P5");
    for (l = -60.0; l < 60.0; l += 0.37) {
        double q = sqrt(fabs(l)), c0, c1;

        c = sec_coefficients(l);
        c0 = l < 0 ? cos(q) : cosh(q);
        c1 = l < 0 ? sin(q) / q : sinh(q) / q;
        check(fabs(c.c0 - c0) < 1e-12 * (1 + fabs(c0)), "c0");
        check(fabs(c.c1 - c1) < 1e-12 * (1 + fabs(c1)), "c1");
        check(fabs(0.5 + l * c.c4 - c.c2) < 1e-13 * (1 + fabs(c.c2)), "c4");
        check(fabs(1.0 / 6.0 + l * c.c5 - c.c3) < 1e-13 * (1 + fabs(c.c3)),
              "c5");
        check(fabs(1.0 + l * c.c2 - c0) < 1e-12 * (1 + fabs(c0)), "c2");
        check(fabs(1.0 + l * c.c3 - c1) < 1e-12 * (1 + fabs(c1)), "c3");
    }
    group("series, P5");
}

void selftest_root(void)
{
    test_root();
    test_powers();
    test_leading();
    test_binades();
    test_squares();
    test_series();
}
