/* Two result files (T-07): the distance of two figures, worked out by hand, and
 * what holds of any distances. */
#include "compare.h"

#include "second/parts.h"

#include <math.h>

#define COUNT(run) (sizeof(run) / sizeof(run)[0])
#define LEAST_NORMAL P52

/* Each of the nine in its turn is the one asked about; the others are 1.0. */
static size_t next_figure(void)
{
    static size_t figure;

    return figure = (figure + 1) % FIGURES;
}

/* ---- one figure ---- */

/* What is told of two words, and that nothing is told of others. */
static void expect_told(uint64_t left, uint64_t right, uint64_t kind,
                        uint64_t distance, const char *what)
{
    size_t figure = next_figure(), word = FIGURE + figure, i;
    size_t first = figure == 0 && kind != BY_DISTANCE ? FIGURE + 1 : FIGURE;

    put_both(0, word, left, right);
    expect_largest(1, 0, distance > 0 ? word : first, distance, what);
    check(row_is(0, BOTH_ANSWERED), what);
    for (i = 0; i < FIGURES; i++)
        check(i == figure ? figure_is(0, i, kind, distance)
                          : figure_is(0, i, BY_DISTANCE, 0), what);
    put_both(0, word, ONE, ONE);
}

/* The same the other way, and with both signs turned. */
static void expect_each_way(uint64_t left, uint64_t right, uint64_t kind,
                            uint64_t distance, const char *what)
{
    expect_told(left, right, kind, distance, what);
    expect_told(right, left, kind, distance, what);
    left ^= MINUS_ZERO;
    right ^= MINUS_ZERO;
    expect_told(left, right, kind, distance, what);
    expect_told(right, left, kind, distance, what);
}

static void expect_steps(uint64_t left, uint64_t right, uint64_t distance,
                         const char *what)
{
    expect_each_way(left, right, BY_DISTANCE, distance, what);
}

/* ---- by hand ---- */

/* Both zeros are one place, and so next to the least of either sign. */
static void test_zeros(void)
{
    expect_steps(0, 0, 0, "+0 and +0");
    expect_steps(0, MINUS_ZERO, 0, "+0 and -0");
    expect_steps(0, 1, 1, "+0 and the least");
    expect_steps(MINUS_ZERO, 1, 1, "-0 and the least");
    expect_steps(MINUS(1), 1, 2, "the least on either side");
    expect_steps(MINUS(3), 4, 7, "three below and four above");
    expect_steps(0, LEAST_NORMAL - 1, P52 - 1, "+0, the largest subnormal");
    expect_steps(MINUS_ZERO, LEAST_NORMAL - 1, P52 - 1, "and -0");
    expect_steps(0, LEAST_NORMAL, P52, "+0, the least normal");
    expect_steps(MINUS_ZERO, ONE, 1023 * P52, "-0 and 1");
    expect_steps(0, ONE, 1023 * P52, "+0 and 1");
    expect_steps(0, LARGEST, 2047 * P52 - 1, "+0 and the largest");
    expect_steps(MINUS_ZERO, LARGEST, 2047 * P52 - 1, "-0 and the largest");
    group("distances from the zeros, by hand");
}

static void test_subnormals(void)
{
    expect_steps(1, 1, 0, "the least and itself");
    expect_steps(1, 2, 1, "the least and twice it");
    expect_steps(1, LEAST_NORMAL - 1, P52 - 2, "least and largest subnormal");
    expect_steps(LEAST_NORMAL - 1, LEAST_NORMAL, 1, "the least normal");
    expect_steps(LEAST_NORMAL - 1, LEAST_NORMAL + 1, 2, "about it");
    expect_steps(LEAST_NORMAL, 2 * P52, P52, "the least normal and twice it");
    expect_steps(MINUS(LEAST_NORMAL - 1), LEAST_NORMAL, 2 * P52 - 1,
                 "the largest subnormal below, the least normal above");
    expect_steps(MINUS(1), LEAST_NORMAL, P52 + 1, "the least below, it above");
    group("distances of subnormals, by hand");
}

/* A place is half as long below a power of two as above it, and still one. */
static void test_powers(void)
{
    uint64_t field;

    for (field = 1; field < 2047; field++) {
        uint64_t power = field * P52;

        expect_steps(power, power, 0, "a power of two and itself");
        expect_steps(power, power + 1, 1, "the next place out");
        expect_steps(power, power - 1, 1, "the next place in");
        expect_steps(power - 1, power + 1, 2, "the places on either side");
        expect_steps(power, power | (P52 - 1), P52 - 1, "the last of it");
        expect_steps(MINUS(power), power, 2 * field * P52, "and its minus");
        expect_steps(power, ONE, field < 1023 ? (1023 - field) * P52
                                              : (field - 1023) * P52,
                     "a power of two and 1");
    }
    group("distances at powers of two, by hand");
}

static void test_plain(void)
{
    uint64_t two = sec_word(2), three = sec_word(3);

    expect_steps(ONE, two, P52, "1 and 2");
    expect_steps(ONE, sec_word(4), 2 * P52, "1 and 4");
    expect_steps(sec_word(0.5), two, 2 * P52, "1/2 and 2");
    expect_steps(ONE, three, P52 + P52 / 2, "1 and 3");
    expect_steps(three, sec_word(5), P52 / 2 + P52 / 4, "3 and 5");
    expect_steps(sec_word(-1), ONE, 2046 * P52, "-1 and 1");
    expect_steps(sec_word(-1), two, 2047 * P52, "-1 and 2");
    expect_steps(sec_word(-2), two, P63, "-2 and 2");
    expect_steps(sec_word(-2), two - 1, P63 - 1, "-2 and the place before 2");
    expect_steps(sec_word(-2), two + 1, P63 + 1, "-2 and the place after 2");
    expect_steps(sec_word(-1), three, 2047 * P52 + P52 / 2, "-1 and 3");
    group("distances of plain numbers, by hand");
}

/* The most of all fits a word. */
static void test_largest(void)
{
    uint64_t most = 2047 * P52 - 1;

    expect_steps(LARGEST, LARGEST, 0, "the largest and itself");
    expect_steps(LARGEST, LARGEST - 1, 1, "the place before it");
    expect_steps(LARGEST, 2046 * P52, P52 - 1, "the largest and 2^1023");
    expect_steps(LARGEST, ONE, 1024 * P52 - 1, "the largest and 1");
    expect_steps(MINUS(LARGEST), ONE, 3070 * P52 - 1, "1 and its minus");
    expect_steps(MINUS(LARGEST), 1, most + 1, "the least and its minus");
    expect_steps(MINUS(LARGEST), LARGEST, 2 * most, "the largest and minus");
    expect_steps(MINUS(LARGEST), LARGEST - 1, 2 * most - 1, "and one less");
    check(2 * most == 0xFFDFFFFFFFFFFFFEu, "the most of all");
    group("distances of the largest, by hand");
}

/* ---- not finite ---- */

/* All of them different. */
static const uint64_t not_finite[] = {
    INFINITE_WORD, MINUS_INFINITE, NAN_WORD, NAN_WORD | MINUS_ZERO,
    INFINITE_WORD + 1, MINUS_INFINITE + 1, NAN_WORD + 1, NAN_WORD - 1,
    0x7FFFFFFFFFFFFFFFu, 0xFFFFFFFFFFFFFFFFu, 0x7FF0000100000000u,
    0x7FF4000000000000u, 0xFFF4000000000000u};

static const uint64_t finite[] = {
    0, MINUS_ZERO, 1, 1 | MINUS_ZERO, P52, ONE, 0xBFF0000000000000u, LARGEST,
    LARGEST | MINUS_ZERO, LARGEST - 1, 0x0008000000000000u};

static void test_not_finite(void)
{
    size_t i, j;

    for (i = 0; i < COUNT(not_finite); i++) {
        for (j = 0; j < COUNT(not_finite); j++)
            expect_each_way(not_finite[i], not_finite[j],
                            i == j ? EQUAL_BITS : UNEQUAL_BITS, 0,
                            "neither is finite");
        for (j = 0; j < COUNT(finite); j++)
            expect_each_way(not_finite[i], finite[j], UNEQUAL_BITS, 0,
                            "one is not finite");
    }
    group("figures that are not finite, by hand");
}

/* NaNs with one bit more or less than another, and the infinities. */
static void test_bits(void)
{
    int bit;

    for (bit = 0; bit < 52; bit++) {
        uint64_t one = INFINITE_WORD | (uint64_t)1 << bit;
        uint64_t but_one = 0x7FFFFFFFFFFFFFFFu ^ (uint64_t)1 << bit;

        expect_each_way(one, one, EQUAL_BITS, 0, "NaN of one bit");
        expect_each_way(one, INFINITE_WORD, UNEQUAL_BITS, 0, "and infinity");
        expect_each_way(one, MINUS(one), UNEQUAL_BITS, 0, "and its minus");
        expect_each_way(one, one ^ INFINITE_WORD, UNEQUAL_BITS, 0,
                        "and a subnormal of its bits");
        expect_each_way(but_one, but_one, EQUAL_BITS, 0, "NaN but one bit");
        expect_each_way(but_one, 0x7FFFFFFFFFFFFFFFu, UNEQUAL_BITS, 0,
                        "and that of all bits");
    }
    group("bits of figures that are not finite");
}

/* ---- what holds of any distances ---- */

static uint64_t distance(double left, double right)
{
    size_t figure = next_figure();
    const uint64_t *at = told + 1 + 2 * figure;
    uint64_t steps;

    put_both(0, FIGURE + figure, sec_word(left), sec_word(right));
    check(compare(length_of(1), length_of(1), TOLD, "any distance") == 0
              && row_is(0, BOTH_ANSWERED) && at[0] == BY_DISTANCE,
          "any distance");
    steps = at[1];
    put_both(0, FIGURE + figure, ONE, ONE);
    return steps;
}

/* A finite double of any bits, or few places from one of those by hand. */
static double any_finite(void)
{
    uint64_t word = chance();

    if (chance() % 2)
        word = finite[chance() % COUNT(finite)] + chance() % 64 - 32;
    if ((word & INFINITE_WORD) == INFINITE_WORD)
        word ^= (uint64_t)1 << (52 + chance() % 11);
    return sec_double(word);
}

/* Each double from one on by nextafter, up or down, which passes one zero. */
static void test_neighbours(void)
{
    double from, to, end;
    uint64_t n;
    int i;

    for (i = 0; i < 2000; i++) {
        from = to = any_finite();
        end = sec_double(i % 2 ? LARGEST : MINUS(LARGEST));
        for (n = 0; n < 40; n++) {
            check(distance(from, to) == n, "so many steps");
            if (to == end)
                break;
            to = nextafter(to, end);
        }
    }
    group("distances by walking from double to double");
}

static void put_in_order(double *a, double *b)
{
    double was = *a;

    if (*a > *b) {
        *a = *b;
        *b = was;
    }
}

/* From the first to the last is as far as by the one between; either way is
 * as far; and no distance is that of equal numbers. */
static void test_triples(void)
{
    double a, b, c;
    uint64_t ab, bc, ac;
    int i;

    for (i = 0; i < 20000; i++) {
        a = any_finite(), b = any_finite(), c = any_finite();
        put_in_order(&a, &b);
        put_in_order(&b, &c);
        put_in_order(&a, &b);
        ab = distance(a, b), bc = distance(b, c), ac = distance(a, c);
        check(ac - ab == bc && ac >= ab && ac >= bc, "by the one between");
        check(distance(c, a) == ac && distance(-a, -c) == ac, "either way");
        check((ab == 0) == (a == b) && (bc == 0) == (b == c), "0 if equal");
    }
    group("distances of ordered triples");
}

/* From one power of two to the next, and about zero as far as the least normal,
 * places are of one length; in that measure the difference is the distance,
 * and it is exact. */
static void test_measured(void)
{
    double a, b;
    int i, power, last;

    for (i = 0; i < 20000; i++) {
        power = (int)(chance() % 2046) - 1022;
        last = power - 52;
        a = ldexp((double)(chance() % (P52 + 1)), last);
        b = ldexp((double)(chance() % (P52 + 1)), last);
        if (power > -1022) {
            a += ldexp(1, power);
            b += ldexp(1, power);
        }
        if (sec_finite(a) && sec_finite(b))
            check(distance(a, b) == (uint64_t)ldexp(fabs(a - b), -last),
                  "a measured distance");
    }
    for (i = 0; i < 4000; i++) {
        a = ldexp((double)(chance() % (2 * P52)) - 0x1p52, -1074);
        b = ldexp((double)(chance() % (2 * P52)) - 0x1p52, -1074);
        check(distance(a, b) == (uint64_t)ldexp(fabs(a - b), 1074),
              "a measured distance about zero");
    }
    group("distances by their measure");
}

/* Twice a normal number is 2^52 places on, so that two of one sign stay as far
 * apart, and two of either sign move apart by twice that. */
static void test_doubled(void)
{
    double a, b;
    uint64_t more;
    int i;

    for (i = 0; i < 20000; i++) {
        a = any_finite(), b = any_finite();
        if (fabs(a) < 0x1p-1022 || fabs(b) < 0x1p-1022
            || fabs(a) >= 0x1p1023 || fabs(b) >= 0x1p1023)
            continue;
        more = (a < 0) != (b < 0) ? 2 * P52 : 0;
        check(distance(a, 2 * a) == P52, "twice a number");
        check(distance(2 * a, 2 * b) == distance(a, b) + more,
              "twice two numbers");
    }
    group("distances of doubled numbers");
}

void selftest_steps(void)
{
    put_files(1);
    test_zeros();
    test_subnormals();
    test_powers();
    test_plain();
    test_largest();
    test_not_finite();
    test_bits();
    test_neighbours();
    test_triples();
    test_measured();
    test_doubled();
}
