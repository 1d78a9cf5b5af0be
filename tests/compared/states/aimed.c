/* Words of any bits, and aims at refusals 31 to 38, 3 and 4. */
#include "aimed.h"

#include "compared/shared/drive.h"
#include "compared/shared/orbits.h"

#include <float.h>
#include <math.h>

#define SIGN (UINT64_C(1) << 63)
#define UNIT (UINT64_C(1) << 52)
#define INFINITE (2047 * UNIT)

/* P6 to P12. */
void marked(uint64_t *words)
{
    static const double cases[][EIGHT] = {
        { 0, 0, 0, 0, 0, 0, 0, 0 },         { 0, NAN, 0, 0, 0, 0, 0, 0 },
        { 0, 0x1p-600, 0, 0, 0, 0, 0, 0 },  { 0, 0x1p600, 0, 0, 0, 0, 0, 0 },
        { 0, 1, 0, 0, 0, 0, 0, 1 },         { 0, 1, 0, 0, 0, 0, 0, -1 },
        { 0, 1, 0, 0, 0, 0x1p500, 0, 0x1p40 },
    };
    const double *one = cases[any_below(sizeof cases / sizeof cases[0])];
    int i;

    for (i = 0; i < EIGHT; i++)
        put_at(words, i, one[i]);
}

/* Few digits, so that R is often zero, and points are exact: by k, by a proposal, by halving. */
void whole_numbers(uint64_t *words)
{
    int i;

    for (i = 0; i < EIGHT; i++) {
        double size = one_in(3) ? 0.0 : one_in(3) ? power(-6, 6) : any_from(1, 12);
        put_at(words, i, any_sign(size));
    }
}

/* Both zeros of tau, with every kind of state. */
void no_interval(uint64_t *words)
{
    if (one_in(3))
        any_scales(words);
    else
        plain(words);
    put_at(words, TAU, any_sign(0.0));
}

void any_words(uint64_t *words)
{
    int i;

    for (i = 0; i < EIGHT; i++)
        words[i] = any_word();
}

/* Every word finite, with exponents within a reach that is itself of any size. */
void any_scales(uint64_t *words)
{
    int i, reach = any_from(1, 1000);

    for (i = 0; i < EIGHT; i++) {
        double size = one_in(10) ? 0.0 : around(-reach, reach);
        put_at(words, i, any_sign(size));
    }
}

/* A word of any bits in one place of a plain orbit. */
void one_word(uint64_t *words)
{
    uint64_t place = any_below(EIGHT);

    plain(words);
    words[place] = any_word();
}

/* An infinity, or a NaN of any bits. */
static uint64_t any_not_finite(void)
{
    uint64_t digits = one_in(2) ? 0 : one_in(2) ? UNIT / 2 : any_below(UNIT);

    return any_below(2) * SIGN | INFINITE | digits;
}

/* Refusals 31 to 38, by one figure or by the first of two, and that they come before 3 and 4. */
void not_finite(uint64_t *words)
{
    static void (*const otherwise[])(uint64_t *words) = { plain, any_scales, small_sum, large_figures, any_words };
    int count;

    otherwise[any_below(sizeof otherwise / sizeof otherwise[0])](words);
    for (count = any_from(1, 2); count > 0; count--) {
        uint64_t place = any_below(EIGHT);

        words[place] = any_not_finite();
    }
}

/* Refusal 3, and its edge: squares below half the least double vanish, each by itself. */
void small_sum(uint64_t *words)
{
    int i;

    plain(words);
    for (i = X; i <= Z; i++) {
        double size = one_in(4) ? 0.0 : one_in(2) ? around(-539, -536) : around(-1074, -530);
        put_at(words, i, any_sign(size));
    }
    if (one_in(2))
        put_at(words, TAU, any_sign(around(-1074, -500)));
}

/* T-03, the root of a subnormal of every length; mu and tau are of the distance's scale, so that there is a search. */
void subnormal_sum(uint64_t *words)
{
    double distance = around(-537, -511);
    double mu = around(-540, -508);
    double speed = around(-4, 4);
    double tau = any_sign(around(-540, -508));

    thrown(words, mu, distance, speed, tau);
}

/* Refusal 4 by the sum, by v squared, by (2 mu)/r0, by alpha and by H; and the edge of each. */
void large_figures(uint64_t *words)
{
    double mu = 0, r = power(-2, 2), v = power(-2, 2), tau = power(-2, 2);
    int q;

    switch (any_below(6)) {
    case 0:
        r = around(509, 513);
        break;
    case 1:
        v = around(509, 513);
        break;
    case 2:     /* 2 mu overflows, though (2 mu)/r0 might not have */
        mu = any_sign(around(1021, 1023));
        r = around(0, 400);
        break;
    case 3:
        r = around(-500, -100);
        mu = any_sign(r * around(1020, 1023));
        break;
    case 4:     /* v squared and (2 mu)/r0 are finite, and their difference may not be */
        mu = -around(1020, 1022);
        r = 1;
        v = around(510, 511);
        break;
    default:     /* |tau|/r0 overflows, though H might not have */
        q = any_from(-300, -25);
        r = around(q, q);
        tau = any_sign(around(q + 1018, q + 1046));
        break;
    }
    thrown(words, mu, r, v, tau);
}

/* A vector whose sum of squares is the greatest double, or as near as its last component brings it. */
static void longest(double *a, double x, double y)
{
    double rest = DBL_MAX - (x * x + y * y);

    a[0] = x, a[1] = y, a[2] = sqrt(rest);
    while (isfinite(x * x + y * y + a[2] * a[2]))
        a[2] = nextafter(a[2], INFINITY);
    while (!isfinite(x * x + y * y + a[2] * a[2]))
        a[2] = nextafter(a[2], 0);
}

/*
**  Refusal 4 by sigma0 alone. No product of two lengths whose squares are finite overflows, but for
**  rounding: both sums of squares are the greatest double, rounded down, and sigma0 is rounded up.
*/
void sigma_alone(uint64_t *words)
{
    double p[3], v[3], sign;
    int i, tries;

    for (tries = 0; tries < 500; tries++) {
        double x = ldexp(between(0.3, 0.6), 512), y = ldexp(between(0.3, 0.6), 512);
        longest(p, x, y);
        for (i = any_from(0, 3); i > 0; i--)
            x = nextafter(x, INFINITY);
        for (i = any_from(0, 3); i > 0; i--)
            y = nextafter(y, 0);
        longest(v, x, y);
        if (!isfinite(p[0] * v[0] + p[1] * v[1] + p[2] * v[2]))
            break;
    }
    sign = any_sign(1.0);
    for (i = 0; i < 3; i++)
        v[i] *= sign;
    put(words, 0, p, v, 0);
    if (one_in(2))
        put_at(words, MU, around(-10, 500));
    if (one_in(2))
        put_at(words, TAU, any_sign(around(-10, 500)));
}
