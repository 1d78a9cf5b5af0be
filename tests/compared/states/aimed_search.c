/* Aims at the search, at refusals 5 to 8, and at what stands beside them. */
#include "aimed.h"

#include "compared/shared/drive.h"
#include "compared/shared/orbits.h"

#include <float.h>
#include <math.h>
#include <string.h>

static const double at_rest[3];

/* "While |L| > 1": alpha is a power of 4 and H one of 2, so that |L| is 1 or another power of 4 at every outward point. */
void length_one(uint64_t *words)
{
    int q = any_from(-20, 20), n = any_from(-20, 20);
    double r = ldexp(1.0, q), alpha = any_sign(ldexp(1.0, 2 * n));
    double speed = one_in(3) ? 0.0 : ldexp(1.0, any_from(n - 10, n + 10));
    double position[3] = { 0, 0, 0 }, velocity[3] = { 0, 0, 0 };

    position[any_below(3)] = any_sign(r);
    velocity[any_below(3)] = any_sign(speed);
    put(words, (speed * speed - alpha) * r / 2, position, velocity, any_sign(ldexp(r, any_from(0, 3) - n)));
}

/*
**  Refusal 5. With psi below 2^-358 the cube of psi vanishes and takes the term in mu along; with L
**  below -2^40 at the last point c1 is small enough for r0 s1 to stay short there too.
*/
void all_short(uint64_t *words)
{
    int h = any_from(-522, -392), q = any_from(-100, 1);
    double alpha = around(-2 * h - 40, -2 * h - 30 > 1020 ? 1020 : -2 * h - 30);
    double speed = one_in(2) ? 0.0 : sqrt(alpha) * between(0, 0.5);
    double tau = any_sign(around(h + 20 + q, h + 20 + q));

    thrown(words, alpha / 2 * ldexp(1.0, q), ldexp(1.0, q), speed, tau);
}

/* Refusal 6 from the first point on, or after some: psi psi or its product with alpha overflows. */
void far_out(uint64_t *words)
{
    double r = around(-100, 100), speed = one_in(3) ? 0.0 : around(-200, 500);
    double mu = one_in(3) ? 0.0 : any_sign(around(-200, 500));
    double tau = any_sign(around(300, 560));

    thrown(words, mu, r, speed, r * tau);
}

/* An infinite R of either sign, short or past: c0 and c1 overflow, or c0 alone, or the cube of psi does. */
void infinite_error(uint64_t *words)
{
    double r = around(-3, 3), speed = around(-3, 300), mu = around(-300, 3), tau;

    switch (any_below(3)) {
    case 0:
        long_hyperbola(words);
        return;
    case 1:     /* c0 overflows where the root of L is 711, and c1 where it is 717 */
        tau = any_sign(r / speed * ldexp(between(704, 720), 20));
        break;
    default:
        tau = any_sign(r / speed * around(20, 60));
        break;
    }
    thrown(words, one_in(4) ? -mu : mu, r, speed, tau);
}

/*
**  An infinite r is not refused by 7, and may be answered: the end is as far as doubles reach in
**  each component, and farther by its length. r0 must be large, or L overflows where the search begins.
*/
void infinite_radius(uint64_t *words)
{
    double p[3], v[3], r = around(493, 510), speed = around(0, 400), mu = around(-300, 300), sign = any_sign(1.0);
    int i;

    for (i = 0; i < 3; i++) {
        p[i] = r * between(0.1, 0.7);
        v[i] = sign * speed * between(0.9, 1.1);
    }
    put(words, mu, p, v, sign * (DBL_MAX / speed) * between(0.5, 0.95));
}

/* A subnormal H, and one that vanishes: |tau|/r0 is below 2^-1002. */
void small_interval(uint64_t *words)
{
    int q = any_from(-60, 60);
    double r = around(q, q), mu = one_in(3) ? 0.0 : any_sign(around(-60, 60));
    double speed = one_in(3) ? 0.0 : around(-60, 60);
    double tau = any_sign(around(q - 1060 < -1074 ? -1074 : q - 1060, q - 1000));

    thrown(words, mu, r, speed, tau);
}

/* The short end is place 0: the first place above it is past, since r0 times it is above tau, most often by far. */
void place_zero(uint64_t *words)
{
    int q = any_from(1, 330);
    double r = around(q, q), mu = one_in(3) ? 0.0 : any_sign(around(-60, 60));
    double speed = one_in(3) ? 0.0 : around(-60, 60);
    double tau = any_sign(around(-1074, q - 1074));

    thrown(words, mu, r, speed, tau);
}

/* mu = 0 and at rest on an axis: R is r0 psi - tau, exact at k = 20 where r0 is a power of two. */
void exact(uint64_t *words)
{
    int q = any_from(-200, 200), axis = any_from(0, 2);
    double p[3] = { 0, 0, 0 }, mu = any_sign(0.0);

    p[axis] = any_sign(ldexp(one_in(2) ? 1 : any_from(1, 9), q));
    q += any_from(-60, 60);
    put(words, mu, p, at_rest, any_sign(ldexp(any_from(1, 99), q)));
}

/*
**  Both ends of a pair where all is a small whole number of least doubles: R is r0 n - t there, whatever mu and v are.
**  Every choice is met, with place 0 as the short end where t is below r0.
*/
void least_units(uint64_t *words)
{
    int r = any_from(2, 9), t = any_from(1, one_in(4) ? 99 : r - 1), axis = any_from(0, 2);
    double p[3] = { 0, 0, 0 }, v[3], mu = one_in(3) ? 0.0 : any_sign(around(-60, 60));
    double speed = one_in(3) ? 0.0 : around(-60, 60);
    int i;

    p[axis] = any_sign(r);
    any_direction(v);
    for (i = 0; i < 3; i++)
        v[i] *= speed;
    put(words, mu, p, v, any_sign(ldexp(t, -1074)));
}

/*
**  Ties at plain scale. At rest on an axis r0 psi goes by one or two last places of such a tau; where it goes by two,
**  the tau between has R of one place on either side.
*/
void even_ends(uint64_t *words)
{
    int q = any_from(-200, 200), axis = any_from(0, 2);
    double p[3] = { 0, 0, 0 }, mu = any_sign(0.0), r = ldexp(between(1.25, 1.75), q), tau;

    p[axis] = any_sign(r);
    q += any_from(-60, 60);
    tau = ldexp(between(1.75, 2), q);
    put(words, mu, p, at_rest, any_sign(tau));
}

/* A finite R, short, beside an infinite one, past: the cube of psi overflows before r0 psi comes up to tau. */
void infinite_past(uint64_t *words)
{
    double r = around(-20, 20), mu = r * around(-1000, -700), tau = any_sign(r * around(342, 360));

    thrown(words, mu, r, one_in(2) ? 0.0 : around(-700, -400), tau);
}

/*
**  One that was found by a search over many, with no pull: position, velocity, tau. A power of two on position and
**  velocity leaves R as it is, one on the speed alone takes R along with tau, and signs change nothing.
*/
static void put_found(uint64_t *words, const double *one, double length, double speed)
{
    double back = any_sign(1.0), p[3], v[3], mu = any_sign(0.0);
    int i;

    for (i = 0; i < 3; i++) {
        double side = any_sign(length);
        p[i] = side * one[i];
        v[i] = back * side * speed * one[3 + i];
    }
    put(words, mu, p, v, back / speed * one[6]);
}

/*
**  An infinite R, short, beside a past end whose R is infinite too, or finite. Straight at the centre with no pull,
**  r0 s1 and sigma0 s2 cancel but for rounding; so where they overflow, it is a matter of chance which of them is infinite, and
**  R is another from place to place.
*/
void infinite_short(uint64_t *words)
{
    static const double found[][7] = {
        /* both infinite: the short end is answered, and the past end would be 7 */
        { 0x1.037bb20f1afbbp+491, 0x1.d64693a2888fcp+482, 0x1.d0872067c9e0ap+485,
          -0x1.0622d704b7ff6p-241, -0x1.db156d710d8b5p-250, -0x1.d546eefdc2992p-247, 0x1.9217fa2addf2dp+758 },
        { 0x1.026a1d03d4cc2p+483, 0x1.c258f99cfe5d1p+473, 0x1.782261b16fdfap+473,
          -0x1.053149bf8894p-236, -0x1.c7305ce98fe93p-246, -0x1.7c2d8789c6b1ep-246, 0x1.a3b724ce432b2p+745 },
        /* the past one finite: it is 7, and the short end would be answered */
        { 0x1.031fb37a86f8ap+448, 0x1.a38b2ba94bc8fp+443, 0x1.c4a12a1099b74p+437,
          -0x1.06ac0794c6383p-219, -0x1.a949d503366ddp-224, -0x1.cad3cdff114aap-230, 0x1.e99dc690d411ap+693 },
        { 0x1.01eb8f33b31fap+444, 0x1.691b4cd1d46a1p+436, 0x1.dd2a27be9aa2cp+435,
          -0x1.064fbe5cc6fb5p-217, -0x1.6f413d00f8be5p-225, -0x1.e549f335c5568p-226, 0x1.f032595753393p+688 },
    };
    const double *one = found[any_below(sizeof found / sizeof found[0])];
    double scale = power(-3, 15);

    put_found(words, one, scale, 1);
}

/*
**  Refusal 7 by an r that is a NaN. Straight at the centre with no pull, r0 c0 and sigma0 s1 are infinite with two signs
**  where R is finite by the speed; R is rounding alone there, and so it is a matter of chance where the search ends. The
**  first was met in a comparison of millions. It goes in from place 0, and has other halving places at another scale, so
**  it stays as it is.
*/
void nan_radius(uint64_t *words)
{
    static const double found[][7] = {
        { 0x1.204a92c57f38ap+471, 0, 0, -0x1.5f6655950ef78p+396, 0, 0, 0x1.dd88e233d9e1ap+103 },
        /* the short end */
        { 0x1.24e4e270ec2eap+500, 0, 0, -0x1.cacef36a8db16p+300, 0, 0, 0x1.6c65c8d1866b5p+227 },
        { 0x1.52f8f823366bep+500, 0x1.19e51da80aa91p+499, -0x1.159c12f1b9338p+499,
          -0x1.5640c70da45c9p+300, -0x1.1c9f838a8b561p+299, 0x1.184bdae540dbfp+299, 0x1.18ec75fb284dfp+228 },
        /* the short end, where r0 s1 and sigma0 s2 are alike: R is minus tau */
        { 0x1.b75fdf0a4e133p+500, 0, 0, -0x1.bd59c9184acaap+300, 0, 0, 0x1.18318584a19d3p+228 },
        { 0x1.479cd573a32e3p+499, -0x1.839c6d3a97b64p+499, 0x1.beb705ae0294cp+499,
          -0x1.d93f2d80825f3p+299, 0x1.17f54c18053a1p+300, -0x1.42a59bd062bb5p+300, 0x1.8b441901cfcbcp+227 },
        /* the past end */
        { 0x1.c34a1698bae4ep+500, 0, 0, -0x1.d53fe00495db2p+300, 0, 0, 0x1.11f1b3f07a79p+228 },
        { 0x1.7ff9b7e7851adp+498, -0x1.d5df6680ea594p+499, -0x1.a5c2ac6d01cbep+500,
          -0x1.676b6af115769p+298, 0x1.b7d2d2ce9c787p+299, 0x1.8ac9c5829219cp+300, 0x1.30ee0e986cc8dp+228 },
    };
    size_t which = any_below(sizeof found / sizeof found[0]);
    double one[7], length = power(-100, 10), speed = power(0, 80);

    memcpy(one, found[which], sizeof one);
    if (one_in(4))     /* another tau, and so another chance */
        one[6] *= between(0.95, 1.05);
    put_found(words, one, which == 0 ? 1 : length, which == 0 ? 1 : speed);
}

/* Refusal 7: straight at the centre with no pull, or with a little, until r is but rounding. */
void to_centre(uint64_t *words)
{
    double p[3], v[3], r = around(-20, 20), speed = around(-20, 20), mu = any_sign(0.0);
    double sign = any_sign(1.0), late;
    int i;

    if (one_in(3))
        mu = any_sign(speed * speed * r * power(-60, -10));
    any_direction(p);
    for (i = 0; i < 3; i++) {
        v[i] = -sign * speed * p[i];
        p[i] *= r;
    }
    late = one_in(2) ? 1 + any_sign(around(-53, -10)) : between(0.9, 3);
    put(words, mu, p, v, sign * late * (r / speed));
}

/* Refusal 8 by the results: a product or a cube of radii vanishes, or a figure overflows. */
void no_figures(uint64_t *words)
{
    double r = around(-530, -300), mu = 0, speed = 0, tau = any_sign(r * around(-10, 10));

    switch (any_below(3)) {
    case 0:
        break;
    case 1:     /* mu over r squared */
        mu = any_sign(r * around(1010, 1023) * r * power(0, 3));
        speed = one_in(2) ? 0.0 : around(-20, 20);
        break;
    default:     /* g times v */
        r = around(-10, 10);
        speed = around(480, 511);
        tau = any_sign(around(480, 560));
        break;
    }
    thrown(words, mu, r, speed, tau);
}

/* Refusal 8 by the acceleration at the start alone: away from so near that mu over r0 squared overflows. */
void start_alone(uint64_t *words)
{
    int q = any_from(-350, -300);
    double r = around(q, q), mu = around(1024 + 2 * q - 1, 1024 + 2 * q + 2), escape = sqrt(2 * mu / r);
    double speed = escape * around(0, 4), tau = any_sign(r / speed * around(1, 30));

    thrown(words, one_in(3) ? -mu : mu, r, speed, tau);
}

/* Refusal 8 by the partials alone: the product of both cubes vanishes, mu mu or U overflows. */
void partials_alone(uint64_t *words)
{
    double r, mu, speed, tau;

    switch (any_below(3)) {
    case 0:
        r = around(-330, -170);
        mu = one_in(2) ? 0.0 : any_sign(r * r * around(-20, 20));
        speed = one_in(2) ? 0.0 : sqrt(fabs(mu) / r) * around(-2, 2);
        tau = speed == 0 ? r : r / speed;
        break;
    case 1:
        mu = any_sign(around(500, 600));
        r = around(100, 300);
        speed = sqrt(fabs(mu) / r) * around(-2, 2);
        tau = r / speed;
        break;
    default:
        mu = one_in(2) ? 0.0 : around(-10, 10);
        r = around(-10, 10);
        speed = 0;
        tau = around(200, 360);
        break;
    }
    tau *= around(-4, 4);
    thrown(words, mu, r, speed, any_sign(tau));
}
