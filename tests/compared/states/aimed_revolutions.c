/* Aims at whole revolutions, T-04: how many come off, what they leave, and what the whole anomaly makes of the partials. */
#include "aimed.h"

#include "compared/shared/drive.h"
#include "compared/shared/orbits.h"

#include <math.h>

/* P of an ellipse, in the rule's own order; NaN of another orbit. */
static double period(const uint64_t *words)
{
    double x = figure_at(words, X), y = figure_at(words, Y), z = figure_at(words, Z);
    double vx = figure_at(words, VX), vy = figure_at(words, VY), vz = figure_at(words, VZ);
    double pull = 2 * figure_at(words, MU) / sqrt(x * x + y * y + z * z);
    double slow = pull - (vx * vx + vy * vy + vz * vz);     /* -alpha */

    return 2 * 0x1.921fb54442d18p+1 * figure_at(words, MU) / (slow * sqrt(slow));
}

static void turn(uint64_t *words, double turns)
{
    put_at(words, TAU, turns * period(words));
}

/* A tau so many doubles from where it was. */
static void nudge(uint64_t *words, int doubles)
{
    double tau = figure_at(words, TAU), towards = doubles < 0 ? -INFINITY : INFINITY;

    for (; doubles != 0; doubles += doubles < 0 ? 1 : -1)
        tau = nextafter(tau, towards);
    put_at(words, TAU, tau);
}

/* None, one, some, or any number of turns up to 2^39; not all are whole. */
static double some_turns(void)
{
    switch (any_below(4)) {
    case 0:
        return any_sign(any_from(0, 1));
    case 1:
        return any_sign(any_from(1, 20));
    case 2:
        return any_sign(any_from(1, 100000));
    default:
        return any_sign(around(0, 38));
    }
}

void more_turns(uint64_t *words)
{
    double turned = figure_at(words, TAU) + some_turns() * period(words);

    if (isfinite(turned))
        put_at(words, TAU, turned);
}

void turns(uint64_t *words)
{
    double whole = some_turns(), part = between(-0.6, 0.6);

    ellipse(words);
    turn(words, whole + part);
}

/* "n is within +-2^40": both ends, and one beyond each; exact where a power of two of periods is. */
void most_turns(uint64_t *words)
{
    static const double parts[] = { 0, 0.25, 0.49, 0.5, 0.51, 1, -0.25, -0.5, -1, 1.5 };
    double part = parts[any_below(sizeof parts / sizeof parts[0])];

    ellipse(words);
    turn(words, any_sign(0x1p40 + part));
    if (one_in(3))
        nudge(words, any_from(-3, 3));
}

/* "The floor of the rounded sum tau/P+1/2", where that is whole, or a last place from it; below 1/2 the sum itself is rounded to 1. */
void halfway(uint64_t *words)
{
    double whole = one_in(3) ? 0.0 : one_in(2) ? any_from(1, 9) : any_from(1, 100000);

    ellipse(words);
    turn(words, any_sign(whole + 0.5));
    nudge(words, any_from(-2, 2));
}

/* Refusal 7: from rest, after half a turn more than whole ones, the end is at the centre, and r is but rounding. */
void falls(uint64_t *words)
{
    double mu = around(-20, 20), r = around(-20, 20);

    thrown(words, mu, r, 0, 0);
    turn(words, any_sign(any_from(0, 9) + 0.5));
    nudge(words, any_from(-1, 1));
}

/* Nothing is left, or next to nothing: n P is rounded, and tau is the same product or a neighbour of it. */
void whole_turns(uint64_t *words)
{
    double whole = one_in(2) ? any_from(1, 9) : one_in(2) ? any_from(1, 100000) : power(0, 40);

    ellipse(words);
    turn(words, any_sign(whole));
    if (one_in(3))
        nudge(words, any_from(-5, 5));
}

/* A satellite in a low orbit of the Earth, in kilometres and seconds, after months to years. */
void years(uint64_t *words)
{
    double mu = 398600.4418, p[3], v[3], r = between(6578, 8378), speed = sqrt(mu / r) * between(0.97, 1.03);
    double up = one_in(2) ? 0.0 : between(-0.03, 0.03);
    double tau = any_sign(31557600 * (one_in(3) ? any_from(1, 5) : between(0.02, 8)));
    int i;

    any_plane(p, v);
    for (i = 0; i < 3; i++) {
        v[i] = speed * (v[i] + up * p[i]);
        p[i] *= r;
    }
    put(words, mu, p, v, tau);
}

/* From the near end of a needle the first outward point is past, and place 0 is the short end. */
void needle(uint64_t *words)
{
    double mu = around(-20, 20), r = around(-20, 20), escape = 2 * mu / r;
    double whole = some_turns(), part = between(-0.5, 0.5);

    thrown(words, mu, r, sqrt(escape * (1 - power(-48, -12))), 0);
    turn(words, whole + part);
}

/* "Only when P is finite and above zero": zero, infinite and NaN, and the edges of these; or tau/P is infinite. */
void no_period(uint64_t *words)
{
    double r, slow, speed;     /* slow is -alpha */

    switch (any_below(4)) {
    case 0:     /* the divisor vanishes, or has hardly a digit */
        r = around(300, 510);
        slow = around(-722, -712);
        break;
    case 1:     /* the divisor overflows */
        r = around(-500, 200);
        slow = around(680, 685);
        break;
    case 2:     /* 2 pi mu overflows, and in half of the cases the divisor too */
        r = around(280, 400);
        slow = 0x1p1022 / r * around(-1, 1);
        break;
    default:
        r = around(-200, -100);
        slow = around(500, 600);
        break;
    }
    speed = one_in(2) ? 0.0 : sqrt(slow);
    thrown(words, (slow + speed * speed) * r / 2, r, speed, any_sign(r * around(300, 1000)));
}

/*
**  So wide and slow that the figures of the whole anomaly overflow, in the order s5, s4, s3 as alpha becomes smaller; U
**  alone where there are many turns and mu is above 1. Below 2^-683 the cube of psi overflows before psi is found.
*/
void wide_turns(uint64_t *words)
{
    double slow = around(-714, -330), r = around(300, 505), whole = some_turns(), part = between(-0.5, 0.5), speed;

    if (one_in(3)) {     /* U alone */
        slow = around(-345, -330);
        r = around(370, 500);
        whole = any_sign(around(37, 39));
    }
    speed = one_in(2) ? 0.0 : sqrt(slow) * around(-3, 3);
    thrown(words, (slow + speed * speed) * r / 2, r, speed, 0);
    turn(words, whole + part);
}

/* Refusal 8 by the results, or by the partials alone: a product or a cube of radii vanishes. */
void close_turns(uint64_t *words)
{
    double r = around(-400, -160), slow = around(-40, 40), whole = some_turns(), part = between(-0.5, 0.5), speed;

    if (one_in(4)) {     /* mu is subnormal, and 2 pi mu has few digits */
        slow = around(-714, -690);
        r = around(-1060, -1030) / slow;
    }
    speed = one_in(2) ? 0.0 : sqrt(slow) * around(-3, 3);
    thrown(words, (slow + speed * speed) * r / 2, r, speed, 0);
    turn(words, whole + part);
}
