#include "orbits.h"

#include "drive.h"
#include "kelubashi.h"

#include <math.h>

/* A system: the pull of its centre, and a distance that is usual there. */
struct system {
    double mu, unit;
};

double between(double low, double high)
{
    return low + (high - low) * ldexp((double)(any_word() >> 11), -53);
}

double any_sign(double size)
{
    return one_in(2) ? size : -size;
}

double power(int low, int high)
{
    return ldexp(1.0, any_from(low, high));
}

double around(int low, int high)
{
    double digits = between(1, 2);

    return ldexp(digits, any_from(low, high));
}

void put_at(uint64_t *words, int place, double figure)
{
    words[place] = kelubashi_word(figure);
}

double figure_at(const uint64_t *words, int place)
{
    return kelubashi_figure(words[place]);
}

void put(uint64_t *words, double mu, const double *position, const double *velocity, double tau)
{
    int i;

    put_at(words, MU, mu);
    for (i = 0; i < 3; i++) {
        put_at(words, X + i, position[i]);
        put_at(words, VX + i, velocity[i]);
    }
    put_at(words, TAU, tau);
}

/* Earth, Sun and Moon in kilometres and seconds, the unit orbit, or any other. */
static struct system any_system(void)
{
    static const struct system known[] = {
        { 398600.4418, 6378.137 }, { 132712440018.0, 149597870.7 }, { 4902.800066, 1737.4 }, { 1, 1 },
    };
    uint64_t which = any_below(5);
    struct system other;

    if (which < 4)
        return known[which];
    other.mu = around(-30, 30);
    other.unit = around(-30, 30);
    return other;
}

/* The axes with zeros of both signs, or columns of a turn by a quaternion. */
void any_plane(double p[3], double q[3])
{
    double a = between(-1, 1), b = between(-1, 1), c = between(-1, 1), d = between(0.1, 1);
    double n = a * a + b * b + c * c + d * d;
    int i;

    p[0] = (d * d + a * a - b * b - c * c) / n, p[1] = 2 * (a * b + c * d) / n, p[2] = 2 * (a * c - b * d) / n;
    q[0] = 2 * (a * b - c * d) / n, q[1] = (d * d - a * a + b * b - c * c) / n, q[2] = 2 * (b * c + a * d) / n;
    if (!one_in(6))
        return;
    for (i = 0; i < 3; i++)
        p[i] = q[i] = any_sign(0.0);
    i = any_from(0, 2);
    p[i] = any_sign(1.0);
    q[(i + 1) % 3] = any_sign(1.0);
}

void any_direction(double unit[3])
{
    double other[3];

    any_plane(unit, other);
}

/* An interval of many sizes beside the orbit's own time. */
static double any_interval(double time)
{
    switch (any_below(4)) {
    case 0:
        return any_sign(time * around(-40, -2));
    case 1:
        return any_sign(time * around(3, 12));
    default:
        return any_sign(time * between(0, 7));
    }
}

/* A state in its plane, lifted into space. */
static void lift(uint64_t *words, double mu, double x, double y, double vx, double vy, double tau)
{
    double p[3], q[3], position[3], velocity[3];
    int i;

    any_plane(p, q);
    for (i = 0; i < 3; i++) {
        position[i] = p[i] * x + q[i] * y;
        velocity[i] = p[i] * vx + q[i] * vy;
    }
    put(words, mu, position, velocity, tau);
}

/* From a circle to a needle. */
static double below_one(void)
{
    switch (any_below(4)) {
    case 0:
        return 0.0;
    case 1:
        return between(0, 0.1);
    case 2:
        return 1 - power(-30, -1);
    default:
        return between(0, 1);
    }
}

/* By semi-major axis a, eccentricity e, and the tangent t of half the eccentric anomaly. */
static void on_ellipse(uint64_t *words, double tau_scale)
{
    struct system s = any_system();
    double a = s.unit * between(1, 60), e = below_one(), t = any_sign(around(-6, 3));
    double cosine = (1 - t * t) / (1 + t * t), sine = 2 * t / (1 + t * t);
    double width = sqrt((1 - e) * (1 + e)), r = a * (1 - e * cosine), v = sqrt(s.mu * a) / r;
    double time = a * sqrt(a / s.mu);

    lift(words, s.mu, a * (cosine - e), a * width * sine, -v * sine, v * width * cosine,
         any_interval(time * tau_scale));
}

void ellipse(uint64_t *words)
{
    on_ellipse(words, 1);
}

/* So many turns that the series has no digit left. */
void long_ellipse(uint64_t *words)
{
    on_ellipse(words, power(8, 60));
}

/* As an ellipse, with hyperbolic sines and cosines. */
static void on_hyperbola(uint64_t *words, double tau_scale)
{
    struct system s = any_system();
    double a = s.unit * between(0.1, 60), e = 1 + around(-20, 4), t = between(-0.95, 0.95);
    double cosine = (1 + t * t) / (1 - t * t), sine = 2 * t / (1 - t * t);
    double width = sqrt((e - 1) * (e + 1)), r = a * (e * cosine - 1), v = sqrt(s.mu * a) / r;
    double time = a * sqrt(a / s.mu);

    lift(words, s.mu, a * (e - cosine), a * width * sine, -v * sine, v * width * cosine,
         any_interval(time * tau_scale));
}

void hyperbola(uint64_t *words)
{
    on_hyperbola(words, 1);
}

/* So long that c0 and c1 overflow where the search begins. */
void long_hyperbola(uint64_t *words)
{
    on_hyperbola(words, power(20, 80));
}

void thrown(uint64_t *words, double mu, double distance, double speed, double tau)
{
    double position[3], velocity[3];
    int i;

    any_direction(position);
    any_direction(velocity);
    for (i = 0; i < 3; i++) {
        position[i] *= distance;
        velocity[i] *= speed;
    }
    put(words, mu, position, velocity, tau);
}

/* At the speed of escape but for a little, or for nothing but rounding. */
void near_parabola(uint64_t *words)
{
    struct system s = any_system();
    double r = s.unit * between(1, 60), factor = 1 + any_sign(around(-54, -6));

    thrown(words, s.mu, r, factor * sqrt(2 * s.mu / r), any_interval(r * sqrt(r / s.mu)));
}

/* alpha is zero exactly: at a distance of 5 k, mu is 125 k j j / 2 where the speed is 5 j. */
void parabola(uint64_t *words)
{
    double k = power(-40, 40), j = power(-20, 20), p[3] = { 0, 0, 0 }, v[3] = { 0, 0, 0 };
    int along = any_from(0, 2), across = any_from(0, 2);

    p[along] = any_sign(3 * k), p[(along + 1) % 3] = any_sign(4 * k);
    v[across] = any_sign(4 * j), v[(across + 1) % 3] = any_sign(3 * j);
    put(words, 62.5 * k * j * j, p, v, any_interval(k / j * power(-2, 2)));
}

/* On one line with the centre, from it or to it, through it too. */
void radial(uint64_t *words)
{
    struct system s = any_system();
    double r = s.unit * between(1, 60), escape = sqrt(2 * s.mu / r);
    double speed = escape * (one_in(4) ? 0.0 : one_in(3) ? 1.0 : between(0, 2));
    double position[3], velocity[3];
    int i;

    any_direction(position);
    for (i = 0; i < 3; i++) {
        velocity[i] = position[i] * speed;
        position[i] *= r;
    }
    if (one_in(2))
        for (i = 0; i < 3; i++)
            velocity[i] = -velocity[i];
    put(words, s.mu, position, velocity, any_interval(r / escape));
}

/* mu is a zero of either sign: a straight line. */
void no_pull(uint64_t *words)
{
    double zero = any_sign(0.0), r = around(-20, 20), speed = one_in(4) ? 0.0 : around(-20, 20);

    thrown(words, zero, r, speed, any_interval(speed == 0 ? around(-20, 20) : r / speed));
}

/* mu below zero: a centre that pushes. */
void push(uint64_t *words)
{
    struct system s = any_system();
    double r = s.unit * between(1, 60), escape = sqrt(2 * s.mu / r);
    double speed = one_in(5) ? 0.0 : escape * between(0, 3);

    thrown(words, -s.mu, r, speed, any_interval(r / escape));
}

void plain(uint64_t *words)
{
    static void (*const kinds[])(uint64_t *) = {
        ellipse, near_parabola, parabola, hyperbola, radial, no_pull, push,
    };

    kinds[any_below(sizeof kinds / sizeof kinds[0])](words);
}
