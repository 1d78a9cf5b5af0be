/* Random orbits against mechanics, and any bits against the rules. */
#include "selftest.h"

#include "second/parts.h"
#include "second/second.h"

#include <math.h>
#include <stdio.h>
#include <string.h>

/* The time error, with its sign turned where the interval is below zero; at
 * place 0 it is minus the interval. */
double beyond(const struct start *s, uint64_t psi)
{
    double value = sec_double(psi), error;

    if (sec_zero(value))
        return -fabs(s->searched);
    if (!sec_finite(value) || !sec_finite(sec_length(s, value)))
        return sec_double(NAN_WORD);
    error = sec_figures(s, value).error;
    return sec_negative(s->searched) ? -error : error;
}

/* The found place is exact; or short, and its upper neighbour is past and no
 * nearer; or past, and its lower neighbour is short and farther.  With nothing
 * to search it is +0, and no point is spent. */
static void check_found(const double e[8], const uint64_t a[15])
{
    struct start s;
    double error, other;

    check(sec_start(e, &s) == 0, "start refused");
    if (sec_zero(s.searched)) {
        check(a[1] == 0 && a[14] == 0, "found with nothing to search");
        return;
    }
    check(a[1] >= 1 && a[1] <= 167, "points out of bounds");
    error = beyond(&s, a[14]);
    if (error < 0) {
        other = beyond(&s, a[14] + 1);
        check(other > 0, "upper neighbour is not past");
        check(other >= -error, "past neighbour is nearer");
    } else if (error > 0) {
        other = beyond(&s, a[14] - 1);
        check(other < 0, "lower neighbour is not short");
        check(-other > error, "short neighbour is as near");
    } else
        check(error == 0, "error is not a number");
}

static double length3(const double v[3])
{
    return sqrt(v[0] * v[0] + v[1] * v[1] + v[2] * v[2]);
}

static void cross(const double a[3], const double b[3], double c[3])
{
    c[0] = a[1] * b[2] - a[2] * b[1];
    c[1] = a[2] * b[0] - a[0] * b[2];
    c[2] = a[0] * b[1] - a[1] * b[0];
}

static void direction(double v[3], double size)
{
    double n;
    int i;

    do {
        for (i = 0; i < 3; i++)
            v[i] = between(-1, 1);
        n = length3(v);
    } while (n < 0.1 || n > 1);
    for (i = 0; i < 3; i++)
        v[i] *= size / n;
}

/* A random start: kind 0 ellipse, 1 hyperbola, 2 repelling, 3 no pull. */
void orbit(double e[8], int kind, double mu, double r)
{
    double escape = sqrt(2 * mu / r), pos[3], vel[3], h[3];
    double speed = kind == 0 ? between(0.5, 0.92) * escape
                             : between(1.1, 2.0) * escape;
    double span = r / speed;

    do {
        direction(pos, r);
        direction(vel, speed);
        cross(pos, vel, h);
    } while (length3(h) < 0.35 * r * speed);
    e[0] = kind == 2 ? -mu : kind == 3 ? 0.0 : mu;
    memcpy(e + 1, pos, sizeof pos);
    memcpy(e + 4, vel, sizeof vel);
    e[7] = between(-6, 6) * span;
}

static void check_conserved(const double e[8], const uint64_t a[15])
{
    double p[3], w[3], h0[3], h1[3], d[3], energy0, energy1, scale, r, cube;
    int i;

    for (i = 0; i < 3; i++) {
        p[i] = sec_double(a[2 + i]);
        w[i] = sec_double(a[5 + i]);
    }
    cross(e + 1, e + 4, h0);
    cross(p, w, h1);
    r = length3(p);
    energy0 = pow(length3(e + 4), 2) / 2 - e[0] / length3(e + 1);
    energy1 = pow(length3(w), 2) / 2 - e[0] / r;
    scale = pow(length3(e + 4), 2) / 2 + fabs(e[0]) / length3(e + 1);
    check(fabs(energy1 - energy0) < 1e-9 * scale, "energy");
    for (i = 0; i < 3; i++)
        d[i] = h1[i] - h0[i];
    check(length3(d) < 1e-9 * length3(h0), "angular momentum");
    cube = r * r * r;
    for (i = 0; i < 3; i++) {
        d[i] = sec_double(a[8 + i]) + e[0] * p[i] / cube;
    }
    check(length3(d) <= 1e-9 * fabs(e[0]) / (r * r) + 1e-300, "end pull");
}

static void check_return(const double e[8], const uint64_t a[15])
{
    double back[8], d[3], v[3];
    uint64_t b[15];
    int i;

    back[0] = e[0];
    for (i = 0; i < 6; i++)
        back[1 + i] = sec_double(a[2 + i]);
    back[7] = -e[7];
    check(propagate(back, b) == 0, "way back refused");
    for (i = 0; i < 3; i++) {
        d[i] = sec_double(b[2 + i]) - e[1 + i];
        v[i] = sec_double(b[5 + i]) - e[4 + i];
    }
    check(length3(d) < 1e-8 * length3(e + 1), "position does not return");
    check(length3(v) < 1e-8 * length3(e + 4), "velocity does not return");
}

static void test_physics(void)
{
    double e[8];
    uint64_t a[15], most = 0;
    int kind, i;

    for (kind = 0; kind < 4; kind++)
        for (i = 0; i < 5000; i++) {
            orbit(e, kind, i % 2 ? 398600.4418 : 1.0,
                  i % 2 ? between(6600, 45000) : between(0.5, 2));
            check(propagate(e, a) == 0, "orbit refused");
            check_found(e, a);
            check_conserved(e, a);
            check_return(e, a);
            if (a[1] > most)
                most = a[1];
        }
    group("random orbits, forward and back");
    printf("  most points on these: %lu\n", (unsigned long)most);
}

/* A circle of unit radius turns by tau; psi is that of the last turn begun or
 * the next, whichever is nearer. */
static void test_circle(void)
{
    double e[8] = {1, 1, 0, 0, 0, 1, 0, 0}, t;
    uint64_t a[15];

    for (t = -12; t < 12; t += 0.1) {
        e[7] = t;
        check(propagate(e, a) == 0, "circle refused");
        check(fabs(sec_double(a[2]) - cos(t)) < 1e-11, "circle x");
        check(fabs(sec_double(a[3]) - sin(t)) < 1e-11, "circle y");
        check(fabs(sec_double(a[5]) + sin(t)) < 1e-11, "circle vx");
        check(fabs(sec_double(a[6]) - cos(t)) < 1e-11, "circle vy");
        check(fabs(sec_double(a[14]) - remainder(t, 2 * acos(-1))) < 1e-11,
              "circle psi");
    }
    group("unit circle");
}

/* ---- partials against differences ---- */

static void shifted(const double e[8], int column, double step, double out[6])
{
    double moved[8];
    uint64_t a[15];
    int i;

    memcpy(moved, e, sizeof moved);
    moved[1 + column] += step;
    check(propagate(moved, a) == 0, "shifted orbit refused");
    for (i = 0; i < 6; i++)
        out[i] = sec_double(a[2 + i]);
}

static void check_column(const double e[8], const uint64_t run[36], int column,
                         double step, double largest, double *worst)
{
    double more[6], less[6], more2[6], less2[6];
    int row;

    shifted(e, column, step, more);
    shifted(e, column, -step, less);
    shifted(e, column, 2 * step, more2);
    shifted(e, column, -2 * step, less2);
    for (row = 0; row < 6; row++) {
        double slope = (8 * (more[row] - less[row])
                        - (more2[row] - less2[row])) / (12 * step);
        double gap = fabs(slope - sec_double(run[6 * row + column])) / largest;

        check(gap < 1e-5, "partial against difference");
        if (gap > *worst)
            *worst = gap;
    }
}

static void check_columns(const double e[8], double step, double *worst)
{
    double largest = 0;
    uint64_t a[15], run[36];
    int j;

    check(partials(e, a, run, 36) == 0, "partials refused");
    for (j = 0; j < 36; j++)
        if (fabs(sec_double(run[j])) > largest)
            largest = fabs(sec_double(run[j]));
    for (j = 0; j < 6; j++)
        check_column(e, run, j, step, largest, worst);
}

static void test_partials(void)
{
    double e[8], worst = 0;
    int kind, i;

    for (kind = 0; kind < 4; kind++)
        for (i = 0; i < 400; i++) {
            orbit(e, kind, 1.0, between(0.8, 1.5));
            e[7] /= 3;
            check_columns(e, 2e-4, &worst);
        }
    group("partials against differences");
    printf("  largest relative gap: %.2e\n", worst);
}

/* The same after whole turns: what a shift does grows with them, and the step
 * becomes smaller. */
static void test_partials_turned(void)
{
    static const double turns[6] = {1, 2, 3, 10, 100, 1000};
    double e[8], worst = 0;
    int i;

    for (i = 0; i < 1200; i++) {
        double n = turns[i % 6];

        orbit(e, 0, 1.0, between(0.8, 1.5));
        e[7] += (i % 4 < 2 ? n : -n) * turn_time(e);
        check_columns(e, 2e-5 / (1 + n), &worst);
    }
    group("partials against differences, after turns");
    printf("  largest relative gap: %.2e\n", worst);
}

/* Any finite bits: bounds, zeros in refusals, the nearer end when found. */
static void test_any_bits(void)
{
    uint64_t a[15], b[15], run[36], seen[9] = {0};
    long i;
    int j;

    for (i = 0; i < 60000; i++) {
        double e[8];
        int wide = (int)(chance() % 3);

        for (j = 0; j < 8; j++) {
            int power = (int)(chance() % 2000) - 1000;

            e[j] = ldexp(between(-1, 1), wide == 0 ? power : power
                         / (wide == 1 ? 8 : 60));
            if (chance() % 12 == 0)
                e[j] = sec_double(MINUS_ZERO & chance());
        }
        fill(run, 36);
        propagate(e, a);
        partials(e, b, run, 36);
        check(a[0] <= 8 && a[1] <= 167, "any bits: bounds");
        if (a[0] <= 8)
            seen[a[0]]++;
        for (j = 2; j < 15; j++)
            check(a[0] ? a[j] == 0 : sec_finite(sec_double(a[j])),
                  "any bits: figures");
        check(b[0] == 0 ? memcmp(a, b, sizeof a) == 0 : kept(run, 36),
              "any bits: partials");
        check(b[0] == a[0] || (a[0] == 0 && b[0] == 8 && b[1] == a[1]),
              "any bits: same refusal");
        if (a[0] == 0)
            check_found(e, a);
    }
    group("any bits");
    printf("  refusals 0 and 3 to 8 seen:");
    for (j = 0; j <= 8; j++)
        if (j == 0 || j >= 3)
            printf(" %lu", (unsigned long)seen[j]);
    printf("\n");
}

void selftest_orbits(void)
{
    test_physics();
    test_circle();
    test_partials();
    test_partials_turned();
    test_any_bits();
}
