/*
**  Plain orbits of every kind, as the eight words of a call: mu, x y z, vx vy vz, tau.
**
**  Only sums, products, quotients and roots make them, and powers of two: all exactly rounded, so an
**  input of a seed and a number is the same on every machine. For the same reason no expression
**  draws twice, since C does not say which of its parts comes first.
*/
#ifndef ORBITS_H
#define ORBITS_H

#include <stdint.h>

enum { MU, X, Y, Z, VX, VY, VZ, TAU, EIGHT };

double between(double low, double high);
double any_sign(double size);
double power(int low, int high);     /* of two, either end included */
double around(int low, int high);     /* a power of two times something from 1 to 2 */
void any_direction(double unit[3]);
void any_plane(double p[3], double q[3]);     /* two directions at right angles */

/* The words of eight doubles. */
void put(uint64_t *words, double mu, const double *position, const double *velocity, double tau);
double figure_at(const uint64_t *words, int place);
void put_at(uint64_t *words, int place, double figure);

/* Position at a distance, velocity of a size; how far they are from one line is for chance. */
void thrown(uint64_t *words, double mu, double distance, double speed, double tau);

void ellipse(uint64_t *words);
void long_ellipse(uint64_t *words);
void near_parabola(uint64_t *words);
void parabola(uint64_t *words);
void hyperbola(uint64_t *words);
void long_hyperbola(uint64_t *words);
void radial(uint64_t *words);
void no_pull(uint64_t *words);
void push(uint64_t *words);

/* Any of those above. */
void plain(uint64_t *words);

#endif
