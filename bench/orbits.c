/*
**  The fixed set: eight states around the Earth, each over eight intervals.
*/
#include "orbits.h"

#include <string.h>

#define MU 398600.4418     /* km^3/s^2 */

/* Kilometres, and kilometres per second. */
static const double states[8][6] = {
    { 6778.137, 0, 0, 0, 4.7634, 6.0170 },                      /* low, nearly a circle, inclined */
    { -3420.5, 5318.25, -2940.75, -5.2615, -0.8125, 5.4375 },   /* low, anywhere on its way */
    { 42164.17, 0, 0, 0, 3.0746662, 0.0125 },                   /* geosynchronous */
    { 6578.137, 0, 0, 0, 9.02, 4.8 },                           /* transfer, from its low end */
    { 0, -3085.5, 6178.5, 9.9915, 0, 0 },                       /* Molniya, from its low end */
    { 7000.0, 0, 0, 0, 10.67167, 0.0002 },                      /* nearly a parabola */
    { 6678.137, -1200.5, 300.25, 2.5, 10.75, 3.25 },            /* hyperbola, leaving */
    { -65000.0, 20500.0, 8100.0, 4.25, -1.0, -0.375 },          /* hyperbola, arriving */
};

/* Seconds, to three days, both ways. */
static const double intervals[8] = { 10, -60, 600, -3000, 5400, -43082, 86400, -259200 };

uint64_t orbits[ORBITS][8];

void orbits_fill(void)
{
    const double mu = MU;
    size_t i;

    for (i = 0; i < ORBITS; i++) {
        memcpy(orbits[i], &mu, sizeof mu);
        memcpy(orbits[i] + 1, states[i / 8], sizeof states[0]);
        memcpy(orbits[i] + 7, intervals + i % 8, sizeof intervals[0]);
    }
}
