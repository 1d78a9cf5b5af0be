/*
**  orbits.h: the fixed set of plain orbits, eight words each: mu, position, velocity, interval.
*/
#ifndef ORBITS_H
#define ORBITS_H

#include <stddef.h>
#include <stdint.h>

#define ORBITS 64

extern uint64_t orbits[ORBITS][8];

void orbits_fill(void);

/* The arguments of a call for one orbit. */
#define ORBIT(i) orbits[i][0], orbits[i][1], orbits[i][2], orbits[i][3], \
                 orbits[i][4], orbits[i][5], orbits[i][6], orbits[i][7]

#endif
