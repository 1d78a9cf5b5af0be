/*
**  elements.h: the element file of the rows about files: 16 centres, 500 states of the fixed set of orbits, and so many requests of them.
*/
#ifndef ELEMENTS_H
#define ELEMENTS_H

#include <stddef.h>
#include <stdint.h>

/* How many bytes it has: KELUBASHI_MOST_FILE with 1,500 requests. */
size_t elements_fill(uint8_t *file, uint64_t requests);

#endif
