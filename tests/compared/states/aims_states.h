/*
**  Whether the aimed families hit what they are aimed at. The second program's own parts tell, so
**  this says nothing about the library: it keeps a comparison from passing for want of hard inputs.
*/
#ifndef AIMS_STATES_H
#define AIMS_STATES_H

#include <stdint.h>

/* Counts the aims that an input hits, given the refusals of both calls. */
void aims_see(const uint64_t *words, uint64_t propagated, uint64_t with_partials);

/* Prints all counts; answers how many aims were never hit. */
int aims_tell(void);

#endif
