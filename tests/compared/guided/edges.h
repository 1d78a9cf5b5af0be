/*
**  Which ways the second program went for an input: its edges, each a step from one block of its code to the
**  next, and how often each was gone, in the counts 1, 2, 3, 4 to 7, 8 to 15, 16 to 31, 32 to 127, and more.
**
**  The compiler puts a call into every block of what is compiled with -fsanitize-coverage=trace-pc.
*/
#ifndef EDGES_H
#define EDGES_H

#include <stdint.h>

/* Before an input. */
void edges_begin(void);

/* After it: whether an edge, or a count of one, was never met before. */
int edges_new(void);

/* Steps that the input took: what it costs, in a measure that is the same in every run. */
uint64_t edges_steps(void);

/* Edges met so far, and edges with each of their counts. */
uint64_t edges_met(void);
uint64_t edges_counts(void);

#endif
