/*
**  Anomalies found by other searches than document 01's, over the same trial function: what a station with other
**  proposals would send. Built on the second program's trial points and its choice of T-01 alone.
*/
#ifndef OTHER_SEARCH_H
#define OTHER_SEARCH_H

#include "second/parts.h"

/*
**  Each puts the anomaly's word and answers 1, or answers 0 where a point on the way is unreadable or none is past. The searched
**  interval must not be a zero.
*/
int by_halving(const struct start *start, uint64_t *psi);     /* from document 01's outward pair, without proposals */
int by_chance(const struct start *start, uint64_t *psi);     /* from that pair, by any places between */
int from_zero(const struct start *start, uint64_t *psi);     /* outward from the least doubles on, then by halving */

#endif
