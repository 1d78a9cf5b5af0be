/*
**  What moved between a reference and another result file, as a person reads it.
*/
#ifndef MOVED_H
#define MOVED_H

#include "comparison.h"

enum { DIFFERENCE_TEXT = 32 };  /* bytes that describe_difference needs at most */

/* How much a figure moved, in its unit: "+9.09e-13 km" where the results have more than the reference. */
void describe_difference(const struct comparison *comparison, size_t row, size_t word, char *text, size_t size);

/*
**  The rows that moved, a line for each figure, then the refused ones by their sorts; with all, also those where nothing moved.
**  False where there are none, and nothing is shown.
*/
int show_moved(const struct comparison *comparison, const struct tally *tally, int all);

#endif
