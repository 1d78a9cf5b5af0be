/* A row by document 01's formulas, written down once more: for the self-test,
 * and for what makes rows to compare with. */
#ifndef FORMULAS_H
#define FORMULAS_H

#include <stdint.h>

struct start;

/* The eight words of the start, this psi, and the nine figures at it for the
 * interval that the start searches, whether 7 or 8 applies to them or not. Its
 * L must be finite. */
void put_row(const struct start *s, uint64_t psi, uint64_t row[18]);

#endif
