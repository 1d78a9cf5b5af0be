/*
**  Files of one row, to check and to compare.
*/
#ifndef ONE_ROW_H
#define ONE_ROW_H

#include "kelubashi.h"

enum { ONE_ROW = 8 + 8 * KELUBASHI_CHECK_ROW, ONE_RESULT = 16 + 8 * KELUBASHI_ROW };     /* their bytes */

/* The eight words of a call and what the library's own call answers to them; of a refused one, its zeros. */
void one_row(const uint64_t *given, const uint64_t *answer, uint8_t *file);

/* The result file of one request, with another last bit in each figure. */
void move_results(const uint8_t *results, uint8_t *moved);

#endif
