/*
**  Rows of other stations to compare with: our own, such as another search finds, and such as are wrong in one thing alone.
**
**  A row is the eight words of a call, the anomaly and the nine figures at the end. Each maker is after a part of T-06's
**  sentence; the turn counts its rows, so that a list is gone through in order. Figures that belong to an anomaly are
**  those of document 01's formulas there, whether 7 or 8 applies or not: then the anomaly alone decides, or 7 or 8.
*/
#ifndef ROW_MAKERS_H
#define ROW_MAKERS_H

#include "compared/shared/answered_rows.h"
#include "compared/shared/orbits.h"

enum { PSI = EIGHT, FIGURES };     /* behind the eight words */

/* These are to be accepted. */
void own_row(uint64_t *row, uint64_t turn);
void other_search_row(uint64_t *row, uint64_t turn);
void unsearchable_row(uint64_t *row, uint64_t turn);

void one_place_row(uint64_t *row, uint64_t turn);
void one_bit_row(uint64_t *row, uint64_t turn);
void moved_input_row(uint64_t *row, uint64_t turn);
void moved_psi_row(uint64_t *row, uint64_t turn);
void turned_psi_row(uint64_t *row, uint64_t turn);
void near_psi_row(uint64_t *row, uint64_t turn);
void far_psi_row(uint64_t *row, uint64_t turn);
void beyond_nan_row(uint64_t *row, uint64_t turn);
void whole_psi_row(uint64_t *row, uint64_t turn);
void zero_row(uint64_t *row, uint64_t turn);
void no_interval_row(uint64_t *row, uint64_t turn);
void nothing_left_row(uint64_t *row, uint64_t turn);
void refused_row(uint64_t *row, uint64_t turn);
void large_h_row(uint64_t *row, uint64_t turn);
void no_results_row(uint64_t *row, uint64_t turn);
void any_bits_row(uint64_t *row, uint64_t turn);

/* The row of the eight words, where the library's own call answers; its refusal otherwise, and then the row is as it was. */
uint64_t answer_row(uint64_t *row);

/* Another anomaly for the row, by its word, and the figures there; where the start is refused or L is not finite, the figures stay. */
void propose(uint64_t *row, uint64_t psi);

#endif
