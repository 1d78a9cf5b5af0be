/* What the self-test of another station's rows shares (T-06). */
#ifndef CHECKED_H
#define CHECKED_H

#include "selftest.h"

#include "formulas.h"
#include "second/parts.h"

/* The words of a row: the eight that come in, tau the last of them, then the
 * anomaly, then the nine figures. */
#define ROW_WORDS 18u
#define TAU 7u
#define PSI 8u
#define FIGURES 9u
#define ROW_BYTES (8 * ROW_WORDS)

/* The verdict on a row that is alone in its file. */
void expect_row(const uint64_t row[ROW_WORDS], int yes, const char *what);

/* The row that the call answers; 0 where it refuses. */
int own_row(const double e[8], uint64_t row[ROW_WORDS]);

/* T-06's sentence: of the anomaly alone, of 7 and 8, and of the whole row.  The
 * second asks for the row that was put. */
int right_psi(const struct start *s, uint64_t psi);
int no_refusal(const struct start *s, const uint64_t row[ROW_WORDS]);
int right_row(const uint64_t row[ROW_WORDS]);

/* The psi that T-01 picks from a pair found by halving, between the places of
 * a short one and one that is not. */
uint64_t halved(const struct start *s, double low, double high);

#endif
