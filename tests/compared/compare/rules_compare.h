/*
**  What document 02 says of T-07's call, looked at in what the library gave, and not by the second program. Where it does not
**  hold, the program ends.
*/
#ifndef RULES_COMPARE_H
#define RULES_COMPARE_H

#include "compared/shared/lent_to_both.h"
#include "result_pairs.h"

#define COMPARED 19     /* words that are told of a row */
#define COMPARE 7     /* words of an answer */

/* Where they stand in what a call gave, which has a word before the answer. */
enum { STATUS = 1, SIDE, PLACE, ROWS_TOLD, LARGEST_ROW, LARGEST_WORD, LARGEST_DISTANCE };

enum row_kind { BOTH_ANSWERED, LEFT_REFUSED, RIGHT_REFUSED, REFUSED_ALIKE, REFUSED_UNLIKE, ROW_KINDS };
enum figure_kind { DISTANCE, EQUAL_BITS, UNEQUAL_BITS, NOT_TOLD, FIGURE_KINDS };

/* A file's own fault and its place, by its length and its first two words; 0 where there is none. */
uint64_t file_fault(const struct file *file, uint64_t *place);

/* What is told of a row, and of a figure of it: its kind, and behind that its distance. */
const uint64_t *told_row(const struct given *given, uint64_t row);
const uint64_t *told_figure(const struct given *given, uint64_t row, size_t figure);

/* Of a call on these files with a run of so many words: its refusal, side and place; what is told of each row, by its words alone; the first of
   the largest distances; every other word of the run stays. */
void expect_compare(const struct file *left, const struct file *right, size_t k);

/* Of a call with the sides exchanged, after one that gave this: the same distances, and the kinds of the other side. */
void expect_mirrored(const struct given *forward);

/* Of a file compared with itself: nothing moved. */
void expect_nothing_moved(void);

#endif
