/*
**  Pairs of result files to compare with: our own results on both sides, and rows that are changed on one or on both.
**
**  Each maker is after a part of T-07's sentences; the turn counts its pairs, so that a list is gone through in order. What is moved stands on
**  the right; that the sides are exchanged is for result_pairs.h.
*/
#ifndef PAIR_MAKERS_H
#define PAIR_MAKERS_H

#include "compared/shared/sections.h"

#define RESULT_ROW 11     /* words of a row: refusal, points, and from FIRST_FIGURE on nine figures */
#define FIRST_FIGURE 2
#define RESULT_FIGURES 9
#define FEW_ROWS 4     /* most pairs have no more */

struct pair {
    struct file left, right;
};

/* Where a word of a row stands, both by their numbers from 0; and the bytes of so many rows. */
size_t result_place(uint64_t row, size_t word);
size_t results_length(uint64_t rows);

/* The word there, which has to be in the file. */
uint64_t result_word(const struct file *file, uint64_t row, size_t word);
void set_result_word(struct file *file, uint64_t row, size_t word, uint64_t bits);

/* A file for another, whatever that was. */
void copy_file(struct file *to, const struct file *from);

/* Rows of our own results, for any count; and the same on both sides. */
void own_rows(struct file *file, uint64_t rows);
void own_pair(struct pair *pair, uint64_t rows);

/* The row is answered on both sides, whatever it was, and its figures are our own or zeros, so that they are compared. */
void answer_both(struct pair *pair, uint64_t row);

/* The figure on the right so many steps up or down from that on the left, which is finite. */
void move_figure(struct pair *pair, uint64_t row, size_t figure, uint64_t steps);

void same_pair(struct pair *pair, uint64_t turn);
void one_place_pair(struct pair *pair, uint64_t turn);
void some_places_pair(struct pair *pair, uint64_t turn);
void turned_pair(struct pair *pair, uint64_t turn);
void beside_zero_pair(struct pair *pair, uint64_t turn);
void beside_power_pair(struct pair *pair, uint64_t turn);
void end_pair(struct pair *pair, uint64_t turn);
void many_ends_pair(struct pair *pair, uint64_t turn);
void refused_pair(struct pair *pair, uint64_t turn);
void points_pair(struct pair *pair, uint64_t turn);
void tied_pair(struct pair *pair, uint64_t turn);
void largest_pair(struct pair *pair, uint64_t turn);
void any_bits_pair(struct pair *pair, uint64_t turn);

#endif
