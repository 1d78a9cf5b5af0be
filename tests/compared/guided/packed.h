/*
**  Inputs of every kind as bytes, so that one corpus has them all, and a file can hold any.
**
**  A state is its eight words. A file is itself, and so is a file of rows. Sections are the words of their three runs behind the three
**  counts of these words; any bytes at all are sections of some kind. A roster is its count, its centres and its
**  fill, the counts of the records and of the words of the list that are given, these, and calls up to the end;
**  any bytes at all are a roster too. A pair is the left file behind the count of its bytes, and then the right file; and any bytes
**  at all are one.
*/
#ifndef PACKED_H
#define PACKED_H

#include "compared/compare/pair_makers.h"
#include "compared/shared/sections.h"
#include "compared/summary/rosters.h"

#define MOST_PACKED (MOST_BYTES - 64)     /* bytes behind a file are lent too */

enum kind { STATES, FILES, SECTIONS, ROSTERS, ROWS, PAIRS, KINDS };

void pack_state(struct file *input, const uint64_t *words);
void unpack_state(const struct file *input, uint64_t *words);
void pack_sections(struct file *input, const struct sections *sections);
void unpack_sections(const struct file *input, struct sections *sections);
void pack_roster(struct file *input, const struct roster *roster);
void unpack_roster(const struct file *input, struct roster *roster);
void pack_pair(struct file *input, const struct pair *pair);
void unpack_pair(const struct file *input, struct pair *pair);

/* The word at a place, 0 where it is not whole. */
uint64_t word_or_zero(const struct file *input, size_t place);

#endif
