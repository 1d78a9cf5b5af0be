/*
**  Figures and numbers as people write and read them.
*/
#ifndef FIGURES_H
#define FIGURES_H

#include "formats.h"

/* The word of a text that is a figure as a whole: a null pointer, or what is wrong with it. */
const char *take_figure(const char *text, int any_bits, uint64_t *word);

/* The number of a record that a text is as a whole: a null pointer, or what is wrong with it. */
const char *take_number(const char *text, uint64_t *number);

/* How wide a column of numbers is in a table, by the name above it; and any column, by its unit where it has one. */
int name_width(const char *name);
int column_width(enum column column);

/* A space, and a word in its column; of a figure so many digits behind the point as its unit has, where there is room. */
void put_column(enum column column, uint64_t word);

#endif
