/*
**  What the files of rows met, beside the numbers of their refusals: why a row was accepted or not, where a file was broken off, how
**  many rows it had. The second program's own parts tell, so this says nothing about the library: it keeps a comparison
**  from passing for want of hard inputs.
*/
#ifndef AIMS_ROWS_H
#define AIMS_ROWS_H

#include "rules_rows.h"

/* After a call that was compared, with a run of so many words. */
void aims_see_check(const struct file *file, size_t k);

/* A row of it, its verdict, and what the library's own call makes of its input. */
void aims_see_row(const uint64_t *row, uint64_t verdict, const struct own *own);

/* Prints all counts; answers how many aims were never hit. */
int aims_rows_tell(void);

#endif
