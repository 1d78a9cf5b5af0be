/*
**  One file of rows asked of the library and of the second program: kelubashi1_check, compared word by word.
**
**  Runs for the verdicts are none, one short, exact and longer, and the words behind and before them are looked at; longer runs and wrong
**  counts are drawn. On the way the document's own words are looked at (see rules_rows.h). Where something of this does
**  not hold, the program ends.
*/
#ifndef ASK_ROWS_H
#define ASK_ROWS_H

#include "row_files.h"

/* Where all rows have to be accepted, that is looked at too. */
void ask_rows(const char *family, const struct file *file, int all_accepted);

/* Prints the numbers met and the aims hit; answers how many never were. */
int ask_rows_tell(void);

#endif
