/*
**  What document 02 says of T-06's call, looked at in what the library gave, and not by the second program. Where it does not
**  hold, the program ends.
*/
#ifndef RULES_ROWS_H
#define RULES_ROWS_H

#include "row_files.h"

/* What the library's own call makes of a row's eight words: its refusal, and where there is none the row that it answers. */
struct own {
    uint64_t refusal;
    uint64_t row[ROW_WORDS];
};

/* Of a call: its refusal and its place, by lengths and the count alone; verdicts of 1 and 0; every other word of the run stays. */
void expect_check(const struct file *file, size_t k);

/* Of a row: our own answer is accepted, a start that we refuse is not, and at our own anomaly nothing but our own figures is. */
void expect_verdict(const uint64_t *row, uint64_t verdict, const struct own *own);

#endif
