/*
**  A pair of result files asked of the library and of the second program: kelubashi1_compare, compared word by word.
**
**  Runs are none, a word short, of any shorter length, exact and longer, and the words behind and before them are looked at; lengths and wrong counts are
**  drawn. The sides are exchanged then, and the left file is compared with itself. On the way the document's own words are looked at (see
**  rules_compare.h). Where something of this does not hold, the program ends.
*/
#ifndef ASK_COMPARE_H
#define ASK_COMPARE_H

#include "result_pairs.h"

void ask_compare(const char *family, const struct pair *pair);

/* Prints the numbers met and the aims hit; answers how many never were. */
int ask_compare_tell(void);

#endif
