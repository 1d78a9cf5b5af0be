/*
**  One roster asked of the library and of the second program: kelubashi1_summary, kelubashi1_append and
**  kelubashi1_withdraw, one call after another, compared word by word after each.
**
**  On the way the document's own words are looked at, of each call (see rules_summary.h) and of several: a right
**  list stays right, and a state that is appended and withdrawn leaves the states in use as they were. Nothing is
**  drawn. Where something of this does not hold, the program ends.
*/
#ifndef ASK_SUMMARY_H
#define ASK_SUMMARY_H

#include "rosters.h"

void ask_roster(const char *family, const struct roster *roster);

/* Prints the numbers met and the aims hit; answers how many never were. */
int ask_roster_tell(void);

#endif
