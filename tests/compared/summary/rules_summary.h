/*
**  What document 02 says of one call, looked at in what the library holds, and not by either program. Where it
**  does not hold, the program ends.
*/
#ifndef RULES_SUMMARY_H
#define RULES_SUMMARY_H

#include "held_by_both.h"

/* The status once more, and the count; a refusal changes no word; what an accepted call leaves in both runs. */
void expect_rules(const struct made *made);

#endif
