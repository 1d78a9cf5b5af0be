/*
**  What the pairs of result files met, beside the numbers of their refusals: where a file was at fault, what rows and figures there were and how far
**  apart, where the first largest distance stood. It keeps a comparison from passing for want of hard inputs.
*/
#ifndef AIMS_COMPARE_H
#define AIMS_COMPARE_H

#include "rules_compare.h"

/* After a call that was compared and held to the rules, with a run of so many words. */
void aims_see_compare(const struct file *left, const struct file *right, size_t k);

/* Prints all counts; answers how many aims were never hit. */
int aims_compare_tell(void);

#endif
