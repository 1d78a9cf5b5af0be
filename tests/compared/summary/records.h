/*
**  Records of states as the summary sees them: the number of a centre, an epoch, and six words of any bits.
*/
#ifndef RECORDS_H
#define RECORDS_H

#include <stdint.h>

/* How the epochs of a roster are drawn: plain numbers, of a few words alone, special ones, or any words. */
enum epochs { PLAIN, FEW, SPECIAL, ANY, EPOCHS };

/* Before a roster. */
void records_begin(enum epochs how);

uint64_t any_epoch(void);

/* With a number below the centres, or 0 where there is none. */
void any_record(uint64_t *record, uint64_t centres);

/* A number that is not below the centres. */
uint64_t bad_centre(uint64_t centres);

#endif
