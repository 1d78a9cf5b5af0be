/*
**  What the calls of the rosters met, beside the numbers of their refusals: which of two refusals came first, which
**  state went, and which epochs an entry was worked out from. It says nothing about the library: it keeps a
**  comparison from passing for want of hard inputs.
*/
#ifndef AIMS_SUMMARY_H
#define AIMS_SUMMARY_H

#include "held_by_both.h"

enum roster_aim {
    MADE_RIGHT, STAYED_RIGHT, TAKEN_BACK,
    BY_WORDS, BY_COUNT, BY_501, BY_RECORD, BY_LIST, BY_CENTRES, BY_WRAPPED,
    FIRST_60_27, FIRST_27_41, FIRST_27_24, FIRST_27_42, FIRST_41_24, FIRST_41_42, FIRST_24_42,
    ONE_BEYOND, FAR_BEYOND, BAD_BEHIND,
    FIRST_STATE, FILLED, WENT_FIRST, WENT_MIDDLE, WENT_LAST, WENT_ONLY, FROM_FULL, BAD_FOLLOWS,
    FULL_SUMMARY, NO_CENTRE, CENTRES_ABOVE, OTHER_COUNTS, MENDED, LEFT_WRONG, OUTSIDE, LOWER_HALF,
    NO_EPOCH, NANS_ALONE, NANS_BESIDE, QUIET, MINUS_QUIET, SIGNALLING, MINUS_SIGNALLING,
    ZERO, MINUS_ZERO_ALONE, BOTH_ZEROS, MINUS_ZERO_EARLIEST, MINUS_ZERO_LATEST,
    EARLIEST_INFINITE, EARLIEST_MINUS, LATEST_INFINITE, LATEST_MINUS,
    EARLIEST_SUBNORMAL, EARLIEST_BELOW, LATEST_SUBNORMAL, LATEST_BELOW, BELOW_ZERO,
    EARLIEST_GREATEST, LATEST_GREATEST,
    NEW_EARLIEST, NEW_LATEST, NOTHING_NEW, NAN_APPENDED, EARLIEST_WENT, LATEST_WENT, NEITHER_WENT, NAN_WENT,
    ROSTER_AIMS
};

void aim_seen(enum roster_aim aim);

/* After a call that was compared, and before the next. */
void aims_see_call(const struct made *made);

/* Prints all counts; answers how many aims were never hit. */
int aims_summary_tell(void);

#endif
