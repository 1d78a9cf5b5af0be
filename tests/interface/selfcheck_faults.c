/*
**  The self-check on libraries that answer otherwise than edition 1 does.
**
**  The library here is the second program. As it is, the self-check has to be silent, so what it
**  expects is not the library's own word alone; with each fault the first case astray has to be told.
*/
#include "kelubashi.h"
#include "kelubashi_selfcheck.h"
#include "second/second.h"

#include <stdio.h>
#include <stdlib.h>
#include <string.h>

enum fault {
    NONE, ROOT_OF_ZEROS, ROOT_DROPS_SUBNORMALS, ROOT_NEVER_REFUSES, ROOT_CUT_OFF,
    ZEROS, NOTHING_WRITTEN, OTHER_NUMBERS, OTHER_COUNT, NO_REFUSAL_WORD, ONE_POINT_MORE, MINUS_ZERO_LOST,
    SIGN_OF_PSI_LOST, ACCELERATIONS_EXCHANGED, LAST_BIT, SHORT_END, REVOLUTIONS_KEPT, SUBNORMALS_DROPPED,
    TWO_FOR_ALL_FIGURES, TWO_FOR_TAU, LAST_FIGURE, MU_AND_X_EXCHANGED,
    PARTIALS_UNWRITTEN, PARTIALS_BY_COLUMN, PARTIALS_LAST_BIT, PARTIALS_WITHOUT_ANSWER, PARTIALS_ANY_RUN, PARTIALS_UNDER_REFUSAL,
    READ_REFUSES_ALL, READ_BY_WORDS, READ_STATES_FOR_CENTRES, READ_TAKES_SHORT_FILES, READ_PLACE_LOST,
    WRITE_HIGHEST_FIRST, WRITE_NOTHING, WRITE_BEYOND, WRITE_IN_ANY_ROOM, WRITE_LENGTH_IN_WORDS,
    RESULTS_OF_ZEROS, RESULTS_WITHOUT_COUNT, RESULTS_REFUSE, RESULTS_TAKE_SHORT_FILES, RESULTS_LENGTH_LOST,
    INTERVAL_TURNED, INTERVAL_UNWRITTEN, INTERVAL_REFUSES, INTERVAL_ADDS_ZERO, INTERVAL_CUT_OFF, INTERVAL_DROPS_SUBNORMALS, INTERVAL_STAYS_FINITE,
    INTERVAL_MINUS_NAN, INTERVAL_KEEPS_NANS,
    CHECK_ACCEPTS_ALL, CHECK_ACCEPTS_NONE, CHECK_UNWRITTEN, CHECK_BEYOND, CHECK_TAKES_SHORT_FILES, CHECK_IN_ANY_RUN, CHECK_ROWS_LOST,
    CHECK_ANY_PSI, CHECK_ANY_FIGURES, CHECK_NUMBERS, CHECK_TURNED, CHECK_KEEPS_REVOLUTIONS, CHECK_DROPS_SUBNORMALS,
    COMPARE_UNWRITTEN, COMPARE_BEYOND, COMPARE_ROWS_LOST, COMPARE_LAST_LARGEST, COMPARE_WORD_OF_FIGURES,
    COMPARE_POINTS, COMPARE_SIDES_EXCHANGED, COMPARE_ALIKE, COMPARE_LOWER_HALF, COMPARE_TELLS_REFUSED,
    COMPARE_WORDS, COMPARE_TWO_ZEROS, COMPARE_SIGN_LOST, COMPARE_HALF, COMPARE_INFINITE, COMPARE_NUMBERS,
    COMPARE_TAKES_SHORT_FILES, COMPARE_SIDE_LOST, COMPARE_IN_ANY_RUN, COMPARE_ANY_COUNTS,
    APPEND_UNWRITTEN, APPEND_SHOWS_MINUS_ZERO, APPEND_COUNTS_NANS, APPEND_LEAVES_OUT_INFINITIES, APPEND_ALL_ENTRIES, APPEND_COUNT_LOST, APPEND_ANY_CENTRE,
    WITHDRAW_MOVES_UP, WITHDRAW_CLEARS, WITHDRAW_OLD_ENTRY, WITHDRAW_NEVER_REFUSES, SUMMARY_UNWRITTEN, SUMMARY_ANY_RUN, SUMMARY_ANY_LIST, SUMMARY_OF_ZEROS
};

static enum fault fault;

#define DOES_NOT "the library does not answer as edition 1 does at "

static const struct telling {
    enum fault fault;
    const char *words;
} TELLINGS[] = {
    { ROOT_OF_ZEROS, DOES_NOT "P1: the root is 0000000000000000 and not 4000000000000000: " },
    { ROOT_DROPS_SUBNORMALS, DOES_NOT "P3: the root is 0000000000000000 and not 1E60000000000000: " },
    { ROOT_NEVER_REFUSES, DOES_NOT "P4: the status is 0 and not 9: " },
    { ROOT_CUT_OFF, DOES_NOT "the root of 2: the root is 3FF6A09E667F3BCC and not 3FF6A09E667F3BCD: " },
    { ZEROS, DOES_NOT "P6: the status is 0 and not 3: " },
    { NOTHING_WRITTEN, DOES_NOT "P6: the refusal is " },
    { OTHER_NUMBERS, DOES_NOT "P6: the status is 4 and not 3: " },
    { OTHER_COUNT, DOES_NOT "P6: the status is 60 and not 3: " },
    { NO_REFUSAL_WORD, DOES_NOT "P6: the refusal is 0 and not 3: " },
    { ONE_POINT_MORE, DOES_NOT "P10: the count of points is 22 and not 21: " },
    { MINUS_ZERO_LOST, DOES_NOT "P10: ax at the end is 0000000000000000 and not 8000000000000000: " },
    { SIGN_OF_PSI_LOST, DOES_NOT "P11: psi is 3FF0000000000000 and not BFF0000000000000: " },
    { ACCELERATIONS_EXCHANGED, DOES_NOT "the low Earth orbit: ax at the end is " },
    { LAST_BIT, DOES_NOT "the low Earth orbit: vz is C001008399837D4F and not C001008399837D4E: " },
    { SHORT_END, DOES_NOT "the nearer end: psi is 3FC12EC66FFED0D1 and not 3FC12EC66FFED0D2: " },
    { REVOLUTIONS_KEPT, DOES_NOT "whole revolutions: the count of points is 42 and not 54: " },
    { SUBNORMALS_DROPPED, DOES_NOT "the subnormal orbit: vy is 0000000000000000 and not 0000100000000000: " },
    { TWO_FOR_ALL_FIGURES, DOES_NOT "P7: the status is 2 and not 32: " },
    { TWO_FOR_TAU, DOES_NOT "a NaN for tau: the status is 2 and not 38: " },
    { LAST_FIGURE, DOES_NOT "NaNs from mu on: the status is 38 and not 31: " },
    { MU_AND_X_EXCHANGED, DOES_NOT "P7: the status is 31 and not 32: " },
    { PARTIALS_UNWRITTEN, DOES_NOT "the partials of the low Earth orbit: a partial is 5EED5EED5EED5EED and not " },
    { PARTIALS_BY_COLUMN, DOES_NOT "the partials of the low Earth orbit: a partial is BF79571FB16B916A and not BF70E20D50E051D8: " },
    { PARTIALS_LAST_BIT, DOES_NOT "the partials of the low Earth orbit: a partial is 3FF62E725EE51BB3 and not 3FF62E725EE51BB2: " },
    { PARTIALS_WITHOUT_ANSWER, DOES_NOT "the partials of the low Earth orbit: x is 5EED5EED5EED5EED and not " },
    { PARTIALS_ANY_RUN, DOES_NOT "a run of 35 words for the partials: the status is 0 and not 1: " },
    { PARTIALS_UNDER_REFUSAL, DOES_NOT "a run of 35 words for the partials: a partial is 0000000000000000 and not 5EED5EED5EED5EED: " },
    { READ_REFUSES_ALL, DOES_NOT "reading P10's file: the status is 22 and not 0: " },
    { READ_BY_WORDS, DOES_NOT "reading P10's file: the place of the centres is 1 and not 8: " },
    { READ_STATES_FOR_CENTRES, DOES_NOT "reading P10's file: the place of the states is 96 and not 24: " },
    { READ_TAKES_SHORT_FILES, DOES_NOT "reading P10's file, a byte short: the status is 0 and not 21: " },
    { READ_PLACE_LOST, DOES_NOT "reading P10's file, a byte short: the place is 0 and not 112: " },
    { WRITE_HIGHEST_FIRST, DOES_NOT "writing P10's file: a word of the room is 0100000000000000 and not 0000000000000001: " },
    { WRITE_NOTHING, DOES_NOT "writing P10's file: a word of the room is 5EED5EED5EED5EED and not 0000000000000001: " },
    { WRITE_BEYOND, DOES_NOT "writing P10's file: a word of the room is 0000000000000000 and not 5EED5EED5EED5EED: " },
    { WRITE_IN_ANY_ROOM, DOES_NOT "writing P10's file, in room a byte short: the status is 0 and not 26: " },
    { WRITE_LENGTH_IN_WORDS, DOES_NOT "writing P10's file: the length is 15 and not 120: " },
    { RESULTS_OF_ZEROS, DOES_NOT "the results of P10's file: a word of the room is 0000000000000000 and not 0000000000000001: " },
    { RESULTS_WITHOUT_COUNT, DOES_NOT "the results of P10's file: a word of the room is 0000000000000000 and not 0000000000000001: " },
    { RESULTS_REFUSE, DOES_NOT "the results of P10's file, a byte short: the status is 21 and not 0: " },
    { RESULTS_TAKE_SHORT_FILES, DOES_NOT "the results of P10's file, a byte short: the length is 104 and not 24: " },
    { RESULTS_LENGTH_LOST, DOES_NOT "the results of P10's file: the length is 0 and not 104: " },
    { INTERVAL_TURNED, DOES_NOT "the interval from 5 s to 3 s: the interval is 4000000000000000 and not C000000000000000: " },
    { INTERVAL_UNWRITTEN, DOES_NOT "the interval from 5 s to 3 s: the interval is 5EED5EED5EED5EED and not C000000000000000: " },
    { INTERVAL_REFUSES, DOES_NOT "an interval too large for a double: the status is 38 and not 0: " },
    { INTERVAL_ADDS_ZERO, DOES_NOT "the interval from +0 s to -0 s: the interval is 0000000000000000 and not 8000000000000000: " },
    { INTERVAL_CUT_OFF, DOES_NOT "an interval in the middle of two doubles: the interval is 3FF0000000000001 and not 3FF0000000000002: " },
    { INTERVAL_DROPS_SUBNORMALS, DOES_NOT "a subnormal interval: the interval is 0000000000000000 and not 000FFFFFFFFFFFFF: " },
    { INTERVAL_STAYS_FINITE, DOES_NOT "an interval too large for a double: the interval is 7FEFFFFFFFFFFFFF and not 7FF0000000000000: " },
    { INTERVAL_MINUS_NAN, DOES_NOT "the interval of two infinite times: the interval is FFF8000000000000 and not 7FF8000000000000: " },
    { INTERVAL_KEEPS_NANS, DOES_NOT "the interval from a NaN: the interval is FFF8000000000005 and not 7FF8000000000000: " },
    { CHECK_ACCEPTS_ALL, DOES_NOT "P10's row with another bit of psi: the verdict is 1 and not 0: " },
    { CHECK_ACCEPTS_NONE, DOES_NOT "P10's row: the verdict is 0 and not 1: " },
    { CHECK_UNWRITTEN, DOES_NOT "P10's row: the verdict is 6840227782638526189 and not 1: " },
    { CHECK_BEYOND, DOES_NOT "checking rows: a word that is no verdict is 0000000000000000 and not 5EED5EED5EED5EED: " },
    { CHECK_TAKES_SHORT_FILES, DOES_NOT "checking rows, a byte short: the status is 0 and not 21: " },
    { CHECK_IN_ANY_RUN, DOES_NOT "checking rows, with a run a word short: the status is 0 and not 26: " },
    { CHECK_ROWS_LOST, DOES_NOT "checking rows: the count of rows, or the place, is 0 and not 14: " },
    { CHECK_ANY_PSI, DOES_NOT "P10's row with another bit of psi: the verdict is 1 and not 0: " },
    { CHECK_ANY_FIGURES, DOES_NOT "P10's row with another bit of x: the verdict is 1 and not 0: " },
    { CHECK_NUMBERS, DOES_NOT "P10's row with +0 for -0: the verdict is 1 and not 0: " },
    { CHECK_TURNED, DOES_NOT "P11's row with P10's psi: the verdict is 1 and not 0: " },
    { CHECK_KEEPS_REVOLUTIONS, DOES_NOT "the row of whole revolutions: the verdict is 0 and not 1: " },
    { CHECK_DROPS_SUBNORMALS, DOES_NOT "the subnormal orbit's row: the verdict is 0 and not 1: " },
    { COMPARE_UNWRITTEN, DOES_NOT "equal rows: the kind of row is 6840227782638526189 and not 0: " },
    { COMPARE_BEYOND, DOES_NOT "comparing results: a word that tells of no row is 0000000000000000 and not 5EED5EED5EED5EED: " },
    { COMPARE_ROWS_LOST, DOES_NOT "comparing results: the count of rows is 0 and not 13: " },
    { COMPARE_LAST_LARGEST, DOES_NOT "comparing results: the row of the largest distance is 6 and not 5: " },
    { COMPARE_WORD_OF_FIGURES, DOES_NOT "comparing results: its word is 5 and not 7: " },
    { COMPARE_POINTS, DOES_NOT "rows with other points: the kind of row is 4 and not 0: " },
    { COMPARE_SIDES_EXCHANGED, DOES_NOT "a row refused on the left: the kind of row is 2 and not 1: " },
    { COMPARE_ALIKE, DOES_NOT "a row refused with two numbers: the kind of row is 3 and not 4: " },
    { COMPARE_LOWER_HALF, DOES_NOT "a row refused on the right: the kind of row is 0 and not 2: " },
    { COMPARE_TELLS_REFUSED, DOES_NOT "a row refused on the left: the kind of a figure is 0 and not 3: " },
    { COMPARE_WORDS, DOES_NOT "both zeros: a distance is 9223372036854775808 and not 0: " },
    { COMPARE_TWO_ZEROS, DOES_NOT "both zeros: a distance is 1 and not 0: " },
    { COMPARE_SIGN_LOST, DOES_NOT "the figures beside zero: a distance is 0 and not 2: " },
    { COMPARE_HALF, DOES_NOT "figures from end to end: a distance is 9007199254740994 and not 18437736874454810622: " },
    { COMPARE_INFINITE, DOES_NOT "the largest figure and infinity: the kind of a figure is 0 and not 2: " },
    { COMPARE_NUMBERS, DOES_NOT "a NaN and itself: the kind of a figure is 2 and not 1: " },
    { COMPARE_TAKES_SHORT_FILES, DOES_NOT "comparing results, the right file a byte short: the status is 0 and not 21: " },
    { COMPARE_SIDE_LOST, DOES_NOT "comparing results, the right file a byte short: the side is 0 and not 1: " },
    { COMPARE_IN_ANY_RUN, DOES_NOT "comparing results, with a run a word short: the status is 0 and not 26: " },
    { COMPARE_ANY_COUNTS, DOES_NOT "comparing results, a row fewer on the right: the status is 0 and not 51: " },
    { APPEND_UNWRITTEN, DOES_NOT "a state at -0 s appended: a word of the states is 5EED5EED5EED5EED and not 0000000000000000: " },
    { APPEND_SHOWS_MINUS_ZERO, DOES_NOT "a state at -0 s appended: its earliest epoch is 8000000000000000 and not 0000000000000000: " },
    { APPEND_COUNTS_NANS, DOES_NOT "a state at a NaN appended: the states of centre 1 is 0000000000000001 and not 0000000000000000: " },
    { APPEND_LEAVES_OUT_INFINITIES, DOES_NOT "an infinite epoch appended: the states of centre 0 is 0000000000000001 and not 0000000000000002: " },
    { APPEND_ALL_ENTRIES, DOES_NOT "a state at -0 s appended: the states of centre 1 is 0000000000000000 and not 5EED5EED5EED5EED: " },
    { APPEND_COUNT_LOST, DOES_NOT "a state at -0 s appended: the count of states is 0 and not 1: " },
    { APPEND_ANY_CENTRE, DOES_NOT "a state of no centre: the status is 0 and not 24: " },
    { WITHDRAW_MOVES_UP, DOES_NOT "the first state withdrawn: a word of the states is 0000000000000000 and not 0000000000000001: " },
    { WITHDRAW_CLEARS, DOES_NOT "the first state withdrawn: a word of the states is 0000000000000000 and not FFF0000000000000: " },
    { WITHDRAW_OLD_ENTRY, DOES_NOT "the first state withdrawn: the states of centre 0 is 0000000000000002 and not 0000000000000001: " },
    { WITHDRAW_NEVER_REFUSES, DOES_NOT "a state that is not there withdrawn: the status is 0 and not 42: " },
    { SUMMARY_UNWRITTEN, DOES_NOT "a summary: the states of centre 0 is 5EED5EED5EED5EED and not 0000000000000001: " },
    { SUMMARY_ANY_RUN, DOES_NOT "a summary of a run a word short: the status is 0 and not 27: " },
    { SUMMARY_ANY_LIST, DOES_NOT "a summary to a list a word short: the status is 0 and not 41: " },
    { SUMMARY_OF_ZEROS, DOES_NOT "a summary: the states of centre 0 is 0000000000000000 and not 0000000000000001: " }
};

static int is_subnormal(uint64_t word)
{
    return (word >> 52 & 0x7FF) == 0 && word << 12 != 0;
}

uint64_t kelubashi1_root(uint64_t word, uint64_t *answer, size_t n)
{
    uint64_t status = second_root(word, answer, n);

    if (fault == ROOT_OF_ZEROS || (fault == ROOT_DROPS_SUBNORMALS && is_subnormal(word)))
        *answer = 0;
    if (fault == ROOT_CUT_OFF && *answer << 12 != 0)
        *answer &= ~UINT64_C(1);
    return fault == ROOT_NEVER_REFUSES ? 0 : status;
}

static void exchange_accelerations(uint64_t *answer)
{
    int i;

    for (i = 0; i < 3; i++) {
        uint64_t end = answer[KELUBASHI_END_AX + i];
        answer[KELUBASHI_END_AX + i] = answer[KELUBASHI_START_AX + i];
        answer[KELUBASHI_START_AX + i] = end;
    }
}

/* Every figure that is this word, or any subnormal where the word is 0, becomes +0. */
static void drop(uint64_t *answer, uint64_t word)
{
    int i;

    for (i = KELUBASHI_X; i < KELUBASHI_ANSWER; i++)
        if (word == 0 ? is_subnormal(answer[i]) : answer[i] == word)
            answer[i] = 0;
}

static int is_finite(uint64_t word)
{
    return (word >> 52 & 0x7FF) != 0x7FF;
}

/* Another number for the first of the eight that is not finite. */
static uint64_t other_figure(uint64_t number, const uint64_t *eight)
{
    switch (fault) {
    case TWO_FOR_ALL_FIGURES:     /* what the library before T-05 answers */
        return 2;
    case TWO_FOR_TAU:
        return number == 38 ? 2 : number;
    case LAST_FIGURE:
        for (number = 38; is_finite(eight[number - 31]); number--)
            ;
        return number;
    case MU_AND_X_EXCHANGED:
        return number == 31 ? 32 : number == 32 ? 31 : number;
    default:
        return number;
    }
}

/* The answer with the fault. */
static void spoil(uint64_t *answer)
{
    switch (fault) {
    case ZEROS:
        memset(answer, 0, KELUBASHI_ANSWER * sizeof *answer);
        break;
    case OTHER_NUMBERS:
        answer[KELUBASHI_REFUSAL] += answer[KELUBASHI_REFUSAL] != 0;
        break;
    case NO_REFUSAL_WORD:
        memmove(answer, answer + 1, (KELUBASHI_ANSWER - 1) * sizeof *answer);
        break;
    case ONE_POINT_MORE:
        answer[KELUBASHI_POINTS] += answer[KELUBASHI_POINTS] != 0;
        break;
    case MINUS_ZERO_LOST:
        drop(answer, UINT64_C(0x8000000000000000));
        break;
    case SIGN_OF_PSI_LOST:
        answer[KELUBASHI_PSI] &= ~UINT64_C(0x8000000000000000);
        break;
    case ACCELERATIONS_EXCHANGED:
        exchange_accelerations(answer);
        break;
    case LAST_BIT:
        answer[KELUBASHI_VZ] ^= answer[KELUBASHI_VZ] != 0;
        break;
    case SHORT_END:
        answer[KELUBASHI_PSI] -= answer[KELUBASHI_PSI] == UINT64_C(0x3FC12EC66FFED0D2);
        break;
    case REVOLUTIONS_KEPT:     /* what the library before T-04 answers */
        if (answer[KELUBASHI_PSI] == UINT64_C(0xBFC4661E9275651D))
            answer[KELUBASHI_POINTS] = 42;
        break;
    case SUBNORMALS_DROPPED:
        drop(answer, 0);
        break;
    default:
        break;
    }
}

uint64_t kelubashi1_propagate(uint64_t mu, uint64_t x, uint64_t y, uint64_t z,
                              uint64_t vx, uint64_t vy, uint64_t vz, uint64_t tau,
                              uint64_t *answer, size_t n)
{
    const uint64_t eight[8] = { mu, x, y, z, vx, vy, vz, tau };
    uint64_t right[KELUBASHI_ANSWER];
    uint64_t status = second_propagate(mu, x, y, z, vx, vy, vz, tau, right, n);

    if (fault == OTHER_COUNT)
        return 60;
    if (status >= 31)
        right[KELUBASHI_REFUSAL] = other_figure(status, eight);
    spoil(right);
    if (fault != NO_REFUSAL_WORD)
        status = right[KELUBASHI_REFUSAL];
    if (fault != NOTHING_WRITTEN)
        memcpy(answer, right, sizeof right);
    return status;
}

uint64_t kelubashi1_partials(uint64_t mu, uint64_t x, uint64_t y, uint64_t z,
                             uint64_t vx, uint64_t vy, uint64_t vz, uint64_t tau,
                             uint64_t *answer, size_t n, uint64_t *run, size_t k)
{
    uint64_t right[KELUBASHI_PARTIALS], kept = answer[KELUBASHI_X];
    uint64_t status = second_partials(mu, x, y, z, vx, vy, vz, tau, answer, n, right, fault == PARTIALS_ANY_RUN ? 36 : k);
    size_t i;

    if (fault == PARTIALS_WITHOUT_ANSWER)
        answer[KELUBASHI_X] = kept;
    if (fault == PARTIALS_LAST_BIT)
        right[35] ^= 1;
    if (status == 0 && fault != PARTIALS_UNWRITTEN)
        for (i = 0; i < k; i++)
            run[i] = right[fault == PARTIALS_BY_COLUMN ? i % 6 * 6 + i / 6 : i];
    if (status != 0 && fault == PARTIALS_UNDER_REFUSAL)
        memset(run, 0, k * sizeof *run);
    return status;
}

uint64_t kelubashi1_read(const uint8_t *file, size_t length, uint64_t *answer, size_t n)
{
    uint64_t status = second_read(file, fault == READ_TAKES_SHORT_FILES ? 120 : length, answer, n);

    if (fault == READ_REFUSES_ALL)
        return 22;
    if (fault == READ_BY_WORDS)
        answer[KELUBASHI_READ_CENTRES] /= 8;
    if (fault == READ_STATES_FOR_CENTRES)
        answer[KELUBASHI_READ_STATES] = answer[KELUBASHI_READ_REQUESTS];
    if (fault == READ_PLACE_LOST)
        answer[KELUBASHI_READ_PLACE] = 0;
    return status;
}

/* The bytes of each word the other way round. */
static void turn_words(uint8_t *bytes, size_t length)
{
    size_t i;

    for (i = 0; i < length; i++)
        if (i % 8 < 4) {
            uint8_t kept = bytes[i];
            bytes[i] = bytes[i + 7 - 2 * (i % 8)];
            bytes[i + 7 - 2 * (i % 8)] = kept;
        }
}

uint64_t kelubashi1_write(const uint64_t *centres, size_t centre_words, const uint64_t *states, size_t state_words,
                          const uint64_t *requests, size_t request_words, uint8_t *room, size_t size,
                          uint64_t *answer, size_t n)
{
    static uint8_t right[128];
    uint64_t status = second_write(centres, centre_words, states, state_words, requests, request_words, right,
                                   fault == WRITE_IN_ANY_ROOM ? sizeof right : size, answer, n);

    if (fault == WRITE_HIGHEST_FIRST)
        turn_words(right, 120);
    if (status == 0 && fault != WRITE_NOTHING)
        memcpy(room, right, size < 120 ? size : 120);
    if (status == 0 && fault == WRITE_BEYOND)
        memset(room + 120, 0, 8);
    if (fault == WRITE_LENGTH_IN_WORDS)
        answer[KELUBASHI_WRITE_LENGTH] /= 8;
    return status;
}

uint64_t kelubashi1_results(const uint8_t *file, size_t length, uint8_t *room, size_t size, uint64_t *answer, size_t n)
{
    uint64_t status = second_results(file, fault == RESULTS_TAKE_SHORT_FILES ? 120 : length, room, size, answer, n);

    if (fault == RESULTS_OF_ZEROS)
        memset(room, 0, 104);
    if (fault == RESULTS_WITHOUT_COUNT)
        memmove(room + 8, room + 16, 88);
    if (fault == RESULTS_LENGTH_LOST)
        answer[KELUBASHI_RESULTS_LENGTH] = 0;
    return fault == RESULTS_REFUSE && length < 120 ? 21 : status;
}

static int is_nan(uint64_t word)
{
    return !is_finite(word) && word << 12 != 0;
}

/* The interval with the fault. */
static uint64_t other_interval(uint64_t epoch, uint64_t right)
{
    switch (fault) {
    case INTERVAL_TURNED:
        return right ^ UINT64_C(0x8000000000000000);
    case INTERVAL_ADDS_ZERO:
        return right << 1 == 0 ? 0 : right;
    case INTERVAL_CUT_OFF:
        return right - (right == UINT64_C(0x3FF0000000000002));
    case INTERVAL_DROPS_SUBNORMALS:
        return is_subnormal(right) ? 0 : right;
    case INTERVAL_STAYS_FINITE:
        return is_finite(epoch) && !is_finite(right) ? right - 1 : right;
    case INTERVAL_MINUS_NAN:     /* what the processor makes */
        return is_nan(right) ? UINT64_C(0xFFF8000000000000) : right;
    case INTERVAL_KEEPS_NANS:
        return is_nan(epoch) ? epoch | UINT64_C(0x0008000000000000) : right;
    default:
        return right;
    }
}

uint64_t kelubashi1_interval(uint64_t time, uint64_t epoch, uint64_t *answer, size_t n)
{
    uint64_t right, status = second_interval(time, epoch, &right, n);

    if (fault != INTERVAL_UNWRITTEN)
        *answer = other_interval(epoch, right);
    return fault == INTERVAL_REFUSES && !is_finite(right) ? 38 : status;
}

/* The word of a row, in the file of rows. */
static uint64_t row_word(const uint8_t *row, size_t word)
{
    uint64_t bits = 0;
    size_t i;

    for (i = 8; i > 0; i--)
        bits = bits << 8 | row[8 * word + i - 1];
    return bits;
}

/* Whether figures are those of the answer, by their words or, with the fault, as numbers. */
static int same_figures(const uint8_t *row, const uint64_t *answer)
{
    size_t i;

    for (i = 0; i < 9; i++) {
        uint64_t given = row_word(row, KELUBASHI_CHECK_X + i), right = answer[KELUBASHI_X + i];

        if (fault == CHECK_NUMBERS ? kelubashi_figure(given) != kelubashi_figure(right) : given != right)
            return 0;
    }
    return 1;
}

/* A row with the fault, of a station that searches again and looks at less than all of the row. */
static uint64_t spoilt_verdict(const uint8_t *row, uint64_t verdict)
{
    uint64_t w[8], answer[KELUBASHI_ANSWER], psi = row_word(row, KELUBASHI_CHECK_PSI);
    size_t i;

    for (i = 0; i < 8; i++)
        w[i] = row_word(row, i);
    if (fault == CHECK_DROPS_SUBNORMALS)
        return is_subnormal(w[0]) ? 0 : verdict;
    if (second_propagate(w[0], w[1], w[2], w[3], w[4], w[5], w[6], w[7], answer, KELUBASHI_ANSWER) != 0)
        return verdict;
    switch (fault) {
    case CHECK_ANY_PSI:
        return same_figures(row, answer) ? 1 : verdict;
    case CHECK_ANY_FIGURES:
        return psi == answer[KELUBASHI_PSI] ? 1 : verdict;
    case CHECK_NUMBERS:
        return psi == answer[KELUBASHI_PSI] && same_figures(row, answer) ? 1 : verdict;
    case CHECK_TURNED:
        return psi << 1 == answer[KELUBASHI_PSI] << 1 && same_figures(row, answer) ? 1 : verdict;
    case CHECK_KEEPS_REVOLUTIONS:
        return psi == UINT64_C(0xBFC4661E9275651D) ? 0 : verdict;
    default:
        return fault == CHECK_ACCEPTS_ALL ? 1 : fault == CHECK_ACCEPTS_NONE ? 0 : verdict;
    }
}

uint64_t kelubashi1_check(const uint8_t *file, size_t length, uint64_t *verdicts, size_t k, uint64_t *answer, size_t n)
{
    uint64_t right[32];
    size_t i, whole = length + (fault == CHECK_TAKES_SHORT_FILES ? (8 - length % 8) % 8 : 0);
    uint64_t status = second_check(file, whole, right, fault == CHECK_IN_ANY_RUN ? 32 : k, answer, n);

    for (i = 0; status == 0 && fault != CHECK_UNWRITTEN && i < answer[KELUBASHI_CHECK_ROWS] && i < k; i++)
        verdicts[i] = spoilt_verdict(file + 8 + 8 * KELUBASHI_CHECK_ROW * i, right[i]);
    if (status == 0 && fault == CHECK_BEYOND)
        memset(verdicts + i, 0, (k - i) * sizeof *verdicts);
    if (fault == CHECK_ROWS_LOST)
        answer[KELUBASHI_CHECK_ROWS] = 0;
    return status;
}

/* What is told of two figures, with the fault. */
static void spoil_figure(uint64_t left, uint64_t right, uint64_t *told)
{
    uint64_t size_left = left & INT64_MAX, size_right = right & INT64_MAX;

    if (fault == COMPARE_INFINITE && told[0] == KELUBASHI_FIGURE_UNEQUAL)
        told[0] = KELUBASHI_FIGURE_DISTANCE;
    if (fault == COMPARE_NUMBERS && kelubashi_figure(left) != kelubashi_figure(right))
        told[0] = told[0] == KELUBASHI_FIGURE_EQUAL ? KELUBASHI_FIGURE_UNEQUAL : told[0];
    if (fault == COMPARE_WORDS)
        told[1] = left < right ? right - left : left - right;
    if (fault == COMPARE_TWO_ZEROS)
        told[1] += (left ^ right) >> 63;
    if (fault == COMPARE_SIGN_LOST)
        told[1] = size_left < size_right ? size_right - size_left : size_left - size_right;
    if (fault == COMPARE_HALF && told[1] > INT64_MAX)
        told[1] = -told[1];
}

/* Another kind for two rows, by the words at fault. */
static uint64_t other_kind(const uint8_t *left, const uint8_t *right, uint64_t kind)
{
    uint64_t of_left = row_word(left, KELUBASHI_REFUSAL), of_right = row_word(right, KELUBASHI_REFUSAL);

    switch (fault) {
    case COMPARE_POINTS:
        return row_word(left, KELUBASHI_POINTS) == row_word(right, KELUBASHI_POINTS) ? kind : KELUBASHI_ROW_REFUSED_UNLIKE;
    case COMPARE_SIDES_EXCHANGED:
        return kind == KELUBASHI_ROW_LEFT_REFUSED ? KELUBASHI_ROW_RIGHT_REFUSED : kind == KELUBASHI_ROW_RIGHT_REFUSED ? KELUBASHI_ROW_LEFT_REFUSED : kind;
    case COMPARE_ALIKE:
        return kind == KELUBASHI_ROW_REFUSED_UNLIKE ? KELUBASHI_ROW_REFUSED_ALIKE : kind;
    case COMPARE_LOWER_HALF:
        return (of_left | of_right) << 32 == 0 ? KELUBASHI_ROW_ANSWERED : kind;
    default:
        return kind;
    }
}

static void spoil_told(const uint8_t *left, const uint8_t *right, uint64_t *told)
{
    size_t i;

    for (i = 0; i < 9; i++) {
        uint64_t *figure = told + 1 + 2 * i;

        if (told[0] == KELUBASHI_ROW_ANSWERED)
            spoil_figure(row_word(left, KELUBASHI_X + i), row_word(right, KELUBASHI_X + i), figure);
        else if (fault == COMPARE_TELLS_REFUSED)
            figure[0] = KELUBASHI_FIGURE_DISTANCE;
    }
    told[0] = other_kind(left, right, told[0]);
}

/* The last of the largest for the first. */
static void last_largest(const uint64_t *told, uint64_t rows, uint64_t *answer)
{
    uint64_t i;

    for (i = 0; i < 9 * rows; i++)
        if (told[KELUBASHI_COMPARED * (i / 9) + 2 + 2 * (i % 9)] == answer[KELUBASHI_COMPARE_DISTANCE]) {
            answer[KELUBASHI_COMPARE_ROW] = i / 9;
            answer[KELUBASHI_COMPARE_WORD] = KELUBASHI_X + i % 9;
        }
}

static void spoil_compared(const uint64_t *told, uint64_t rows, uint64_t *answer)
{
    if (fault == COMPARE_LAST_LARGEST)
        last_largest(told, rows, answer);
    if (fault == COMPARE_WORD_OF_FIGURES)
        answer[KELUBASHI_COMPARE_WORD] -= KELUBASHI_X;
    if (fault == COMPARE_ROWS_LOST)
        answer[KELUBASHI_COMPARE_ROWS] = 0;
    if (fault == COMPARE_SIDE_LOST)
        answer[KELUBASHI_COMPARE_SIDE] = 0;
}

/* A length as it would be of whole words, or a file like the other, where the fault looks no further. */
static uint64_t faulty_compare(const uint8_t *left, size_t left_length, const uint8_t *right, size_t right_length, uint64_t *told, size_t k, uint64_t *answer,
                               size_t n)
{
    if (fault == COMPARE_TAKES_SHORT_FILES)
        right_length += (8 - right_length % 8) % 8;
    if (fault == COMPARE_ANY_COUNTS && left_length > right_length && right_length % 8 == 0)
        return second_compare(left, left_length, left, left_length, told, k, answer, n);
    return second_compare(left, left_length, right, right_length, told, fault == COMPARE_IN_ANY_RUN ? 512 : k, answer, n);
}

uint64_t kelubashi1_compare(const uint8_t *left, size_t left_length, const uint8_t *right, size_t right_length, uint64_t *rows, size_t k,
                            uint64_t *answer, size_t n)
{
    uint64_t told[512], status = faulty_compare(left, left_length, right, right_length, told, k, answer, n), count = answer[KELUBASHI_COMPARE_ROWS];
    size_t i, words = KELUBASHI_COMPARED * (size_t)count;

    for (i = 0; i < count; i++)
        spoil_told(left + 16 + 8 * KELUBASHI_ROW * i, right + 16 + 8 * KELUBASHI_ROW * i, told + KELUBASHI_COMPARED * i);
    spoil_compared(told, count, answer);
    if (fault != COMPARE_UNWRITTEN)
        memcpy(rows, told, (words < k ? words : k) * sizeof *rows);
    if (fault == COMPARE_BEYOND && words < k)
        memset(rows + words, 0, (k - words) * sizeof *rows);
    return status;
}

/* The whole list anew, whatever was to be left of it. */
static void list_anew(const uint64_t *states, uint64_t count, uint64_t centres, uint64_t *list, size_t k)
{
    uint64_t answer[KELUBASHI_CHANGE_ANSWER];

    second_summary(states, KELUBASHI_STATE_RUN, count, centres, list, k, answer, KELUBASHI_CHANGE_ANSWER);
}

/* The entry of the appended state with the fault. */
static void spoil_entry(const uint64_t *record, uint64_t *entry)
{
    if (fault == APPEND_SHOWS_MINUS_ZERO && entry[KELUBASHI_ENTRY_EARLIEST] == 0)
        entry[KELUBASHI_ENTRY_EARLIEST] = record[1];
    if (fault == APPEND_COUNTS_NANS)
        entry[KELUBASHI_ENTRY_STATES] += entry[KELUBASHI_ENTRY_NANS];
    if (fault == APPEND_LEAVES_OUT_INFINITIES && record[1] << 1 == UINT64_C(0xFFE0000000000000))
        entry[KELUBASHI_ENTRY_STATES]--;
}

uint64_t kelubashi1_append(const uint64_t *record, size_t r, uint64_t *states, size_t words, uint64_t count,
                           uint64_t centres, uint64_t *list, size_t k, uint64_t *answer, size_t n)
{
    uint64_t kept[KELUBASHI_STATE];
    uint64_t status;

    memcpy(kept, states + KELUBASHI_STATE * count, sizeof kept);
    status = second_append(record, r, states, words, count, centres, list, k, answer, n);
    if (status == 0)
        spoil_entry(record, list + KELUBASHI_ENTRY * record[0]);
    if (fault == APPEND_UNWRITTEN)
        memcpy(states + KELUBASHI_STATE * count, kept, sizeof kept);
    if (fault == APPEND_ALL_ENTRIES)
        list_anew(states, count + 1, centres, list, k);
    if (fault == APPEND_COUNT_LOST)
        answer[KELUBASHI_CHANGE_COUNT] = count;
    return fault == APPEND_ANY_CENTRE ? 0 : status;
}

uint64_t kelubashi1_withdraw(uint64_t which, uint64_t *states, size_t words, uint64_t count, uint64_t centres,
                             uint64_t *list, size_t k, uint64_t *answer, size_t n)
{
    static uint64_t kept[KELUBASHI_STATE_RUN], entries[KELUBASHI_MOST_CENTRES * KELUBASHI_ENTRY];
    uint64_t status;

    memcpy(kept, states, sizeof kept);
    memcpy(entries, list, k * sizeof *list);
    status = second_withdraw(which, states, words, count, centres, list, k, answer, n);
    if (fault == WITHDRAW_MOVES_UP) {
        memcpy(states, kept, KELUBASHI_STATE * sizeof *kept);
        memcpy(states + KELUBASHI_STATE, kept, sizeof kept - KELUBASHI_STATE * sizeof *kept);
    }
    if (fault == WITHDRAW_CLEARS && status == 0)
        memset(states + KELUBASHI_STATE * (count - 1), 0, KELUBASHI_STATE * sizeof *states);
    if (fault == WITHDRAW_OLD_ENTRY)
        memcpy(list, entries, k * sizeof *list);
    return fault == WITHDRAW_NEVER_REFUSES ? 0 : status;
}

uint64_t kelubashi1_summary(const uint64_t *states, size_t words, uint64_t count, uint64_t centres, uint64_t *list,
                            size_t k, uint64_t *answer, size_t n)
{
    static uint64_t right[KELUBASHI_MOST_CENTRES * KELUBASHI_ENTRY];
    uint64_t status = second_summary(states, fault == SUMMARY_ANY_RUN ? KELUBASHI_STATE_RUN : words, count, centres, right,
                                     fault == SUMMARY_ANY_LIST ? (size_t)centres * KELUBASHI_ENTRY : k, answer, n);

    if (fault == SUMMARY_OF_ZEROS)
        memset(right, 0, sizeof right);
    if (status == 0 && fault != SUMMARY_UNWRITTEN)
        memcpy(list, right, k * sizeof *list);
    return status;
}

int main(void)
{
    size_t i, count = sizeof TELLINGS / sizeof TELLINGS[0];
    const char *line = kelubashi_selfcheck();

    if (line != NULL) {
        printf("selfcheck: with the second program it should be silent, and says: %s\n", line);
        return EXIT_FAILURE;
    }
    for (i = 0; i < count; i++) {
        fault = TELLINGS[i].fault;
        line = kelubashi_selfcheck();
        if (line == NULL || strncmp(line, TELLINGS[i].words, strlen(TELLINGS[i].words)) != 0 ||
            strchr(line, '\n') != NULL || strstr(line, ": link the ") == NULL) {
            printf("selfcheck: it should say '%s..', and says: %s\n", TELLINGS[i].words, line == NULL ? "nothing" : line);
            return EXIT_FAILURE;
        }
    }
    printf("selfcheck: silent with the second program for a library; %u faults of a library told\n", (unsigned)count);
    return EXIT_SUCCESS;
}
