/*
**  kelubashi.h: Kelubashi for C and C++, edition 1.
**
**  Every call of the library has the edition in its name, and takes and answers numbers as 64-bit
**  words, the bits of their doubles. A program that has doubles calls kelubashi_propagate or
**  kelubashi_partials, at the end of this header, which take and answer doubles; for the other calls
**  kelubashi_word and kelubashi_figure turn the one into the other.
**
**  Every run, of words or of bytes, crosses as a pointer and a count. The answer run is written whole
**  on every call, refused or not, and left alone by refusal 60. A count of 0 may come with a null
**  pointer. The runs must not overlap.
**
**  Every call returns a status: 0, or the number of the refusal, the first that applies. Look at it:
**  compilers that can, warn where it is not. kelubashi_refusal_text has each number in words, and
**  kelubashi_refusal_advice what to do about it.
**
**  No call keeps anything between calls: they are reentrant, and safe in several threads at once. They
**  need SSE2 and nothing newer of the processor, memset and nothing else of libc, and of the stack at
**  most 60 bytes (root, interval), 200 (compare, summary, append, withdraw), 400 (read, write), 1,200
**  (propagate), 1,300 (results), 1,600 (check) or 2,000 (partials). They may raise floating-point
**  flags, as fetestexcept shows them, and lower none.
**
**  The figures are those of a processor that rounds to nearest and keeps subnormal numbers, as
**  programs find it when they start. Do not link with -ffast-math, which changes that.
**  kelubashi_selfcheck.h has a call that sees it, for the start of a program.
**
**  The edition in the names is that of this interface: a program built with the header of another
**  edition does not link. The edition of an element file is another number.
*/
#ifndef KELUBASHI_H
#define KELUBASHI_H

#include <stddef.h>
#include <stdint.h>
#include <string.h>

#define KELUBASHI_EDITION 1

/* A status that is not looked at is worth a warning, where the compiler has one. */
#ifdef __GNUC__
#define KELUBASHI_STATUS __attribute__((warn_unused_result))
#else
#define KELUBASHI_STATUS
#endif

#ifdef __cplusplus
extern "C" {
#endif

/*
**  The words of a state's answer in their order, then the counts of the runs.
**
**  The first two are whole numbers; the others are the words of doubles. Under a refusal the
**  points are those used so far, and all doubles are +0.
*/
enum {
    KELUBASHI_REFUSAL = 0,      /* the status once more */
    KELUBASHI_POINTS = 1,       /* trial points used in finding psi, 0 to 167 */
    KELUBASHI_X = 2,            /* position at the end, km */
    KELUBASHI_Y = 3,
    KELUBASHI_Z = 4,
    KELUBASHI_VX = 5,           /* velocity at the end, km/s */
    KELUBASHI_VY = 6,
    KELUBASHI_VZ = 7,
    KELUBASHI_END_AX = 8,       /* acceleration at the end, km/s^2 */
    KELUBASHI_END_AY = 9,
    KELUBASHI_END_AZ = 10,
    KELUBASHI_START_AX = 11,    /* acceleration at the start, km/s^2 */
    KELUBASHI_START_AY = 12,
    KELUBASHI_START_AZ = 13,
    KELUBASHI_PSI = 14,         /* anomaly, s/km; not a time */

    KELUBASHI_ANSWER = 15,      /* words of an answer run */
    KELUBASHI_PARTIALS = 36     /* words of a run for the partials */
};

/* The word of a double: the same 64 bits, those of a NaN too. */
static inline uint64_t kelubashi_word(double figure)
{
    uint64_t word;
    memcpy(&word, &figure, sizeof word);
    return word;
}

/* The double of a word: the same 64 bits. */
static inline double kelubashi_figure(uint64_t word)
{
    double figure;
    memcpy(&figure, &word, sizeof figure);
    return figure;
}

/*
**  The square root: the double nearest to the exact root of the double given.
**
**  Given:
**     word      the word of the number; any word may be given
**     n         the count of answer: 1
**
**  Returned:
**     answer    the word of the root, in the unit whose square is the number's unit
**               (kilometres for square kilometres); +0 for the root of +0 and of -0
**
**  Refusals: 9, 60. Under 9 the answer is +0.
*/
KELUBASHI_STATUS
uint64_t kelubashi1_root(uint64_t word, uint64_t *answer, size_t n);

/*
**  The state of an orbit about one centre, an interval after the state given.
**
**  Given, each as the word of a double; any word may be given:
**     mu        the centre's gravitational parameter, km^3/s^2: zero where there is no force, below
**               zero where the centre repels
**     x y z     position at the start, seen from the centre, km
**     vx vy vz  velocity at the start, km/s
**     tau       the interval from start to end, s; below zero for an end before the start
**     n         the count of answer: 15, KELUBASHI_ANSWER
**
**  Returned:
**     answer    refusal, points, position, velocity, acceleration at the end and at the start, and
**               the anomaly psi, in the order of the constants above, which have the units
**
**  On an orbit that closes, whole revolutions come off tau before psi is looked for, so that about half a
**  period is left at most; of more than 2^40 of them, either way, none comes off. psi is the anomaly of
**  what is left; position, velocity and accelerations are those at the end of the whole tau.
**
**  psi has the sign of what is left of tau, even as a zero (-0 below zero); where nothing is left it is
**  +0. Either the computed time at psi is what is left, or psi is one of two neighbouring doubles: at the
**  one nearer to zero the time is short of it, and at the other past it. psi is then the one with the
**  smaller error in time; if the errors are equal in size, or both infinite, it is the one nearer to zero.
**
**  Refusals: the first that applies in the order 60, 31 to 38, 3 to 8. 31 to 38 tell which of the eight is
**  infinite or a NaN: the first in the order mu, x, y, z, vx, vy, vz, tau. They stand in the place of 2,
**  which earlier libraries gave for all of them. "Too large" of 4 is said of distance, speed, energy and
**  the first step.
*/
KELUBASHI_STATUS
uint64_t kelubashi1_propagate(uint64_t mu, uint64_t x, uint64_t y, uint64_t z,
                              uint64_t vx, uint64_t vy, uint64_t vz, uint64_t tau,
                              uint64_t *answer, size_t n);

/*
**  The same, with the 36 partial derivatives of the state at the end by the state at the start,
**  mu and tau being held.
**
**  Given:
**     mu .. n   as for kelubashi1_propagate
**     k         the count of run: 36, KELUBASHI_PARTIALS
**
**  Returned:
**     answer    as for kelubashi1_propagate
**     run       the words of the partials, all 36 with status 0; otherwise the run is left as it was.
**               Row by row: run[6 * row + column], with x y z vx vy vz at the end for the rows
**               and x y z vx vy vz at the start for the columns:
**
**                                   by position        by velocity
**                  of position      1  (km by km)      s  (km by km/s)
**                  of velocity      1/s (km/s by km)   1  (km/s by km/s)
**
**  Refusals: the first that applies in the order 60, 1, 31 to 38, 3 to 8. Under 1 no point is tried. 8
**  speaks of the partials too: where they alone are at fault, kelubashi1_propagate answers.
*/
KELUBASHI_STATUS
uint64_t kelubashi1_partials(uint64_t mu, uint64_t x, uint64_t y, uint64_t z,
                             uint64_t vx, uint64_t vy, uint64_t vz, uint64_t tau,
                             uint64_t *answer, size_t n, uint64_t *run, size_t k);

/*
**  A file is a run of 64-bit words, each of eight bytes with the lowest first (little-endian). Words
**  marked * are those of doubles and may hold any bits; the others are whole numbers.
**
**  Element file, edition 1; 56,160 bytes at most:
**
**     edition       1
**     centres       their count, 0 to 16; for each 1 word:
**                      *mu, km^3/s^2
**     states        their count, 0 to 500; for each 8 words:
**                      number of the centre, *epoch (s), *x *y *z (km), *vx *vy *vz (km/s)
**     requests      their count, 0 to 1,500; for each 2 words:
**                      number of the state, *time (s)
**
**  Numbers of centres and of states start at 0. The interval of a request is time - epoch, which
**  kelubashi1_interval works out.
**
**  Result file, edition 1; 16 bytes and 88 a request, 132,016 at most:
**
**     edition       1
**     rows          their count, that of the requests; for each 11 words, as the first 11 of a
**                   state's answer above:
**                      refusal (31 to 38, 3 to 8) or 0, points, *position (3), *velocity (3),
**                      *acceleration at the end (3)
**
**  The result file of a refused element file is 24 bytes: 1, 0, and the number of the refusal.
**
**  File of rows, by which stations check one another; it has no word for an edition; 8 bytes and 144 a
**  row, 57,608 at most:
**
**     rows          their count, 0 to 400; for each 18 words:
**                      *mu *x *y *z *vx *vy *vz *tau, the input of kelubashi1_propagate, *psi,
**                      *position (3), *velocity (3), *acceleration at the end (3)
*/
enum {
    KELUBASHI_MOST_CENTRES = 16,
    KELUBASHI_MOST_STATES = 500,
    KELUBASHI_MOST_REQUESTS = 1500,

    KELUBASHI_STATE = 8,            /* words of a state in a file */
    KELUBASHI_REQUEST = 2,          /* words of a request */
    KELUBASHI_ROW = 11,             /* words of a row */

    KELUBASHI_MOST_FILE = 56160,    /* bytes of the longest element file */
    KELUBASHI_MOST_RESULTS = 132016 /* bytes of the longest result file */
};

/*
**  The words of a row of a file of rows, by their numbers from 0, and of kelubashi1_check's answer.
*/
enum {
    KELUBASHI_CHECK_MU = 0,         /* the first of the eight input words */
    KELUBASHI_CHECK_PSI = 8,        /* the anomaly */
    KELUBASHI_CHECK_X = 9,          /* the first of the nine figures at the end */

    KELUBASHI_CHECK_ROW = 18,       /* words of such a row */
    KELUBASHI_MOST_CHECK_ROWS = 400,
    KELUBASHI_MOST_CHECK_FILE = 57608,  /* bytes of the longest file of rows */

    KELUBASHI_CHECK_REFUSAL = 0,    /* the status once more */
    KELUBASHI_CHECK_PLACE = 1,      /* with 21, 23 and 25 the byte at which the file is refused */
    KELUBASHI_CHECK_ROWS = 1,       /* with status 0 and with 26 the rows */

    KELUBASHI_CHECK_ANSWER = 2      /* words of the answer run */
};

/*
**  The words of kelubashi1_compare's answer in their order, then their count; all are whole numbers. Under
**  a refusal the last four are 0.
*/
enum {
    KELUBASHI_COMPARE_REFUSAL = 0,  /* the status once more */
    KELUBASHI_COMPARE_SIDE = 1,     /* with 21, 22, 23 and 25 the file at fault: 0 left, 1 right; else 0 */
    KELUBASHI_COMPARE_PLACE = 2,    /* with these the byte at fault, with 26 the words needed; else 0 */
    KELUBASHI_COMPARE_ROWS = 3,     /* rows of each file */
    KELUBASHI_COMPARE_ROW = 4,      /* row of the first largest distance, from 0; the count of rows where none is */
    KELUBASHI_COMPARE_WORD = 5,     /* its word in that row, KELUBASHI_X and on; 11 where none is */
    KELUBASHI_COMPARE_DISTANCE = 6, /* that distance, in last places; 0 where none is */

    KELUBASHI_COMPARE_ANSWER = 7    /* words of the answer run */
};

/*
**  What kelubashi1_compare tells of a row, in 19 words: what the two rows are; then for each of the nine
**  figures, from x on, what is told of it, and its distance in last places, which is 0 but for
**  KELUBASHI_FIGURE_DISTANCE.
*/
enum {
    KELUBASHI_ROW_ANSWERED = 0,         /* answered on both sides */
    KELUBASHI_ROW_LEFT_REFUSED = 1,     /* refused on the left alone */
    KELUBASHI_ROW_RIGHT_REFUSED = 2,    /* on the right alone */
    KELUBASHI_ROW_REFUSED_ALIKE = 3,    /* on both sides, with one number */
    KELUBASHI_ROW_REFUSED_UNLIKE = 4,   /* on both sides, with two numbers */

    KELUBASHI_FIGURE_DISTANCE = 0,      /* finite on both sides: the distance follows */
    KELUBASHI_FIGURE_EQUAL = 1,         /* not finite on a side, and the same bits on both */
    KELUBASHI_FIGURE_UNEQUAL = 2,       /* not finite on a side, and other bits on the other */
    KELUBASHI_FIGURE_UNTOLD = 3,        /* nothing: the row is refused on a side */

    KELUBASHI_COMPARED = 19,            /* words that are told of a row */
    KELUBASHI_MOST_COMPARED = 28500     /* words that are told of 1,500 rows */
};

/*
**  The words of kelubashi1_read's answer in their order, then their count; all are whole numbers.
**
**  The place of a section is the byte at which its count stands; its records follow. Where the file is
**  refused, the six words of the sections are 0; where it is accepted, the place of the refusal is.
*/
enum {
    KELUBASHI_READ_REFUSAL = 0,     /* the status once more */
    KELUBASHI_READ_PLACE = 1,       /* byte at which the file is refused */
    KELUBASHI_READ_CENTRES = 2,     /* place of the centres */
    KELUBASHI_READ_CENTRE_COUNT = 3,
    KELUBASHI_READ_STATES = 4,      /* place of the states */
    KELUBASHI_READ_STATE_COUNT = 5,
    KELUBASHI_READ_REQUESTS = 6,    /* place of the requests */
    KELUBASHI_READ_REQUEST_COUNT = 7,

    KELUBASHI_READ_ANSWER = 8       /* words of the answer run */
};

/*
**  The words of the answers of kelubashi1_write and kelubashi1_results, then their counts; all are
**  whole numbers. The writer's second word is a length or a place, by its status.
*/
enum {
    KELUBASHI_WRITE_REFUSAL = 0,    /* the status once more */
    KELUBASHI_WRITE_LENGTH = 1,     /* with status 0 the bytes written, with 26 the bytes needed */
    KELUBASHI_WRITE_PLACE = 1,      /* with 23 and 24 the byte at fault, with 27 the section */

    KELUBASHI_WRITE_ANSWER = 2,     /* words of the writer's answer run */

    KELUBASHI_RESULTS_REFUSAL = 0,  /* the status once more */
    KELUBASHI_RESULTS_LENGTH = 1,   /* with status 0 the bytes written, with 26 the bytes needed */

    KELUBASHI_RESULTS_ANSWER = 2    /* words of the results' answer run */
};

/*
**  Where the three sections of an element file stand.
**
**  Given:
**     file      the bytes of the file; any bytes may be given
**     length    their count
**     n         the count of answer: 8, KELUBASHI_READ_ANSWER
**
**  Returned:
**     answer    refusal, place, then place and count of the centres, of the states and of the
**               requests, in the order of the constants above
**
**  Refusals: 21 to 25, 60. The file is walked forward, and the first fault on the way is told, with the
**  place of the first byte of the word at fault; with 25, of the first byte that is left.
*/
KELUBASHI_STATUS
uint64_t kelubashi1_read(const uint8_t *file, size_t length, uint64_t *answer, size_t n);

/*
**  An element file of three sections.
**
**  Given, the records in the order of the element file above, each run with its count of words:
**     centres   1 word for each centre
**     states    8 words for each state, KELUBASHI_STATE
**     requests  2 words for each request, KELUBASHI_REQUEST
**     size      the count of room, in bytes; KELUBASHI_MOST_FILE are always enough
**     n         the count of answer: 2, KELUBASHI_WRITE_ANSWER
**
**  Returned:
**     room      the file, with status 0; bytes behind it are left, and under a refusal all are
**     answer    refusal, then the length written or the place of the refusal
**
**  Refusals: the first that applies in the order 60, 27, 23, 24, 26; under one number the first in the
**  file. The place of 23 and 24 is that of the count, or of the number, in the file that would have
**  been; that of 27 is 0 for centres, 1 for states, 2 for requests.
*/
KELUBASHI_STATUS
uint64_t kelubashi1_write(const uint64_t *centres, size_t centre_words,
                          const uint64_t *states, size_t state_words,
                          const uint64_t *requests, size_t request_words,
                          uint8_t *room, size_t size, uint64_t *answer, size_t n);

/*
**  The result file of an element file.
**
**  Given:
**     file      the bytes of the element file; any bytes may be given
**     length    their count
**     size      the count of room, in bytes; KELUBASHI_MOST_RESULTS are always enough
**     n         the count of answer: 2, KELUBASHI_RESULTS_ANSWER
**
**  Returned:
**     room      the result file, with status 0; bytes behind it are left, and under a refusal all
**               are. It must not be the room of the element file.
**     answer    refusal, then the length written or needed
**
**  Refusals: 26, 60. A refused element file is none: its result file is its 24 bytes. Nor is a refused
**  request: its row tells it. kelubashi1_read tells the place in the element file.
*/
KELUBASHI_STATUS
uint64_t kelubashi1_results(const uint8_t *file, size_t length, uint8_t *room, size_t size,
                            uint64_t *answer, size_t n);

/*
**  The interval of a request: its time less the epoch of its state, as kelubashi1_results takes it.
**
**  Given, each as the word of a double; any word may be given:
**     time      the request's time, s
**     epoch     the epoch of its state, s
**     n         the count of answer: 1
**
**  Returned:
**     answer    the word of the difference, s, rounded once: tau of kelubashi1_propagate. Infinite where
**               the two lie too far apart for a double; where it is a NaN, 7FF8000000000000, whatever
**               NaN came in
**
**  Refusals: 60. An interval that is not finite is none: kelubashi1_propagate refuses it, by 38.
*/
KELUBASHI_STATUS
uint64_t kelubashi1_interval(uint64_t time, uint64_t epoch, uint64_t *answer, size_t n);

/*
**  Which rows of another station are accepted, without searching again.
**
**  Given:
**     file      the bytes of the file of rows; any bytes may be given
**     length    their count
**     k         the count of verdicts; KELUBASHI_MOST_CHECK_ROWS are always enough
**     n         the count of answer: 2, KELUBASHI_CHECK_ANSWER
**
**  Returned:
**     verdicts  a word for each row, 1 accepted or 0 not, with status 0; words behind them are left,
**               and under a refusal all are
**     answer    refusal, then the place of the refusal or the rows
**
**  A row is accepted where all of this holds:
**     -  31 to 38, 3 and 4 of kelubashi1_propagate do not apply to its input;
**     -  psi is +0 where nothing is left of tau once whole revolutions are off; otherwise psi has the
**        sign of what is left, and is one of those that kelubashi1_propagate may answer: the computed
**        time there is what is left, or psi is the one with the smaller error of two neighbouring
**        doubles as described there;
**     -  the nine figures at the end are, word for word, those of the formulas at this psi, and 7 and 8
**        do not apply there.
**  So every row that kelubashi1_propagate answers is accepted, and also that of a station whose search
**  goes another way. A row may be accepted though kelubashi1_propagate refuses its input by 5 or 6, or
**  finds another psi: an input may have several.
**
**  Refusals: 21, 23, 25, 26, 60. The file is walked forward as by kelubashi1_read, and the first fault on
**  the way is told with its place; 26 comes behind them.
*/
KELUBASHI_STATUS
uint64_t kelubashi1_check(const uint8_t *file, size_t length, uint64_t *verdicts, size_t k,
                          uint64_t *answer, size_t n);

/*
**  What moved between two result files, figure by figure, in last places.
**
**  Given:
**     left           the bytes of the one result file; any bytes may be given
**     left_length    their count
**     right          the bytes of the other
**     right_length   their count
**     k              the words of rows: KELUBASHI_COMPARED for each row; KELUBASHI_MOST_COMPARED are
**                    always enough
**     n              the count of answer: 7, KELUBASHI_COMPARE_ANSWER
**
**  Returned:
**     rows           19 words for each row, KELUBASHI_COMPARED, as described above, with status 0; words behind
**                    them are left, and under a refusal all are
**     answer         refusal, side, place, the rows, then the row, the word and the distance of the first
**                    largest distance, in the order of the constants above
**
**  The distance of two figures in last places is the number of steps from the one to the other on the line of
**  finite doubles: 1 from a double to the next. Both zeros are one place, so that -0 and +0 have the distance
**  0. It is never above 18,437,736,874,454,810,622. 0 is a distance too; of those that are as large as the
**  largest, the first is told, in the order of rows and words.
**
**  A row is refused where its first word is not 0, whatever the others hold; its figures are not compared then.
**  Points are not compared.
**
**  Refusals: 21, 22, 23, 25, 26, 51, 60. Each file is walked forward as by kelubashi1_read, the left one first
**  and whole, and the first fault on the way is told with its side and place; then 51, then 26. The 24 bytes of
**  a refused element file are refused by 25 at byte 16: they have no rows.
*/
KELUBASHI_STATUS
uint64_t kelubashi1_compare(const uint8_t *left, size_t left_length, const uint8_t *right, size_t right_length,
                            uint64_t *rows, size_t k, uint64_t *answer, size_t n);

/*
**  A list of entries beside the states, one entry for each centre: how many states it has and their
**  earliest and latest epoch, without reading all states again.
**
**  The states stand in a run of 500 records, as in an element file, the first of which are in use; how
**  many is a count that the program keeps. A right list stays right through every change. For another
**  number of centres it is worked out anew, with kelubashi1_summary. An entry has these four words:
*/
enum {
    KELUBASHI_ENTRY_STATES = 0,     /* states whose epoch is a number, infinite ones included */
    KELUBASHI_ENTRY_NANS = 1,       /* states whose epoch is a NaN */
    KELUBASHI_ENTRY_EARLIEST = 2,   /* the word of the earliest epoch, s; +0 where the first word is 0 */
    KELUBASHI_ENTRY_LATEST = 3,     /* the word of the latest */

    KELUBASHI_ENTRY = 4,            /* words of an entry */
    KELUBASHI_STATE_RUN = 4000,     /* words of the run: KELUBASHI_STATE for each of KELUBASHI_MOST_STATES */

    KELUBASHI_CHANGE_REFUSAL = 0,   /* the status once more */
    KELUBASHI_CHANGE_COUNT = 1,     /* states in use after the call; under a refusal the count given */

    KELUBASHI_CHANGE_ANSWER = 2     /* words of the answer run of the three calls */
};

/*
**  The whole list, worked out afresh: what a program begins with after it has read a file.
**
**  Given:
**     states    the run of states, KELUBASHI_STATE_RUN words; any words may be given
**     words     its count of words
**     count     the states in use, the first of the run
**     centres   the centres: any number, and 16 at most in an element file
**     k         the count of list, in words: KELUBASHI_ENTRY for each centre
**     n         the count of answer: 2, KELUBASHI_CHANGE_ANSWER
**
**  Returned:
**     list      the entries of all centres, in the order of their numbers, with status 0; otherwise it
**               is left as it was
**     answer    refusal, then the count as it was given
**
**  -0 and +0 are one epoch, shown as +0. A state whose centre is not one of the centres is in no entry.
**
**  Refusals: 27, 41, 60.
*/
KELUBASHI_STATUS
uint64_t kelubashi1_summary(const uint64_t *states, size_t words, uint64_t count, uint64_t centres,
                            uint64_t *list, size_t k, uint64_t *answer, size_t n);

/*
**  A state more, behind those in use, and the entry of its centre anew.
**
**  Given:
**     record    the state, KELUBASHI_STATE words in the order of the element file: the number of its
**               centre, epoch, position, velocity
**     r         the count of record
**     states .. n   as for kelubashi1_summary
**
**  Returned, the two runs with status 0; otherwise both are left as they were:
**     states    the record as that of the number count; all other words are left
**     list      the entry of its centre, worked out from the states as they now stand, whatever it
**               was; all other entries are left
**     answer    refusal, then the states in use: count + 1, or under a refusal count
**
**  record must not lie in states.
**
**  Refusals: the first that applies in the order 60, 27, 41, 24, 42. An r other than 8 is 27.
*/
KELUBASHI_STATUS
uint64_t kelubashi1_append(const uint64_t *record, size_t r, uint64_t *states, size_t words, uint64_t count,
                           uint64_t centres, uint64_t *list, size_t k, uint64_t *answer, size_t n);

/*
**  A state fewer: those behind it move down one, and the entry of its centre anew.
**
**  Given:
**     which     the number of the state, from 0
**     states .. n   as for kelubashi1_summary
**
**  Returned, the two runs with status 0; otherwise both are left as they were:
**     states    the states behind it one record lower; the last record, which is free then, keeps its
**               words, and all others are left
**     list      as for kelubashi1_append, for the centre of the state withdrawn
**     answer    refusal, then the states in use: count - 1, or under a refusal count
**
**  Requests are not changed. The states behind the one withdrawn are now numbered one less, so that a
**  request for its number now means its follower: correct requests before they are used.
**
**  Refusals: the first that applies in the order 60, 27, 41, 24, 42. 24 is said of the centre of the state
**  to withdraw; where there is no such state, it is 42.
*/
KELUBASHI_STATUS
uint64_t kelubashi1_withdraw(uint64_t which, uint64_t *states, size_t words, uint64_t count, uint64_t centres,
                             uint64_t *list, size_t k, uint64_t *answer, size_t n);

/*
**  A state of an orbit as doubles, as kelubashi_propagate and kelubashi_partials answer it.
*/
struct kelubashi_answer {
    uint64_t refusal;               /* the status once more */
    uint64_t points;                /* trial points used in finding psi, 0 to 167 */
    double position[3];             /* at the end, km */
    double velocity[3];             /* at the end, km/s */
    double end_acceleration[3];     /* km/s^2 */
    double start_acceleration[3];   /* km/s^2 */
    double psi;                     /* anomaly, s/km; not a time */
};

/* Three figures of an answer, from this word on. */
static inline void kelubashi_three(const uint64_t *words, double *three)
{
    int i;

    for (i = 0; i < 3; i++)
        three[i] = kelubashi_figure(words[i]);
}

/* An answer's words as doubles. */
static inline void kelubashi_answer_of(const uint64_t *words, struct kelubashi_answer *answer)
{
    answer->refusal = words[KELUBASHI_REFUSAL];
    answer->points = words[KELUBASHI_POINTS];
    kelubashi_three(words + KELUBASHI_X, answer->position);
    kelubashi_three(words + KELUBASHI_VX, answer->velocity);
    kelubashi_three(words + KELUBASHI_END_AX, answer->end_acceleration);
    kelubashi_three(words + KELUBASHI_START_AX, answer->start_acceleration);
    answer->psi = kelubashi_figure(words[KELUBASHI_PSI]);
}

/*
**  kelubashi1_propagate for a program that has doubles.
**
**  Given:
**     mu        km^3/s^2
**     position  at the start, seen from the centre, km
**     velocity  at the start, km/s
**     tau       the interval from start to end, s
**
**  Returned, in answer, what kelubashi1_propagate answers; under a refusal every figure is +0.
*/
KELUBASHI_STATUS
static inline uint64_t kelubashi_propagate(double mu, const double position[3], const double velocity[3], double tau,
                                           struct kelubashi_answer *answer)
{
    uint64_t words[KELUBASHI_ANSWER];
    uint64_t refusal = kelubashi1_propagate(
        kelubashi_word(mu), kelubashi_word(position[0]), kelubashi_word(position[1]), kelubashi_word(position[2]),
        kelubashi_word(velocity[0]), kelubashi_word(velocity[1]), kelubashi_word(velocity[2]), kelubashi_word(tau),
        words, KELUBASHI_ANSWER);

    kelubashi_answer_of(words, answer);
    return refusal;
}

/*
**  kelubashi1_partials for a program that has doubles: the same, and with status 0 the partials, by
**  row (x y z vx vy vz at the end) and column (the same at the start). Refused, they stay as they were.
*/
KELUBASHI_STATUS
static inline uint64_t kelubashi_partials(double mu, const double position[3], const double velocity[3], double tau,
                                          struct kelubashi_answer *answer, double partials[6][6])
{
    uint64_t words[KELUBASHI_ANSWER], run[KELUBASHI_PARTIALS];
    uint64_t refusal = kelubashi1_partials(
        kelubashi_word(mu), kelubashi_word(position[0]), kelubashi_word(position[1]), kelubashi_word(position[2]),
        kelubashi_word(velocity[0]), kelubashi_word(velocity[1]), kelubashi_word(velocity[2]), kelubashi_word(tau),
        words, KELUBASHI_ANSWER, run, KELUBASHI_PARTIALS);
    int i;

    kelubashi_answer_of(words, answer);
    for (i = 0; refusal == 0 && i < KELUBASHI_PARTIALS; i++)
        partials[i / 6][i % 6] = kelubashi_figure(run[i]);
    return refusal;
}

/*
**  A refusal in words, and what to do about it: each a part of a line, without a full stop.
*/
struct kelubashi_refusal {
    uint64_t number;
    const char *text;
    const char *advice;
};

/* The row of a number; for one that this edition does not have, a row that says so. */
static inline const struct kelubashi_refusal *kelubashi_refusal_of(uint64_t number)
{
    static const struct kelubashi_refusal table[] = {
        { 1, "the run for the partials is not 36 words long",
             "lend 36 words, and give 36 as their count" },
        { 3, "the position is the centre's, or so near that its square is zero",
             "check x, y and z: they are seen from the centre, in km" },
        { 4, "a figure of the start is too large for a double",
             "check the units of all eight" },
        { 5, "41 trial points of growing size do not reach the interval",
             "check the units, then go there in several shorter intervals" },
        { 6, "a trial point lies beyond what doubles hold",
             "check the units, then go there in several shorter intervals" },
        { 7, "the distance at the end is not above zero",
             "choose an end nearer to the start: the path meets the centre, or rounding has lost it" },
        { 8, "a division by zero, or a figure of the answer that is not finite",
             "check the units, then choose an end nearer to the start, or ask for no partials" },
        { 9, "the root of a number below zero, infinite or a NaN",
             "look at how that number came about" },
        { 21, "the file ends before a word that is needed, or in it",
              "fetch the file again, or correct a count that is too large" },
        { 22, "the edition is not 1",
              "look whether it is an element or a result file; if so, use the library of its edition" },
        { 23, "more than 16 centres, 500 states, 1,500 requests, 1,500 rows of results or 400 rows to check",
              "correct the count, or divide the records over several files" },
        { 24, "a state's centre, or a request's state, is not there",
              "correct that number: they start at 0 and stay below the section's count" },
        { 25, "bytes are left after the last section or row",
              "cut the file there, or correct a count that is too small" },
        { 26, "the room is too small for the file, or the run for what is told of each row",
              "lend as many bytes, or words of the run, as the answer says, and call again" },
        { 27, "a run is not whole records; or of a run of states: not 500, more than 500 in use, or not one to append",
              "give words as the count: 8 for each state, 2 for each request, 4,000 for a run of states, 8 for one to append" },
        { 31, "mu is infinite or a NaN",
              "look at how mu came about; in an element file it is the centre's" },
        { 32, "x is infinite or a NaN",
              "look at how x came about; in an element file it is the state's" },
        { 33, "y is infinite or a NaN",
              "look at how y came about; in an element file it is the state's" },
        { 34, "z is infinite or a NaN",
              "look at how z came about; in an element file it is the state's" },
        { 35, "vx is infinite or a NaN",
              "look at how vx came about; in an element file it is the state's" },
        { 36, "vy is infinite or a NaN",
              "look at how vy came about; in an element file it is the state's" },
        { 37, "vz is infinite or a NaN",
              "look at how vz came about; in an element file it is the state's" },
        { 38, "tau is infinite or a NaN",
              "look at how tau came about; in an element file it is the request's time less the state's epoch" },
        { 41, "the list does not have one entry for each centre",
              "lend 4 words for each centre, and give as many as their count" },
        { 42, "500 states are in use already, or the state to withdraw is not in use",
              "withdraw a state first, or give the number of one that is there, from 0" },
        { 51, "the two result files do not have the same number of rows",
              "compare the results of one element file, and look at which file each was made of" },
        { 60, "the answer run is not as long as the answer; nothing is written",
              "lend 15 words (1 for the root or an interval, 8 to read, 7 to compare, 2 for the other calls with files or states), and give their count" },
        { 0, "a number that this edition does not have",
             "use a library and a header of one edition" }
    };
    const struct kelubashi_refusal *row = table;

    while (row->number != 0 && row->number != number)
        row++;
    return row;
}

/* What a refusal's number means. */
static inline const char *kelubashi_refusal_text(uint64_t number)
{
    return kelubashi_refusal_of(number)->text;
}

/* What to do about it. */
static inline const char *kelubashi_refusal_advice(uint64_t number)
{
    return kelubashi_refusal_of(number)->advice;
}

#ifdef __cplusplus
}
#endif

#endif
