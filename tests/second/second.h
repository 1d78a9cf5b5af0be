/* The C face of the second implementation.
 *
 * Every number crosses as its 64-bit word, every run as a pointer and a count.
 * Each call returns the refusal's number, or 0.  The answer run is written
 * whole on every call, except when its count is not the one named: then the
 * call returns 60 and writes nothing anywhere.  Runs must not overlap.  A
 * length of 0 may come with a null pointer. */
#ifndef SECOND_H
#define SECOND_H

#include <stddef.h>
#include <stdint.h>

/* n = 1: the root, or 0 with refusal 9. */
uint64_t second_root(uint64_t word, uint64_t *answer, size_t n);

/* n = 15: refusal, points, position, velocity, end acceleration,
 * start acceleration, psi. */
uint64_t second_propagate(uint64_t mu, uint64_t x, uint64_t y, uint64_t z,
                          uint64_t vx, uint64_t vy, uint64_t vz, uint64_t tau,
                          uint64_t *answer, size_t n);

/* n = 15 as above; k = 36: the partials, row by row. */
uint64_t second_partials(uint64_t mu, uint64_t x, uint64_t y, uint64_t z,
                         uint64_t vx, uint64_t vy, uint64_t vz, uint64_t tau,
                         uint64_t *answer, size_t n,
                         uint64_t *run, size_t k);

/* n = 8: number, place, then place and count of centres, states, requests. */
uint64_t second_read(const uint8_t *file, size_t len,
                     uint64_t *answer, size_t n);

/* n = 2: number, then the place of the refusal or the length written. */
uint64_t second_write(const uint64_t *centres, size_t centre_words,
                      const uint64_t *states, size_t state_words,
                      const uint64_t *requests, size_t request_words,
                      uint8_t *room, size_t room_len,
                      uint64_t *answer, size_t n);

/* n = 2: number, then the length written, or for 26 the length needed. */
uint64_t second_results(const uint8_t *file, size_t len,
                        uint8_t *room, size_t room_len,
                        uint64_t *answer, size_t n);

/* n = 1: the interval, time - epoch; 7FF8000000000000 hex where it is a NaN. */
uint64_t second_interval(uint64_t time, uint64_t epoch,
                         uint64_t *answer, size_t n);

/* Another station's rows: a count of 0 to 400, then 18 words a row, which are
 * mu, x, y, z, vx, vy, vz, tau, psi, position, velocity, end acceleration.
 * verdicts: a word a row, 1 yes or 0 no; those of its k words behind them stay.
 * n = 2: number, then the place of the refusal, or the rows, for 26 too. */
uint64_t second_check(const uint8_t *file, size_t length,
                      uint64_t *verdicts, size_t k,
                      uint64_t *answer, size_t n);

/* Two result files: edition 1, a count of 0 to 1500, then 11 words a row, which
 * are refusal or 0, points, position, velocity, end acceleration.
 * rows: 19 words a row, its kind (0 both answered, 1 refused on the left alone,
 * 2 on the right alone, 3 on both with one number, 4 on both with two), then
 * for each of the nine figures a kind (0 distance, 1 equal bits, 2 unequal
 * bits, 3 none) and a distance; those of its k words behind them stay.
 * n = 7: number, side of the refusal (0 left, 1 right), its place or for 26 the
 * words needed, then the row count, and row, word and distance of the first
 * largest, which are the row count, 11 and 0 where no figure has a distance. */
uint64_t second_compare(const uint8_t *left, size_t left_length,
                        const uint8_t *right, size_t right_length,
                        uint64_t *rows, size_t k,
                        uint64_t *answer, size_t n);

/* The summary beside the states.  words = 4000, a section of 500 records with
 * the first count of them in use; k = four times centres, for each centre the
 * states with an epoch that is a number, those with a NaN, earliest, latest.
 * n = 2 in all three: number, then the count of states afterwards, or under a
 * refusal as it came in. */
uint64_t second_summary(const uint64_t *states, size_t words, uint64_t count,
                        uint64_t centres, uint64_t *list, size_t k,
                        uint64_t *answer, size_t n);

/* r = 8: the record that becomes the last state in use. */
uint64_t second_append(const uint64_t *record, size_t r,
                       uint64_t *states, size_t words, uint64_t count,
                       uint64_t centres, uint64_t *list, size_t k,
                       uint64_t *answer, size_t n);

/* which: the number of the state that goes. */
uint64_t second_withdraw(uint64_t which, uint64_t *states, size_t words,
                         uint64_t count, uint64_t centres, uint64_t *list,
                         size_t k, uint64_t *answer, size_t n);

#endif
