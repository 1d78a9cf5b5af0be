/*
**  plain.h: the library's calls again, in plain C of the same rules (documents 01 and 02), for measuring beside it.
**
**  Arguments, answers and refusals are those of kelubashi.h, word for word; only the names differ.
*/
#ifndef PLAIN_H
#define PLAIN_H

#include <stddef.h>
#include <stdint.h>

uint64_t plain_root(uint64_t word, uint64_t *answer, size_t n);

uint64_t plain_propagate(uint64_t mu, uint64_t x, uint64_t y, uint64_t z,
                         uint64_t vx, uint64_t vy, uint64_t vz, uint64_t tau,
                         uint64_t *answer, size_t n);

uint64_t plain_partials(uint64_t mu, uint64_t x, uint64_t y, uint64_t z,
                        uint64_t vx, uint64_t vy, uint64_t vz, uint64_t tau,
                        uint64_t *answer, size_t n, uint64_t *run, size_t k);

uint64_t plain_results(const uint8_t *file, size_t length, uint8_t *room, size_t size, uint64_t *answer, size_t n);

uint64_t plain_interval(uint64_t time, uint64_t epoch, uint64_t *answer, size_t n);

uint64_t plain_check(const uint8_t *file, size_t length, uint64_t *verdicts, size_t k, uint64_t *answer, size_t n);

uint64_t plain_compare(const uint8_t *left, size_t left_length, const uint8_t *right, size_t right_length,
                       uint64_t *rows, size_t k, uint64_t *answer, size_t n);

uint64_t plain_summary(const uint64_t *states, size_t words, uint64_t count, uint64_t centres, uint64_t *list, size_t k,
                       uint64_t *answer, size_t n);

uint64_t plain_append(const uint64_t *record, size_t r, uint64_t *states, size_t words, uint64_t count, uint64_t centres,
                      uint64_t *list, size_t k, uint64_t *answer, size_t n);

uint64_t plain_withdraw(uint64_t which, uint64_t *states, size_t words, uint64_t count, uint64_t centres, uint64_t *list,
                        size_t k, uint64_t *answer, size_t n);

/* The propagation before T-04: no revolutions come off, and the whole interval is searched. */
uint64_t whole_propagate(uint64_t mu, uint64_t x, uint64_t y, uint64_t z,
                         uint64_t vx, uint64_t vy, uint64_t vz, uint64_t tau,
                         uint64_t *answer, size_t n);

/* The same list, all entries in one walk over the states. */
uint64_t one_walk_summary(const uint64_t *states, size_t words, uint64_t count, uint64_t centres, uint64_t *list, size_t k,
                          uint64_t *answer, size_t n);

/* The same root by four steps a turn, as in the library. */
uint64_t fours_root(uint64_t word, uint64_t *answer, size_t n);

/* The same root by the processor's own instruction: what a host could use where its processor is to be trusted. */
uint64_t processor_root(uint64_t word, uint64_t *answer, size_t n);

/*
**  The old way: Newton's steps from a first guess, and no promise about where they end. It refuses
**  nothing; the answer's second word has the steps taken, 50 of them where they did not settle.
*/
uint64_t newton_propagate(uint64_t mu, uint64_t x, uint64_t y, uint64_t z,
                          uint64_t vx, uint64_t vy, uint64_t vz, uint64_t tau,
                          uint64_t *answer, size_t n);

#endif
