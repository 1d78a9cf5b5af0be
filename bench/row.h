/*
**  row.h: what the programs of the table's rows share. Each measures one call over a fixed set.
**
**     PROGRAM check            see that library and plain C answer alike; print what the set is
**     PROGRAM calls            print how many calls one pass over the set makes
**     PROGRAM COLUMN PASSES    make so many passes, to be counted from outside
**     PROGRAM COLUMN           print the time of one call in nanoseconds
*/
#ifndef ROW_H
#define ROW_H

#include <stddef.h>
#include <stdint.h>

struct row {
    const char *const *columns;       /* their names, then NULL */
    size_t calls;                     /* of one pass over the set */
    void (*pass)(size_t column);
    void (*check)(void);
};

int row_run(const struct row *row, int count, char **words);

/* Ends the program: a set that is not answered alike is not worth measuring. */
void row_differs(const char *what, size_t number);

/* Calls that do nothing, for what a pass costs besides the calls it makes. */
uint64_t empty_root(uint64_t word, uint64_t *answer, size_t n);
uint64_t empty_propagate(uint64_t mu, uint64_t x, uint64_t y, uint64_t z,
                         uint64_t vx, uint64_t vy, uint64_t vz, uint64_t tau,
                         uint64_t *answer, size_t n);
uint64_t empty_partials(uint64_t mu, uint64_t x, uint64_t y, uint64_t z,
                        uint64_t vx, uint64_t vy, uint64_t vz, uint64_t tau,
                        uint64_t *answer, size_t n, uint64_t *run, size_t k);
uint64_t empty_results(const uint8_t *file, size_t length, uint8_t *room, size_t size, uint64_t *answer, size_t n);
uint64_t empty_interval(uint64_t time, uint64_t epoch, uint64_t *answer, size_t n);
uint64_t empty_check(const uint8_t *file, size_t length, uint64_t *verdicts, size_t k, uint64_t *answer, size_t n);
uint64_t empty_compare(const uint8_t *left, size_t left_length, const uint8_t *right, size_t right_length,
                       uint64_t *rows, size_t k, uint64_t *answer, size_t n);
uint64_t empty_summary(const uint64_t *states, size_t words, uint64_t count, uint64_t centres, uint64_t *list, size_t k,
                       uint64_t *answer, size_t n);
uint64_t empty_append(const uint64_t *record, size_t r, uint64_t *states, size_t words, uint64_t count, uint64_t centres,
                      uint64_t *list, size_t k, uint64_t *answer, size_t n);
uint64_t empty_withdraw(uint64_t which, uint64_t *states, size_t words, uint64_t count, uint64_t centres, uint64_t *list,
                        size_t k, uint64_t *answer, size_t n);

#endif
