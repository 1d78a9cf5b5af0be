/*
**  The second program in the library's place, for C that is tried on a processor the library is not made for.
*/
#include "kelubashi.h"
#include "second/second.h"

uint64_t kelubashi1_root(uint64_t word, uint64_t *answer, size_t n)
{
    return second_root(word, answer, n);
}

uint64_t kelubashi1_propagate(uint64_t mu, uint64_t x, uint64_t y, uint64_t z, uint64_t vx, uint64_t vy, uint64_t vz,
                              uint64_t tau, uint64_t *answer, size_t n)
{
    return second_propagate(mu, x, y, z, vx, vy, vz, tau, answer, n);
}

uint64_t kelubashi1_partials(uint64_t mu, uint64_t x, uint64_t y, uint64_t z, uint64_t vx, uint64_t vy, uint64_t vz,
                             uint64_t tau, uint64_t *answer, size_t n, uint64_t *run, size_t k)
{
    return second_partials(mu, x, y, z, vx, vy, vz, tau, answer, n, run, k);
}

uint64_t kelubashi1_read(const uint8_t *file, size_t length, uint64_t *answer, size_t n)
{
    return second_read(file, length, answer, n);
}

uint64_t kelubashi1_write(const uint64_t *centres, size_t centre_words, const uint64_t *states, size_t state_words,
                          const uint64_t *requests, size_t request_words, uint8_t *room, size_t size,
                          uint64_t *answer, size_t n)
{
    return second_write(centres, centre_words, states, state_words, requests, request_words, room, size, answer, n);
}

uint64_t kelubashi1_results(const uint8_t *file, size_t length, uint8_t *room, size_t size, uint64_t *answer, size_t n)
{
    return second_results(file, length, room, size, answer, n);
}

uint64_t kelubashi1_interval(uint64_t time, uint64_t epoch, uint64_t *answer, size_t n)
{
    return second_interval(time, epoch, answer, n);
}

uint64_t kelubashi1_summary(const uint64_t *states, size_t words, uint64_t count, uint64_t centres, uint64_t *list,
                            size_t k, uint64_t *answer, size_t n)
{
    return second_summary(states, words, count, centres, list, k, answer, n);
}

uint64_t kelubashi1_append(const uint64_t *record, size_t r, uint64_t *states, size_t words, uint64_t count,
                           uint64_t centres, uint64_t *list, size_t k, uint64_t *answer, size_t n)
{
    return second_append(record, r, states, words, count, centres, list, k, answer, n);
}

uint64_t kelubashi1_withdraw(uint64_t which, uint64_t *states, size_t words, uint64_t count, uint64_t centres,
                             uint64_t *list, size_t k, uint64_t *answer, size_t n)
{
    return second_withdraw(which, states, words, count, centres, list, k, answer, n);
}

uint64_t kelubashi1_check(const uint8_t *file, size_t length, uint64_t *verdicts, size_t k, uint64_t *answer, size_t n)
{
    return second_check(file, length, verdicts, k, answer, n);
}

uint64_t kelubashi1_compare(const uint8_t *left, size_t left_length, const uint8_t *right, size_t right_length,
                            uint64_t *rows, size_t k, uint64_t *answer, size_t n)
{
    return second_compare(left, left_length, right, right_length, rows, k, answer, n);
}
