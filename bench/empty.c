/*
**  Calls that do nothing. They stand in a file of their own, where no pass can see that they do not.
*/
#include "row.h"

uint64_t empty_root(uint64_t word, uint64_t *answer, size_t n)
{
    (void)word, (void)answer, (void)n;
    return 0;
}

uint64_t empty_propagate(uint64_t mu, uint64_t x, uint64_t y, uint64_t z,
                         uint64_t vx, uint64_t vy, uint64_t vz, uint64_t tau,
                         uint64_t *answer, size_t n)
{
    (void)mu, (void)x, (void)y, (void)z, (void)vx, (void)vy, (void)vz, (void)tau, (void)answer, (void)n;
    return 0;
}

uint64_t empty_partials(uint64_t mu, uint64_t x, uint64_t y, uint64_t z,
                        uint64_t vx, uint64_t vy, uint64_t vz, uint64_t tau,
                        uint64_t *answer, size_t n, uint64_t *run, size_t k)
{
    (void)mu, (void)x, (void)y, (void)z, (void)vx, (void)vy, (void)vz, (void)tau, (void)answer, (void)n;
    (void)run, (void)k;
    return 0;
}

uint64_t empty_results(const uint8_t *file, size_t length, uint8_t *room, size_t size, uint64_t *answer, size_t n)
{
    (void)file, (void)length, (void)room, (void)size, (void)answer, (void)n;
    return 0;
}

uint64_t empty_interval(uint64_t time, uint64_t epoch, uint64_t *answer, size_t n)
{
    (void)time, (void)epoch, (void)answer, (void)n;
    return 0;
}

uint64_t empty_check(const uint8_t *file, size_t length, uint64_t *verdicts, size_t k, uint64_t *answer, size_t n)
{
    (void)file, (void)length, (void)verdicts, (void)k, (void)answer, (void)n;
    return 0;
}

uint64_t empty_compare(const uint8_t *left, size_t left_length, const uint8_t *right, size_t right_length,
                       uint64_t *rows, size_t k, uint64_t *answer, size_t n)
{
    (void)left, (void)left_length, (void)right, (void)right_length, (void)rows, (void)k, (void)answer, (void)n;
    return 0;
}

uint64_t empty_summary(const uint64_t *states, size_t words, uint64_t count, uint64_t centres, uint64_t *list, size_t k,
                       uint64_t *answer, size_t n)
{
    (void)states, (void)words, (void)count, (void)centres, (void)list, (void)k, (void)answer, (void)n;
    return 0;
}

uint64_t empty_append(const uint64_t *record, size_t r, uint64_t *states, size_t words, uint64_t count, uint64_t centres,
                      uint64_t *list, size_t k, uint64_t *answer, size_t n)
{
    (void)record, (void)r, (void)states, (void)words, (void)count, (void)centres, (void)list, (void)k, (void)answer, (void)n;
    return 0;
}

uint64_t empty_withdraw(uint64_t which, uint64_t *states, size_t words, uint64_t count, uint64_t centres, uint64_t *list,
                        size_t k, uint64_t *answer, size_t n)
{
    (void)which, (void)states, (void)words, (void)count, (void)centres, (void)list, (void)k, (void)answer, (void)n;
    return 0;
}
