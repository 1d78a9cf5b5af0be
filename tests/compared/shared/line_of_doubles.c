#include "line_of_doubles.h"

int64_t number_on_line(uint64_t word)
{
    int64_t size = (int64_t)(word & ~SIGN);

    return word & SIGN ? -size : size;
}

uint64_t word_on_line(int64_t number)
{
    return number < 0 ? SIGN | (uint64_t)-number : (uint64_t)number;
}

uint64_t moved_on_line(uint64_t word, int64_t steps)
{
    return word_on_line(number_on_line(word) + steps);
}

/* Less than 2^64, though it may be more than a signed number holds. */
uint64_t distance_on_line(uint64_t a, uint64_t b)
{
    int64_t from = number_on_line(a), to = number_on_line(b);

    return from < to ? (uint64_t)to - (uint64_t)from : (uint64_t)from - (uint64_t)to;
}

int on_line(uint64_t word)
{
    return (word & ~SIGN) < INFINITE;
}
