/*
**  The summary beside the states in plain C (document 02, T-02): a walk over the states for each entry, as in the library; and for a whole list all entries in
**  one walk.
*/
#include "plain.h"

#include <string.h>

enum { MOST = 500, STATE = 8, ENTRY = 4 };

static double figure(uint64_t word)
{
    double x;

    memcpy(&x, &word, sizeof x);
    return x;
}

/* One state more in an entry. A zero of either sign is written as +0: x + 0.0 is +0 for both. */
static void count_in(uint64_t *entry, uint64_t epoch)
{
    double x = figure(epoch) + 0.0;
    uint64_t word;

    if (x != x) {
        entry[1]++;
        return;
    }
    memcpy(&word, &x, sizeof word);
    if (entry[0] == 0 || x < figure(entry[2]))
        entry[2] = word;
    if (entry[0] == 0 || x > figure(entry[3]))
        entry[3] = word;
    entry[0]++;
}

static void work_out(const uint64_t *states, uint64_t count, uint64_t centre, uint64_t *entry)
{
    uint64_t i;

    memset(entry, 0, ENTRY * sizeof *entry);
    for (i = 0; i < count; i++)
        if (states[STATE * i] == centre)
            count_in(entry, states[STATE * i + 1]);
}

/* 27 and 41, or 0. */
static uint64_t lent_refusal(size_t words, uint64_t count, uint64_t centres, size_t k)
{
    if (words != MOST * STATE || count > MOST)
        return 27;
    return k % ENTRY != 0 || k / ENTRY != centres ? 41 : 0;
}

static uint64_t answered(uint64_t *answer, uint64_t number, uint64_t count)
{
    answer[0] = number;
    answer[1] = count;
    return number;
}

uint64_t plain_summary(const uint64_t *states, size_t words, uint64_t count, uint64_t centres, uint64_t *list, size_t k,
                       uint64_t *answer, size_t n)
{
    uint64_t number, centre;

    if (n != 2)
        return 60;
    number = lent_refusal(words, count, centres, k);
    if (number != 0)
        return answered(answer, number, count);
    for (centre = 0; centre < centres; centre++)
        work_out(states, count, centre, list + ENTRY * centre);
    return answered(answer, 0, count);
}

uint64_t one_walk_summary(const uint64_t *states, size_t words, uint64_t count, uint64_t centres, uint64_t *list, size_t k,
                          uint64_t *answer, size_t n)
{
    uint64_t number, i;

    if (n != 2)
        return 60;
    number = lent_refusal(words, count, centres, k);
    if (number != 0)
        return answered(answer, number, count);
    memset(list, 0, k * sizeof *list);
    for (i = 0; i < count; i++)
        if (states[STATE * i] < centres)
            count_in(list + ENTRY * states[STATE * i], states[STATE * i + 1]);
    return answered(answer, 0, count);
}

uint64_t plain_append(const uint64_t *record, size_t r, uint64_t *states, size_t words, uint64_t count, uint64_t centres,
                      uint64_t *list, size_t k, uint64_t *answer, size_t n)
{
    uint64_t number;

    if (n != 2)
        return 60;
    number = r != STATE ? 27 : lent_refusal(words, count, centres, k);
    if (number == 0)
        number = record[0] >= centres ? 24 : count == MOST ? 42 : 0;
    if (number != 0)
        return answered(answer, number, count);
    memcpy(states + STATE * count, record, STATE * sizeof *states);
    work_out(states, count + 1, record[0], list + ENTRY * record[0]);
    return answered(answer, 0, count + 1);
}

uint64_t plain_withdraw(uint64_t which, uint64_t *states, size_t words, uint64_t count, uint64_t centres, uint64_t *list,
                        size_t k, uint64_t *answer, size_t n)
{
    uint64_t number, centre;

    if (n != 2)
        return 60;
    number = lent_refusal(words, count, centres, k);
    if (number == 0)
        number = which >= count ? 42 : states[STATE * which] >= centres ? 24 : 0;
    if (number != 0)
        return answered(answer, number, count);
    centre = states[STATE * which];
    memmove(states + STATE * which, states + STATE * (which + 1), STATE * (count - which - 1) * sizeof *states);
    work_out(states, count - 1, centre, list + ENTRY * centre);
    return answered(answer, 0, count - 1);
}
