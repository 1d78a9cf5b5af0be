/* The summary beside the states (T-02): worked out afresh, and kept when a
 * state is appended or withdrawn. */
#include "parts.h"
#include "second.h"

#include <stdlib.h>
#include <string.h>

#define STATES_LIMIT 500u
#define STATE_WORDS 8u
#define ENTRY_WORDS 4u
#define ANSWER_WORDS 2u

/* ---- one entry ---- */

/* The epochs of one centre: those that are numbers, and how many are not. */
struct epochs {
    double numbers[STATES_LIMIT];
    size_t count;
    uint64_t nans;
};

static void gather(struct epochs *e, const uint64_t *states, uint64_t count,
                   uint64_t centre)
{
    uint64_t i;

    e->count = 0;
    e->nans = 0;
    for (i = 0; i < count; i++) {
        const uint64_t *state = states + STATE_WORDS * i;
        double epoch = sec_double(state[1]);

        if (state[0] != centre)
            continue;
        if (sec_nan(epoch))
            e->nans++;
        else
            e->numbers[e->count++] = epoch;
    }
}

/* None of them is NaN, so they have an order; the two zeros are equal. */
static int earlier(const void *a, const void *b)
{
    double first = *(const double *)a, second = *(const double *)b;

    return (first > second) - (first < second);
}

/* Minus zero is shown as zero. */
static uint64_t shown(double epoch)
{
    return sec_zero(epoch) ? 0 : sec_word(epoch);
}

/* Numbers, NaNs, earliest, latest; +0 twice where no epoch is a number. */
static void work_out(uint64_t *list, uint64_t centre, const uint64_t *states,
                     uint64_t count)
{
    uint64_t *entry = list + ENTRY_WORDS * centre;
    struct epochs e;

    gather(&e, states, count, centre);
    qsort(e.numbers, e.count, sizeof e.numbers[0], earlier);
    entry[0] = e.count;
    entry[1] = e.nans;
    entry[2] = e.count > 0 ? shown(e.numbers[0]) : 0;
    entry[3] = e.count > 0 ? shown(e.numbers[e.count - 1]) : 0;
}

/* ---- refusals ---- */

/* Room for exactly 500 records, of which no more are in use. */
static int whole_section(size_t words, uint64_t count)
{
    return words == STATES_LIMIT * STATE_WORDS && count <= STATES_LIMIT;
}

/* One entry per centre; no product, so that nothing wraps around. */
static int whole_list(size_t k, uint64_t centres)
{
    return k % ENTRY_WORDS == 0 && k / ENTRY_WORDS == centres;
}

/* 27, then 41: what every one of the three calls asks. */
static unsigned check_lent(size_t words, uint64_t count, size_t k,
                           uint64_t centres)
{
    if (!whole_section(words, count))
        return 27;
    return whole_list(k, centres) ? 0 : 41;
}

/* The refusal or 0, and the count of states afterwards. */
static uint64_t say(uint64_t *answer, unsigned number, uint64_t count)
{
    answer[0] = number;
    answer[1] = count;
    return number;
}

/* ---- the three calls ---- */

uint64_t second_summary(const uint64_t *states, size_t words, uint64_t count,
                        uint64_t centres, uint64_t *list, size_t k,
                        uint64_t *answer, size_t n)
{
    uint64_t centre;
    unsigned number;

    if (n != ANSWER_WORDS)
        return WRONG_ANSWER_RUN;
    number = check_lent(words, count, k, centres);
    if (number != 0)
        return say(answer, number, count);
    for (centre = 0; centre < centres; centre++)
        work_out(list, centre, states, count);
    return say(answer, 0, count);
}

static unsigned check_append(const uint64_t *record, size_t r, size_t words,
                             uint64_t count, size_t k, uint64_t centres)
{
    unsigned number = r == STATE_WORDS ? 0 : 27;

    if (number == 0)
        number = check_lent(words, count, k, centres);
    if (number != 0)
        return number;
    if (record[0] >= centres)
        return 24;
    return count == STATES_LIMIT ? 42 : 0;
}

uint64_t second_append(const uint64_t *record, size_t r,
                       uint64_t *states, size_t words, uint64_t count,
                       uint64_t centres, uint64_t *list, size_t k,
                       uint64_t *answer, size_t n)
{
    unsigned number;

    if (n != ANSWER_WORDS)
        return WRONG_ANSWER_RUN;
    number = check_append(record, r, words, count, k, centres);
    if (number != 0)
        return say(answer, number, count);
    memcpy(states + STATE_WORDS * count, record, STATE_WORDS * sizeof *record);
    work_out(list, record[0], states, count + 1);
    return say(answer, 0, count + 1);
}

/* The centre of a state can be bad only where there is such a state. */
static unsigned check_withdraw(uint64_t which, const uint64_t *states,
                               size_t words, uint64_t count, size_t k,
                               uint64_t centres)
{
    unsigned number = check_lent(words, count, k, centres);

    if (number != 0)
        return number;
    if (which >= count)
        return 42;
    return states[STATE_WORDS * which] < centres ? 0 : 24;
}

/* The followers move down one; the last record freed keeps its words. */
static void close_gap(uint64_t *states, uint64_t which, uint64_t count)
{
    uint64_t *gap = states + STATE_WORDS * which;
    size_t followers = (size_t)(count - 1 - which);

    memmove(gap, gap + STATE_WORDS, followers * STATE_WORDS * sizeof *gap);
}

uint64_t second_withdraw(uint64_t which, uint64_t *states, size_t words,
                         uint64_t count, uint64_t centres, uint64_t *list,
                         size_t k, uint64_t *answer, size_t n)
{
    uint64_t centre;
    unsigned number;

    if (n != ANSWER_WORDS)
        return WRONG_ANSWER_RUN;
    number = check_withdraw(which, states, words, count, k, centres);
    if (number != 0)
        return say(answer, number, count);
    centre = states[STATE_WORDS * which];
    close_gap(states, which, count);
    work_out(list, centre, states, count - 1);
    return say(answer, 0, count - 1);
}
