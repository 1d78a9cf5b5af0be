/* The summary beside the states: epochs of every sort, and whole lists. */
#include "summary.h"

#include "second/parts.h"
#include "second/second.h"

#include <string.h>

struct lent lent, was;
uint64_t answer[3];

void start(void)
{
    size_t i;

    for (i = 0; i <= SECTION; i++)
        lent.states[i] = chance();
    for (i = 0; i <= 4 * ENTRIES; i++)
        lent.list[i] = chance();
}

void put_state(size_t number, uint64_t centre, uint64_t epoch)
{
    lent.states[8 * number] = centre;
    lent.states[8 * number + 1] = epoch;
}

void put_states(size_t count)
{
    size_t i;

    start();
    for (i = 0; i < count; i++)
        put_state(i, i % 3, sec_word((double)i));
}

/* ---- calls with the right lengths ---- */

uint64_t summary(uint64_t count, uint64_t centres)
{
    was = lent;
    fill(answer, 3);
    return second_summary(lent.states, SECTION, count, centres, lent.list,
                          4 * centres, answer, 2);
}

uint64_t append(const uint64_t record[8], uint64_t count, uint64_t centres)
{
    was = lent;
    fill(answer, 3);
    return second_append(record, 8, lent.states, SECTION, count, centres,
                         lent.list, 4 * centres, answer, 2);
}

uint64_t withdraw(uint64_t which, uint64_t count, uint64_t centres)
{
    was = lent;
    fill(answer, 3);
    return second_withdraw(which, lent.states, SECTION, count, centres,
                           lent.list, 4 * centres, answer, 2);
}

int answered(uint64_t number, uint64_t count)
{
    return answer[0] == number && answer[1] == count && answer[2] == KEPT;
}

int others_kept(size_t entry)
{
    size_t i;

    for (i = 0; i <= 4 * ENTRIES; i++)
        if (i / 4 != entry && lent.list[i] != was.list[i])
            return 0;
    return lent.list[4 * ENTRIES] == was.list[4 * ENTRIES];
}

int entry_is(size_t centre, uint64_t numbers, uint64_t nans,
             uint64_t earliest, uint64_t latest)
{
    const uint64_t *entry = lent.list + 4 * centre;

    return entry[0] == numbers && entry[1] == nans && entry[2] == earliest
        && entry[3] == latest;
}

int states_kept(size_t from, size_t end)
{
    return memcmp(lent.states + 8 * from, was.states + 8 * from,
                  64 * (end - from)) == 0;
}

/* ---- epochs ---- */

/* The epochs of a centre, and its entry. */
static const struct row {
    size_t count;
    uint64_t epochs[5];
    uint64_t numbers, nans, earliest, latest;
} rows[] = {
    {0, {0}, 0, 0, 0, 0},
    {1, {ONE}, 1, 0, ONE, ONE},
    {3, {TWO, TWO, TWO}, 3, 0, TWO, TWO},
    {3, {ONE, TWO, MINUS_ONE}, 3, 0, MINUS_ONE, TWO},
    {2, {MINUS_ONE, MINUS_TWO}, 2, 0, MINUS_TWO, MINUS_ONE},
    {2, {MINUS_TWO, MINUS_ONE}, 2, 0, MINUS_TWO, MINUS_ONE},
    {2, {ONE + 1, ONE}, 2, 0, ONE, ONE + 1},
    {2, {MINUS_ONE + 1, MINUS_ONE}, 2, 0, MINUS_ONE + 1, MINUS_ONE},
    /* the zeros */
    {1, {0}, 1, 0, 0, 0},
    {1, {MINUS_ZERO}, 1, 0, 0, 0},
    {2, {MINUS_ZERO, 0}, 2, 0, 0, 0},
    {2, {0, MINUS_ZERO}, 2, 0, 0, 0},
    {2, {MINUS_ZERO, ONE}, 2, 0, 0, ONE},
    {2, {MINUS_ZERO, MINUS_ONE}, 2, 0, MINUS_ONE, 0},
    {3, {0, MINUS_ZERO, MINUS_ONE}, 3, 0, MINUS_ONE, 0},
    /* infinities */
    {1, {INFINITE_WORD}, 1, 0, INFINITE_WORD, INFINITE_WORD},
    {1, {MINUS_INFINITE}, 1, 0, MINUS_INFINITE, MINUS_INFINITE},
    {2, {INFINITE_WORD, MINUS_INFINITE}, 2, 0, MINUS_INFINITE, INFINITE_WORD},
    {2, {INFINITE_WORD, INFINITE_WORD - 1}, 2, 0, INFINITE_WORD - 1,
     INFINITE_WORD},
    {2, {MINUS_INFINITE, MINUS_INFINITE - 1}, 2, 0, MINUS_INFINITE,
     MINUS_INFINITE - 1},
    {3, {MINUS_ZERO, INFINITE_WORD, ONE}, 3, 0, 0, INFINITE_WORD},
    /* NaNs: quiet and signalling, of both signs, and of several bits */
    {1, {NAN_WORD}, 0, 1, 0, 0},
    {1, {NAN_WORD | MINUS_ZERO}, 0, 1, 0, 0},
    {1, {INFINITE_WORD + 1}, 0, 1, 0, 0},
    {1, {MINUS_INFINITE + 1}, 0, 1, 0, 0},
    {1, {NAN_WORD - 1}, 0, 1, 0, 0},
    {2, {ALL_ONES, ALL_ONES >> 1}, 0, 2, 0, 0},
    {2, {NAN_WORD, ONE}, 1, 1, ONE, ONE},
    {2, {MINUS_ONE, INFINITE_WORD + 1}, 1, 1, MINUS_ONE, MINUS_ONE},
    {2, {MINUS_ZERO, MINUS_INFINITE + 1}, 1, 1, 0, 0},
    {5, {ALL_ONES, MINUS_INFINITE, NAN_WORD, INFINITE_WORD, ALL_ONES >> 1},
     2, 3, MINUS_INFINITE, INFINITE_WORD},
    {5, {NAN_WORD, NAN_WORD, TWO, NAN_WORD, MINUS_TWO}, 2, 3, MINUS_TWO, TWO},
    /* subnormals */
    {1, {1}, 1, 0, 1, 1},
    {1, {MINUS_ZERO + 1}, 1, 0, MINUS_ZERO + 1, MINUS_ZERO + 1},
    {2, {1, MINUS_ZERO + 1}, 2, 0, MINUS_ZERO + 1, 1},
    {2, {1, MINUS_ZERO}, 2, 0, 0, 1},
    {2, {0, MINUS_ZERO + 1}, 2, 0, MINUS_ZERO + 1, 0},
    {2, {0x0010000000000000u, 0x000FFFFFFFFFFFFFu}, 2, 0,
     0x000FFFFFFFFFFFFFu, 0x0010000000000000u},
    {3, {MINUS_ZERO + 2, MINUS_ZERO + 1, MINUS_ZERO + 3}, 3, 0,
     MINUS_ZERO + 3, MINUS_ZERO + 1},
};

#define ROWS (sizeof rows / sizeof rows[0])

/* The epochs of centre 1, in turn with states of centre 0. */
static size_t put_row(const struct row *row)
{
    size_t i;

    start();
    for (i = 0; i < row->count; i++) {
        put_state(2 * i, 0, chance());
        put_state(2 * i + 1, 1, row->epochs[i]);
    }
    return 2 * row->count;
}

static int row_is(const struct row *row)
{
    return entry_is(1, row->numbers, row->nans, row->earliest, row->latest);
}

/* By summary, by appending the last, and by withdrawing one more. */
static void test_epochs(void)
{
    size_t i, count;

    for (i = 0; i < ROWS; i++) {
        const struct row *row = &rows[i];
        uint64_t record[8], more = rows[(i + 11) % ROWS].epochs[0];

        count = put_row(row);
        check(summary(count, 3) == 0 && answered(0, count) && row_is(row)
                  && entry_is(2, 0, 0, 0, 0), "epochs of a summary");
        count = put_row(row);
        put_state(count, 1, more);
        check(withdraw(count, count + 1, 3) == 0 && answered(0, count)
                  && row_is(row) && others_kept(1), "epochs when withdrawn");
        if (count == 0)
            continue;
        memcpy(record, lent.states + 8 * (count - 1), sizeof record);
        put_state(count - 1, chance(), chance());
        check(append(record, count - 1, 3) == 0 && answered(0, count)
                  && row_is(row) && others_kept(1), "epochs when appended");
    }
    group("summary: epochs");
}

/* ---- whole lists ---- */

/* Four states of centres 0 and 2, and six that are in no entry. */
static void test_whole_lists(void)
{
    static const uint64_t outside[6] = {3, 4, (uint64_t)1 << 32, MINUS_ZERO,
                                        ALL_ONES, ALL_ONES - 2};
    size_t i;

    start();
    for (i = 0; i < 6; i++)
        put_state(i, outside[i], i % 2 ? ONE : NAN_WORD);
    put_state(6, 2, TWO);
    put_state(7, 0, MINUS_ZERO);
    put_state(8, 2, MINUS_ONE);
    put_state(9, 2, ALL_ONES);
    put_state(10, 0, MINUS_TWO); /* not in use */
    check(summary(10, 3) == 0 && answered(0, 10), "a summary");
    check(entry_is(0, 1, 0, 0, 0) && entry_is(1, 0, 0, 0, 0)
              && entry_is(2, 2, 1, MINUS_ONE, TWO), "its entries");
    check(memcmp(lent.states, was.states, sizeof was.states) == 0
              && memcmp(lent.list + 12, was.list + 12,
                        sizeof was.list - 96) == 0, "what it keeps");
    check(summary(11, 3) == 0 && answered(0, 11)
              && entry_is(0, 2, 0, MINUS_TWO, 0), "one more in use");
    check(summary(10, 5) == 0 && entry_is(3, 0, 1, 0, 0)
              && entry_is(4, 1, 0, ONE, ONE), "more centres");
    check(summary(0, 1) == 0 && answered(0, 0) && entry_is(0, 0, 0, 0, 0),
          "none in use");
    was = lent;
    check(second_summary(lent.states, SECTION, 10, 0, NULL, 0, answer, 2) == 0
              && answered(0, 10) && memcmp(&lent, &was, sizeof was) == 0,
          "0 centres");
    for (i = 0; i < 500; i++)
        put_state(i, i % 17, sec_word((double)i - 250.0));
    check(summary(500, 17) == 0 && answered(0, 500)
              && entry_is(0, 30, 0, sec_word(-250), sec_word(243))
              && entry_is(16, 29, 0, sec_word(-234), sec_word(242)),
          "all 500 in use, 17 centres");
    group("summary: whole lists");
}

void selftest_summary(void)
{
    test_epochs();
    test_whole_lists();
}
