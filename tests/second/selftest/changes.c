/* States appended and withdrawn, one by one and in a long sequence. */
#include "summary.h"

#include "second/parts.h"
#include "second/second.h"

#include <string.h>

static void test_append(void)
{
    uint64_t record[8] = {1, ALL_ONES, 2, 3, 4, 5, 6, 7};

    put_states(7);
    check(append(record, 7, 3) == 0 && answered(0, 8), "append");
    check(memcmp(lent.states + 56, record, 64) == 0 && states_kept(0, 7)
              && states_kept(8, 500), "append: the record");
    check(lent.states[SECTION] == was.states[SECTION], "append: behind");
    check(entry_is(1, 2, 1, ONE, sec_word(4)) && others_kept(1),
          "append: a wrong list before");
    record[1] = MINUS_ONE;
    check(append(record, 8, 3) == 0 && answered(0, 9) && others_kept(1)
              && entry_is(1, 3, 1, MINUS_ONE, sec_word(4)), "append: earliest");
    start();
    check(append(record, 0, 2) == 0 && answered(0, 1) && others_kept(1)
              && entry_is(1, 1, 0, MINUS_ONE, MINUS_ONE), "append: the first");
    put_states(499);
    check(append(record, 499, 3) == 0 && answered(0, 500) && others_kept(1)
              && entry_is(1, 167, 0, MINUS_ONE, sec_word(496))
              && states_kept(0, 499)
              && lent.states[SECTION] == was.states[SECTION],
          "append: the last that fits");
    group("append");
}

/* Those before it are kept, those behind it move, the freed one is kept. */
static void expect_withdrawn(size_t which, size_t count, const char *what)
{
    size_t moved = 64 * (count - 1 - which);

    check(withdraw(which, count, 3) == 0 && answered(0, count - 1), what);
    check(states_kept(0, which) && states_kept(count - 1, 500), what);
    check(memcmp(lent.states + 8 * which, was.states + 8 * which + 8, moved)
              == 0, what);
    check(lent.states[SECTION] == was.states[SECTION], what);
    check(others_kept(was.states[8 * which]), what);
}

static void test_withdraw(void)
{
    put_states(7);
    expect_withdrawn(0, 7, "the first of 7");
    check(entry_is(0, 2, 0, sec_word(3), sec_word(6)), "of 0 3 6 the first");
    expect_withdrawn(5, 6, "the last of 6");
    check(entry_is(0, 1, 0, sec_word(3), sec_word(3)), "of 3 6 the last");
    expect_withdrawn(2, 5, "the middle of 5");
    check(entry_is(0, 0, 0, 0, 0), "of 3 the only one");
    start();
    put_state(0, 2, NAN_WORD);
    expect_withdrawn(0, 1, "the only state");
    check(entry_is(2, 0, 0, 0, 0), "none is left");
    put_states(500);
    put_state(1, 3, ONE); /* followers of any centre number move along */
    put_state(499, ALL_ONES, ONE);
    expect_withdrawn(0, 500, "the first of 500");
    check(entry_is(0, 166, 0, sec_word(3), sec_word(498)), "of 500");
    put_states(500);
    expect_withdrawn(499, 500, "the last of 500");
    check(entry_is(1, 166, 0, ONE, sec_word(496)), "of 500, the last");
    group("withdraw");
}

/* ---- a right list stays right ---- */

static void expect_right(uint64_t count, const char *what)
{
    struct lent now = lent;

    check(summary(count, 3) == 0, what);
    check(memcmp(&now, &lent, sizeof now) == 0, what);
}

/* Epochs of few values, with zeros, NaNs and infinities among them. */
static void any_record(uint64_t record[8])
{
    static const uint64_t epochs[9] = {
        0, MINUS_ZERO, ONE, MINUS_ONE, TWO, MINUS_TWO, NAN_WORD, ALL_ONES,
        INFINITE_WORD};
    size_t i;

    for (i = 0; i < 8; i++)
        record[i] = chance();
    record[0] = chance() % 3;
    record[1] = epochs[chance() % 9];
}

static void test_sequence(void)
{
    uint64_t record[8], count = 0;
    int i;

    start();
    check(summary(0, 3) == 0, "sequence");
    for (i = 0; i < 3000; i++) {
        any_record(record);
        if (count < 500 && (count == 0 || chance() % 2)) {
            check(append(record, count++, 3) == 0, "sequence: append");
            expect_right(count, "right after an append");
        } else {
            check(withdraw(chance() % count, count, 3) == 0, "sequence");
            expect_right(--count, "right after a state is withdrawn");
        }
        if (count == 500 || chance() % 8)
            continue;
        check(append(record, count, 3) == 0, "sequence: append");
        check(withdraw(count, count + 1, 3) == 0, "and withdraw it");
        expect_right(count, "right after both");
    }
    group("a right list stays right");
}

void selftest_changes(void)
{
    test_append();
    test_withdraw();
    test_sequence();
}
