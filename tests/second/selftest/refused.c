/* The refusals of the summary's calls, and which of two comes first. */
#include "summary.h"

#include "second/second.h"

#include <string.h>

/* What a call is given, right but for what a case makes wrong. */
struct given {
    uint64_t record[9];
    uint64_t count, centres, which;
    size_t r, words, k, n;
};

/* Seven states of centres 0 to 2; number 5 has a bad centre. */
static struct given right(void)
{
    struct given g = {{2, ONE}, 7, 3, 4, 8, SECTION, 12, 2};

    put_states(7);
    put_state(5, 3, ONE);
    return g;
}

static int all_kept(void)
{
    return memcmp(&lent, &was, sizeof was) == 0;
}

/* The status, the answer, and no word of what was lent. */
static void expect(uint64_t status, uint64_t number, const struct given *g,
                   const char *what)
{
    check(status == number, what);
    check(number == 60 ? kept(answer, 3) : answered(number, g->count), what);
    check(all_kept(), what);
    fill(answer, 3);
}

/* A length of 0 comes with a null pointer. */
static uint64_t *run_of(uint64_t *run, size_t words)
{
    return words > 0 ? run : NULL;
}

static void no_summary(const struct given *g, uint64_t number,
                       const char *what)
{
    was = lent;
    fill(answer, 3);
    expect(second_summary(run_of(lent.states, g->words), g->words, g->count,
                          g->centres, run_of(lent.list, g->k), g->k,
                          run_of(answer, g->n), g->n), number, g, what);
}

static void no_append(const struct given *g, uint64_t number,
                      const char *what)
{
    struct given copy = *g;

    was = lent;
    fill(answer, 3);
    expect(second_append(run_of(copy.record, g->r), g->r,
                         run_of(lent.states, g->words), g->words, g->count,
                         g->centres, run_of(lent.list, g->k), g->k,
                         run_of(answer, g->n), g->n), number, g, what);
    check(memcmp(&copy, g, sizeof copy) == 0, what);
}

static void no_withdraw(const struct given *g, uint64_t number,
                        const char *what)
{
    was = lent;
    fill(answer, 3);
    expect(second_withdraw(g->which, run_of(lent.states, g->words), g->words,
                           g->count, g->centres, run_of(lent.list, g->k),
                           g->k, run_of(answer, g->n), g->n), number, g, what);
}

static void no_call(const struct given *g, uint64_t number, const char *what)
{
    no_summary(g, number, what);
    no_append(g, number, what);
    no_withdraw(g, number, what);
}

/* 60, 27 and 41 in all three calls, each before all that come after it. */
static void test_lengths(void)
{
    static const size_t answers[3] = {0, 1, 3};
    static const size_t sections[6] = {0, 8, 56, 3992, 3999, 4001};
    static const uint64_t counts[5] = {501, 4000, (uint64_t)1 << 61,
                                       MINUS_ZERO, ALL_ONES};
    static const size_t lists[7] = {0, 3, 8, 11, 13, 16, 1};
    static const uint64_t centres[8] = {
        0, 2, 4, 12, 3 | (uint64_t)1 << 62, 3 | (uint64_t)1 << 63,
        3 | (uint64_t)3 << 62, ALL_ONES};
    struct given g;
    size_t i, bad;

    for (bad = 0; bad < 2; bad++) {
        for (i = 0; i < 3; i++) {
            g = right(), g.n = answers[i], g.words -= bad, g.r -= bad;
            no_call(&g, 60, "60, then also before 27");
        }
        for (i = 0; i < 6; i++) {
            g = right(), g.words = sections[i], g.k -= bad;
            no_call(&g, 27, "27 by the words, then also before 41");
        }
        for (i = 0; i < 5; i++) {
            g = right(), g.count = counts[i], g.k -= bad;
            no_call(&g, 27, "27 by the count, then also before 41");
        }
        for (i = 0; i < 7; i++) {
            g = right(), g.k = lists[i], g.record[0] += bad;
            g.which += bad;
            no_call(&g, 41, "41 by the list, then also before 24");
        }
        for (i = 0; i < 8; i++) {
            g = right(), g.centres = centres[i], g.record[0] = ALL_ONES;
            g.which = bad ? 7 : 4;
            no_call(&g, 41, "41 by the centres, before 24 and 42");
        }
    }
    g = right(), g.centres = 0, g.k = 4, g.count = 500;
    no_call(&g, 41, "41 where there is no centre");
    g.k = 0, g.centres = (uint64_t)1 << 62;
    no_call(&g, 41, "41 where four times the centres wraps to 0");
    group("27, 41 and 60 of the three calls");
}

/* 27 by the record; 24 and 42, and which of two comes first. */
static void test_append_refused(void)
{
    static const size_t lengths[4] = {0, 1, 7, 9};
    static const uint64_t centres[4] = {3, 4, (uint64_t)1 << 32, ALL_ONES};
    uint64_t record[8] = {2, ONE, 0, 0, 0, 0, 0, 0};
    struct given g;
    size_t i;

    for (i = 0; i < 4; i++) {
        g = right(), g.r = lengths[i];
        no_append(&g, 27, "27 by the record");
        g.k = 13;
        no_append(&g, 27, "27 by the record before 41");
        g.k = 12, g.record[0] = 3;
        no_append(&g, 27, "27 by the record before 24");
        g.record[0] = 2, g.count = 500;
        no_append(&g, 27, "27 by the record before 42");
    }
    for (i = 0; i < 4; i++) {
        g = right(), g.record[0] = centres[i];
        no_append(&g, 24, "24 by the record");
        g.count = 500;
        no_append(&g, 24, "24 before 42");
    }
    g = right(), g.count = 500;
    no_append(&g, 42, "42: 500 are in use");
    g.k = 8;
    no_append(&g, 41, "41 before 42");
    g.count = 501;
    no_append(&g, 27, "501 are 27 and not 42");
    g = right(), g.count = g.centres = g.k = 0, g.record[0] = 0;
    no_append(&g, 24, "24 with 0 centres");
    right();
    check(append(record, 7, 3) == 0 && !all_kept(), "append, all right");
    group("append: refusals");
}

/* 24 by a state that is there, whatever stands behind those in use. */
static void test_withdraw_refused(void)
{
    static const uint64_t numbers[7] = {7, 8, 500, 501, (uint64_t)1 << 61,
                                        MINUS_ZERO, ALL_ONES};
    struct given g;
    size_t i;

    g = right(), g.which = 5;
    no_withdraw(&g, 24, "24 by the state");
    g.k = 16;
    no_withdraw(&g, 41, "41 before 24");
    g.words = 4001;
    no_withdraw(&g, 27, "27 before 24");
    for (i = 0; i < 7; i++) {
        g = right(), g.which = numbers[i];
        put_state(7, i % 2 ? 3 : 0, ONE);
        no_withdraw(&g, 42, "42, whatever stands there");
        g.k = 13;
        no_withdraw(&g, 41, "41 before 42");
        g.words = 3999;
        no_withdraw(&g, 27, "27 before 42");
    }
    g = right(), g.which = 0, g.count = 0;
    no_withdraw(&g, 42, "42: none is in use");
    g = right(), g.which = 500, g.count = 500;
    no_withdraw(&g, 42, "42: the last is number 499");
    g = right(), g.centres = g.k = 0;
    no_withdraw(&g, 24, "24 with 0 centres");
    g.which = 7;
    no_withdraw(&g, 42, "42 with 0 centres");
    right();
    check(withdraw(4, 7, 3) == 0 && !all_kept(), "withdraw, all right");
    group("withdraw: refusals");
}

void selftest_refused(void)
{
    test_lengths();
    test_append_refused();
    test_withdraw_refused();
}
