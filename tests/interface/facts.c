/*
**  What the header says of every call: it keeps nothing between calls, so that threads may call at once; it may
**  raise floating-point flags and lowers none; it changes no rounding. And the calls that take doubles answer
**  what those that take words answer.
*/
#define _XOPEN_SOURCE 700
#include "interface/shared/one_row.h"
#include "kelubashi.h"

#include <fenv.h>
#include <pthread.h>
#include <stdio.h>
#include <stdlib.h>

enum { THREADS = 4, TURNS = 200, ORBITS = 6 };

/* mu, position, velocity, interval: ellipses, an escape, no force, and two that are refused. */
static const double GIVEN[ORBITS][8] = {
    { 398600.4418, 1131.340, -2282.343, 6672.423, -5.64305, 4.30333, 2.42879, 600 },
    { 398600.4418, 2677.184733, 1545.673326, -6173.276617, -5.011432290, 8.680055344, 0, 86400 },
    { 398600.4418, -5831.500140, -3066.484874, -1089.857985, 5.376460097, -8.440215347, -5.019952307, -86400 },
    { 0, 1, 0, 0, 0, 0, 0, 1 },
    { 1, 0, 0, 0, 0, 0, 0, 1 },
    { 398600.4418, 7000, 0, 0, 0, 7.5, 0, 1e300 }
};

struct results {
    uint64_t answer[KELUBASHI_ANSWER], run[KELUBASHI_PARTIALS], read[KELUBASHI_READ_ANSWER];
    uint64_t root, interval, written[2], answered[2], checked[2], verdict, changed[6], list[KELUBASHI_ENTRY];
    uint64_t compared[KELUBASHI_COMPARE_ANSWER], told[KELUBASHI_COMPARED];
    uint8_t file[200], results[200], moved[ONE_RESULT], rows[ONE_ROW];
};

static void fail(const char *what)
{
    printf("facts: %s\n", what);
    exit(EXIT_FAILURE);
}

/* All twelve calls on one orbit; every byte that they leave. */
static void ask(const double *g, struct results *r)
{
    uint64_t w[8], state[KELUBASHI_STATE] = { 0 }, request[KELUBASHI_REQUEST] = { 0, 0 }, refusals;
    uint64_t states[KELUBASHI_STATE_RUN] = { 0 };
    int i;

    memset(r, 0, sizeof *r);
    for (i = 0; i < 8; i++)
        w[i] = kelubashi_word(g[i]);
    for (i = 1; i < 7; i++)
        state[i + 1] = w[i];
    request[1] = w[7];
    refusals = kelubashi1_root(w[0], &r->root, 1);
    refusals += kelubashi1_propagate(w[0], w[1], w[2], w[3], w[4], w[5], w[6], w[7], r->answer, KELUBASHI_ANSWER);
    refusals += kelubashi1_partials(w[0], w[1], w[2], w[3], w[4], w[5], w[6], w[7], r->answer, KELUBASHI_ANSWER,
                                    r->run, KELUBASHI_PARTIALS);
    refusals += kelubashi1_write(w, 1, state, KELUBASHI_STATE, request, KELUBASHI_REQUEST, r->file, sizeof r->file, r->written, 2);
    refusals += kelubashi1_read(r->file, 120, r->read, KELUBASHI_READ_ANSWER);
    refusals += kelubashi1_results(r->file, 120, r->results, sizeof r->results, r->answered, 2);
    refusals += kelubashi1_interval(w[7], w[1], &r->interval, 1);
    one_row(w, r->answer, r->rows);
    refusals += kelubashi1_check(r->rows, sizeof r->rows, &r->verdict, 1, r->checked, 2);
    move_results(r->results, r->moved);
    refusals += kelubashi1_compare(r->results, ONE_RESULT, r->moved, ONE_RESULT, r->told, KELUBASHI_COMPARED, r->compared, KELUBASHI_COMPARE_ANSWER);
    refusals += kelubashi1_append(state, KELUBASHI_STATE, states, KELUBASHI_STATE_RUN, 1, 1, r->list, KELUBASHI_ENTRY, r->changed, 2);
    refusals += kelubashi1_withdraw(0, states, KELUBASHI_STATE_RUN, 2, 1, r->list, KELUBASHI_ENTRY, r->changed + 2, 2);
    refusals += kelubashi1_summary(states, KELUBASHI_STATE_RUN, 1, 1, r->list, KELUBASHI_ENTRY, r->changed + 4, 2);
    r->root ^= refusals << 52;      /* every status is a part of what is compared */
}

static struct results alone[ORBITS];

/* One of several threads: the same answers again and again, in an order of its own. */
static void *turn(void *which)
{
    int start = *(int *)which, i;

    for (i = 0; i < TURNS; i++) {
        struct results again;
        int orbit = (start + i) % ORBITS;

        ask(GIVEN[orbit], &again);
        if (memcmp(&again, &alone[orbit], sizeof again) != 0)
            return which;
    }
    return NULL;
}

static void try_threads(void)
{
    static int starts[THREADS];
    pthread_t threads[THREADS];
    void *wrong;
    int i;

    for (i = 0; i < ORBITS; i++)
        ask(GIVEN[i], &alone[i]);
    for (i = 0; i < THREADS; i++) {
        starts[i] = i;
        if (pthread_create(&threads[i], NULL, turn, &starts[i]) != 0)
            fail("no thread can be started");
    }
    for (i = 0; i < THREADS; i++)
        if (pthread_join(threads[i], &wrong) != 0 || wrong != NULL)
            fail("in several threads at once a call answers otherwise");
}

static void try_flags(void)
{
    struct results results;

    feclearexcept(FE_ALL_EXCEPT);
    ask(GIVEN[0], &results);
    if (fetestexcept(FE_INEXACT) == 0)
        fail("no floating-point flag is raised: then say so");
    feraiseexcept(FE_ALL_EXCEPT);
    ask(GIVEN[0], &results);
    if (fetestexcept(FE_ALL_EXCEPT) != FE_ALL_EXCEPT)
        fail("a floating-point flag is lowered");
    fesetround(FE_UPWARD);
    ask(GIVEN[0], &results);
    if (fegetround() != FE_UPWARD)
        fail("the rounding is changed");
    fesetround(FE_TONEAREST);
    feclearexcept(FE_ALL_EXCEPT);
}

static int same(double figure, uint64_t word)
{
    return kelubashi_word(figure) == word;
}

/* The calls that take doubles, held to those that take words; the partials stay where they are refused. */
static void try_doubles(const double *g)
{
    struct kelubashi_answer answer, with;
    double partials[6][6];
    struct results r;
    uint64_t refusal;
    int i;

    ask(g, &r);
    for (i = 0; i < 36; i++)
        partials[i / 6][i % 6] = 5;
    refusal = kelubashi_partials(g[0], g + 1, g + 4, g[7], &with, partials);
    for (i = 0; i < 36; i++)
        if (!same(partials[i / 6][i % 6], refusal == 0 ? r.run[i] : kelubashi_word(5)))
            fail("kelubashi_partials has other partials");
    if (kelubashi_propagate(g[0], g + 1, g + 4, g[7], &answer) != refusal || refusal != r.answer[KELUBASHI_REFUSAL])
        fail("a call that takes doubles has another status");
    if (answer.refusal != refusal || answer.points != r.answer[KELUBASHI_POINTS] || !same(answer.psi, r.answer[KELUBASHI_PSI]))
        fail("kelubashi_propagate answers otherwise");
    for (i = 0; i < 3; i++)
        if (!same(answer.position[i], r.answer[KELUBASHI_X + i]) || !same(answer.velocity[i], r.answer[KELUBASHI_VX + i]) ||
            !same(answer.end_acceleration[i], r.answer[KELUBASHI_END_AX + i]) ||
            !same(answer.start_acceleration[i], r.answer[KELUBASHI_START_AX + i]))
            fail("kelubashi_propagate has other figures");
    if (memcmp(&answer, &with, sizeof answer) != 0)
        fail("kelubashi_partials answers otherwise than kelubashi_propagate");
}

int main(void)
{
    int i;

    try_threads();
    try_flags();
    for (i = 0; i < ORBITS; i++)
        try_doubles(GIVEN[i]);
    printf("facts: %d threads at once get the answers of one; flags are raised and none lowered; doubles get the answers of words\n",
           (int)THREADS);
    return EXIT_SUCCESS;
}
