/*
**  The stack that each call of the library needs, in bytes, with all that it calls: a line for each, as
**
**     kelubashi1_root 72
**
**  Each call is made on a stack of its own, painted beforehand; what is no longer painted afterwards was
**  needed. The inputs go through every part of a call: the answer, the partials, and refusals.
*/
#define _XOPEN_SOURCE 600
#include "interface/shared/one_row.h"
#include "kelubashi.h"

#include <stdio.h>
#include <stdlib.h>
#include <ucontext.h>

enum { STACK = 1 << 16, PAINT = 0xA5 };

static unsigned char stack[STACK];
static ucontext_t before, during;
static uint64_t answer[KELUBASHI_ANSWER], run[KELUBASHI_PARTIALS], status;
static uint8_t file[KELUBASHI_MOST_FILE], room[KELUBASHI_MOST_RESULTS];
static size_t length;
static uint64_t states[KELUBASHI_STATE_RUN], list[KELUBASHI_ENTRY];
static uint8_t row[ONE_ROW], moved[ONE_RESULT];
static uint64_t verdict, told[KELUBASHI_COMPARED];

/*
**  The low Earth orbit of the README for 600 s and for 960 s, a hyperbola for a day, and a figure that is refused. Their anomalies are
**  exact, a past end and a short end, so that a check looks in, out or at neither neighbour.
*/
static const double GIVEN[][8] = {
    { 398600.4418, 1131.340, -2282.343, 6672.423, -5.64305, 4.30333, 2.42879, 600 },
    { 398600.4418, 1131.340, -2282.343, 6672.423, -5.64305, 4.30333, 2.42879, 960 },
    { 398600.4418, -5831.500140, -3066.484874, -1089.857985, 5.376460097, -8.440215347, -5.019952307, 86400 },
    { 398600.4418, 0, 0, 0, 0, 0, 0, 600 }
};

static const double *given;

#define WORD(i) kelubashi_word(given[i])
#define EIGHT WORD(0), WORD(1), WORD(2), WORD(3), WORD(4), WORD(5), WORD(6), WORD(7)

static void root(void)
{
    status = kelubashi1_root(WORD(0), answer, 1);
}

static void propagate(void)
{
    status = kelubashi1_propagate(EIGHT, answer, KELUBASHI_ANSWER);
}

static void partials(void)
{
    status = kelubashi1_partials(EIGHT, answer, KELUBASHI_ANSWER, run, KELUBASHI_PARTIALS);
}

static void read_file(void)
{
    status = kelubashi1_read(file, length, answer, KELUBASHI_READ_ANSWER);
}

/* One state of one centre, and one request of it. */
static void write_file(void)
{
    uint64_t centre = WORD(0), request[KELUBASHI_REQUEST] = { 0, 0 }, state[KELUBASHI_STATE] = { 0 };
    int i;

    for (i = 1; i < 7; i++)
        state[1 + i] = WORD(i);
    request[1] = WORD(7);
    status = kelubashi1_write(&centre, 1, state, KELUBASHI_STATE, request, KELUBASHI_REQUEST, file, sizeof file,
                              answer, KELUBASHI_WRITE_ANSWER);
    length = (size_t)answer[KELUBASHI_WRITE_LENGTH];
}

static void results(void)
{
    status = kelubashi1_results(file, length, room, sizeof room, answer, KELUBASHI_RESULTS_ANSWER);
}

static void interval(void)
{
    status = kelubashi1_interval(WORD(7), WORD(1), answer, 1);
}

/* The row that is checked: the library's own, so that all of it is looked at. */
static void put_row(void)
{
    uint64_t words[8];
    int i;

    for (i = 0; i < 8; i++)
        words[i] = WORD(i);
    propagate();
    one_row(words, answer, row);
}

static void check(void)
{
    status = kelubashi1_check(row, sizeof row, &verdict, 1, answer, KELUBASHI_CHECK_ANSWER);
}

/* Our own results with every figure moved. */
static void compare(void)
{
    status = kelubashi1_compare(room, ONE_RESULT, moved, ONE_RESULT, told, KELUBASHI_COMPARED, answer, KELUBASHI_COMPARE_ANSWER);
}

/* 400 states of one centre, one more, and one fewer. */
static void summary(void)
{
    status = kelubashi1_summary(states, KELUBASHI_STATE_RUN, 400, 1, list, KELUBASHI_ENTRY, answer, KELUBASHI_CHANGE_ANSWER);
}

static void append(void)
{
    uint64_t record[KELUBASHI_STATE] = { 0 };

    record[1] = WORD(7);
    status = kelubashi1_append(record, KELUBASHI_STATE, states, KELUBASHI_STATE_RUN, 400, 1, list, KELUBASHI_ENTRY, answer,
                               KELUBASHI_CHANGE_ANSWER);
}

static void withdraw(void)
{
    status = kelubashi1_withdraw(200, states, KELUBASHI_STATE_RUN, 400, 1, list, KELUBASHI_ENTRY, answer,
                                 KELUBASHI_CHANGE_ANSWER);
}

/* The bytes of the painted stack that a call writes to. */
static size_t needed(void (*call)(void))
{
    size_t left = 0;

    memset(stack, PAINT, STACK);
    getcontext(&during);
    during.uc_stack.ss_sp = stack;
    during.uc_stack.ss_size = STACK;
    during.uc_link = &before;
    makecontext(&during, call, 0);
    swapcontext(&before, &during);
    while (left < STACK && stack[left] == PAINT)
        left++;
    return STACK - left;
}

/* The most that any of the inputs needs, with the few words that a host needs to make the call. */
static void tell(const char *name, void (*call)(void))
{
    size_t i, most = 0;

    for (i = 0; i < sizeof GIVEN / sizeof GIVEN[0]; i++) {
        size_t here;

        given = GIVEN[i];
        needed(write_file);     /* the element file that is read */
        results();
        move_results(room, moved);
        put_row();
        here = needed(call);
        if (here > most)
            most = here;
    }
    printf("%s %lu\n", name, (unsigned long)most);
}

int main(void)
{
    tell("kelubashi1_root", root);
    tell("kelubashi1_propagate", propagate);
    tell("kelubashi1_partials", partials);
    tell("kelubashi1_read", read_file);
    tell("kelubashi1_write", write_file);
    tell("kelubashi1_results", results);
    tell("kelubashi1_interval", interval);
    tell("kelubashi1_check", check);
    tell("kelubashi1_compare", compare);
    tell("kelubashi1_summary", summary);
    tell("kelubashi1_append", append);
    tell("kelubashi1_withdraw", withdraw);
    return EXIT_SUCCESS;
}
