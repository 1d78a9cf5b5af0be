/*
**  The documents' file cases through the C face: P10's whole result file, P6 to P12 as the requests of
**  one file, requests with a word that is not finite (T-05), 16 centres and 17, a file one byte short and
**  one long, every refusal from 21 to 27, rooms too small and larger, and answer runs of other lengths.
**
**  What is expected comes from the documents alone: their own words, their rules for a refusal and its place,
**  and places counted by hand. Words are taken by the header's names, so these are tried too.
*/
#include "cases/shared/expected.h"

#include <math.h>
#include <stdio.h>
#include <stdlib.h>

const char *const test_name = "cases of files";

#define ONE UINT64_C(0x3FF0000000000000)
#define MINUS_ZERO UINT64_C(0x8000000000000000)
#define DRIFT UINT64_C(0x1A70000000000000)     /* 2^-600 */

/* ---- P10 as one request: a file of 120 bytes ---- */

static const uint64_t P10_FILE[15] = { 1, 1, 0, 1, 0, 0, ONE, 0, 0, 0, 0, 0, 1, 0, ONE };

static void p10_runs(void)
{
    runs_of(1, KELUBASHI_STATE, KELUBASHI_REQUEST);
    runs.states[2] = ONE;
    runs.requests[1] = ONE;
}

static void p10(void)
{
    static const uint64_t places[KELUBASHI_READ_ANSWER] = {
        [KELUBASHI_READ_CENTRES] = 8, [KELUBASHI_READ_CENTRE_COUNT] = 1,
        [KELUBASHI_READ_STATES] = 24, [KELUBASHI_READ_STATE_COUNT] = 1,
        [KELUBASHI_READ_REQUESTS] = 96, [KELUBASHI_READ_REQUEST_COUNT] = 1
    };
    static const uint64_t whole[13] = { 1, 1, 0, 21, ONE, 0, 0, 0, 0, 0, MINUS_ZERO, MINUS_ZERO, MINUS_ZERO };

    words_of(&file, P10_FILE, 15);
    reads("P10", places);
    writes_results("P10", whole, 13);
    p10_runs();
    refuses_runs("P10 in no room", 0, 26, 120);
    refuses_runs("P10 in a room one byte short", 119, 26, 120);
    writes_file("P10 in the exact room", 120);
    writes_file("P10 in a larger room", 120 + TAIL);
}

/* ---- P6 to P12 as the requests of one file ---- */

#define STATES 7
#define REQUESTS 9

/*
**  One state for each but P11, which is P10's at an earlier time; then P10's with a drift, to tell the
**  intervals 1 and -1 apart. Only the second centre is asked about.
*/
static const double STATE_FIGURES[STATES][7] = {     /* epoch, x y z, vx vy vz */
    { 5, 0, 0, 0, 0, 0, 0 },
    { 0, NAN, 0, 0, 0, 0, 0 },
    { -3, 0x1p-600, 0, 0, 0, 0, 0 },
    { 0, 0x1p600, 0, 0, 0, 0, 0 },
    { 2, 1, 0, 0, 0, 0, 0 },
    { 0, 1, 0, 0, 0, 0x1p500, 0 },
    { 2, 1, 0, 0, 0, 0x1p-600, 0 }
};
static const uint64_t STATE_ASKED[REQUESTS] = { 0, 1, 2, 3, 4, 4, 5, 6, 6 };
static const double TIMES[REQUESTS] = { 5, 0, -3, 0, 3, 1, 0x1p40, 3, 1 };

static void marked_runs(void)
{
    size_t i, j;

    runs_of(2, STATES * KELUBASHI_STATE, REQUESTS * KELUBASHI_REQUEST);
    runs.centres[0] = kelubashi_word(NAN);
    for (i = 0; i < STATES; i++) {
        runs.states[KELUBASHI_STATE * i] = 1;
        for (j = 0; j < 7; j++)
            runs.states[KELUBASHI_STATE * i + 1 + j] = kelubashi_word(STATE_FIGURES[i][j]);
    }
    for (i = 0; i < REQUESTS; i++) {
        runs.requests[KELUBASHI_REQUEST * i] = STATE_ASKED[i];
        runs.requests[KELUBASHI_REQUEST * i + 1] = kelubashi_word(TIMES[i]);
    }
}

/*
**  P11 ends where P10 does, at rest. The square of the drift is zero, so the search is that of P10 and
**  P11, and y is the interval times the drift; the acceleration, -0 times y, has the other sign than y.
*/
static void marked(void)
{
    static const uint64_t rows[2 + REQUESTS * KELUBASHI_ROW] = {
        1, REQUESTS,
        3, 0, 0, 0, 0, 0, 0, 0, 0, 0, 0,
        32, 0, 0, 0, 0, 0, 0, 0, 0, 0, 0,
        3, 0, 0, 0, 0, 0, 0, 0, 0, 0, 0,
        4, 0, 0, 0, 0, 0, 0, 0, 0, 0, 0,
        0, 21, ONE, 0, 0, 0, 0, 0, MINUS_ZERO, MINUS_ZERO, MINUS_ZERO,
        0, 21, ONE, 0, 0, 0, 0, 0, MINUS_ZERO, MINUS_ZERO, MINUS_ZERO,
        6, 1, 0, 0, 0, 0, 0, 0, 0, 0, 0,
        0, 21, ONE, DRIFT, 0, 0, DRIFT, 0, MINUS_ZERO, MINUS_ZERO, MINUS_ZERO,
        0, 21, ONE, MINUS_ZERO | DRIFT, 0, 0, DRIFT, 0, MINUS_ZERO, 0, MINUS_ZERO
    };

    marked_runs();
    file_of_runs();
    writes_file("P6 to P12", file.length + TAIL);
    writes_results("P6 to P12", rows, sizeof rows / sizeof rows[0]);
}

/* ---- T-05: one word of each request is not finite: mu of its centre, x to vz and the epoch of its state, its time ---- */

#define BAD 9

static void bad_runs(void)
{
    static const size_t word[BAD] = { 0, 2, 3, 4, 5, 6, 7, 1, 0 };     /* of the state, or 0 */
    size_t i;

    runs_of(2, BAD * KELUBASHI_STATE, BAD * KELUBASHI_REQUEST);
    runs.centres[1] = kelubashi_word(NAN);
    for (i = 0; i < BAD; i++) {
        uint64_t *state = runs.states + KELUBASHI_STATE * i;

        state[0] = i == 0;
        state[2] = ONE;
        if (word[i] != 0)
            state[word[i]] = kelubashi_word(i % 2 == 0 ? NAN : -INFINITY);
        runs.requests[KELUBASHI_REQUEST * i] = i;
    }
    runs.requests[KELUBASHI_REQUEST * BAD - 1] = kelubashi_word(INFINITY);
}

static void bad_words(void)
{
    static const uint64_t numbers[BAD] = { 31, 32, 33, 34, 35, 36, 37, 38, 38 };
    uint64_t rows[2 + BAD * KELUBASHI_ROW] = { 1, BAD };
    size_t i;

    for (i = 0; i < BAD; i++)
        rows[2 + KELUBASHI_ROW * i] = numbers[i];
    bad_runs();
    file_of_runs();
    writes_file("T-05", file.length + TAIL);
    writes_results("T-05", rows, sizeof rows / sizeof rows[0]);
}

/* ---- the limits ---- */

static void sound_runs(const char *name, size_t length, uint64_t states, uint64_t requests)
{
    const uint64_t places[KELUBASHI_READ_ANSWER] = {
        [KELUBASHI_READ_CENTRES] = 8, [KELUBASHI_READ_CENTRE_COUNT] = runs.centre_words,
        [KELUBASHI_READ_STATES] = states, [KELUBASHI_READ_STATE_COUNT] = runs.state_words / KELUBASHI_STATE,
        [KELUBASHI_READ_REQUESTS] = requests, [KELUBASHI_READ_REQUEST_COUNT] = runs.request_words / KELUBASHI_REQUEST
    };

    file_of_runs();
    refuses_runs(name, length - 1, 26, length);
    writes_file(name, length);
    writes_file(name, length + TAIL);
    reads(name, places);
}

/* The shortest file, 16 centres, and the longest file, whose results are the longest. */
static void limits(void)
{
    static const uint64_t none[2] = { 1, 0 };

    runs_of(0, 0, 0);
    sound_runs("no records", 32, 16, 24);
    writes_results("no records", none, 2);
    runs_of(16, 0, 0);
    sound_runs("16 centres", 160, 144, 152);
    writes_results("16 centres", none, 2);
    runs_of(16, 500 * KELUBASHI_STATE, 1500 * KELUBASHI_REQUEST);
    runs.states[499 * KELUBASHI_STATE] = 15;
    runs.requests[1499 * KELUBASHI_REQUEST] = 499;
    sound_runs("the longest file", KELUBASHI_MOST_FILE, 144, 32152);
    needs_room("the longest file", 0, KELUBASHI_MOST_RESULTS);
    needs_room("the longest file", 132015, KELUBASHI_MOST_RESULTS);
}

/* ---- refused files: P10's with a word replaced, and so many bytes of it ---- */

struct damage {
    const char *name;
    size_t place;
    uint64_t word;
    size_t length;
    uint64_t number, at;     /* the refusal and its place */
};

static const struct damage DAMAGES[] = {
    { "an empty file", 0, 1, 0, 21, 0 },
    { "an edition not whole", 0, 1, 7, 21, 0 },
    { "the edition alone", 0, 1, 8, 21, 8 },
    { "one byte short", 0, 1, 119, 21, 112 },
    { "edition 2", 0, 2, 120, 22, 0 },
    { "17 centres", 8, 17, 120, 23, 8 },
    { "16 centres, of which 13 words are there", 8, 16, 120, 21, 120 },
    { "501 states", 24, 501, 120, 23, 24 },
    { "1,501 requests", 96, 1501, 120, 23, 96 },
    { "centre 1 of one", 32, 1, 120, 24, 32 },
    { "centre 1 of one, in a file one byte short", 32, 1, 119, 24, 32 },
    { "state 1 of one", 104, 1, 120, 24, 104 },
    { "state 1 of one, in a file one byte long", 104, 1, 121, 24, 104 },
    { "one byte long", 0, 1, 121, 25, 120 },
    { "a count too small", 96, 0, 120, 25, 104 }
};

/* "A refused file gives three words: 1, 0, its number." */
static void damaged(const struct damage *damage)
{
    const uint64_t answer[KELUBASHI_READ_ANSWER] = {
        [KELUBASHI_READ_REFUSAL] = damage->number, [KELUBASHI_READ_PLACE] = damage->at
    };
    const uint64_t three[3] = { 1, 0, damage->number };

    words_of(&file, P10_FILE, 15);
    put_word(&file, damage->place, damage->word);
    file.bytes[120] = 0;
    file.length = damage->length;
    reads(damage->name, answer);
    writes_results(damage->name, three, 3);
}

/* ---- refused runs: so many words of each, and the numbers of a centre and of a state ---- */

struct fault {
    const char *name;
    size_t centre_words, state_words, request_words;
    uint64_t centre, state;     /* of the first state and of the first request */
    uint64_t number, at;        /* the refusal and its place */
};

static const struct fault FAULTS[] = {
    { "seven words of states", 1, 7, 2, 0, 0, 27, 1 },
    { "a state and a word, half a request", 1, 9, 1, 0, 0, 27, 1 },
    { "a request and a half", 1, 8, 3, 0, 0, 27, 2 },
    { "17 centres, seven words of states", 17, 7, 2, 0, 0, 27, 1 },
    { "17 centres", 17, 8, 2, 0, 0, 23, 8 },
    { "501 states", 16, 8 * 501, 2, 0, 0, 23, 144 },
    { "1,501 requests", 16, 8 * 500, 2 * 1501, 0, 0, 23, 32152 },
    { "17 centres, 501 states, 1,501 requests", 17, 8 * 501, 2 * 1501, 0, 0, 23, 8 },
    { "1,501 requests, centre 1 of one", 1, 8, 2 * 1501, 1, 0, 23, 96 },
    { "centre 0 of none", 0, 8, 0, 0, 0, 24, 24 },
    { "centre 1 of one", 1, 8, 2, 1, 0, 24, 32 },
    { "centre 1 of one, state 1 of one", 1, 8, 2, 1, 1, 24, 32 },
    { "state 1 of one", 1, 8, 2, 0, 1, 24, 104 },
    { "state 0 of none", 0, 0, 2, 0, 0, 24, 32 }
};

/* The room makes no difference: 26 is the last in the order. */
static void faulty(const struct fault *fault)
{
    runs_of(fault->centre_words, fault->state_words, fault->request_words);
    runs.states[0] = fault->centre;
    runs.requests[0] = fault->state;
    refuses_runs(fault->name, 0, fault->number, fault->at);
    refuses_runs(fault->name, MOST_ROOM, fault->number, fault->at);
}

/* ---- 60: before all else, and nothing is written ---- */

/* Of what would be answered, and of what would be refused. */
static void other_answers(void)
{
    static const size_t counts[] = { 0, 1, 2, 3, 7, 8, 9 };
    size_t i;

    for (i = 0; i < sizeof counts / sizeof counts[0]; i++) {
        words_of(&file, P10_FILE, 15);
        p10_runs();
        refuses_count("P10 and an answer of another length", counts[i]);
        file.length = 0;
        runs_of(17, 7, 1);
        refuses_count("refused, and an answer of another length", counts[i]);
    }
}

int main(void)
{
    size_t i;

    p10();
    marked();
    bad_words();
    limits();
    for (i = 0; i < sizeof DAMAGES / sizeof DAMAGES[0]; i++)
        damaged(DAMAGES + i);
    for (i = 0; i < sizeof FAULTS / sizeof FAULTS[0]; i++)
        faulty(FAULTS + i);
    other_answers();
    printf("cases of files: P10's whole result file, bad words, the limits, every refusal's place: %u calls, none differs\n", calls);
    return EXIT_SUCCESS;
}
