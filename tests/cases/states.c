/*
**  Cases of documents 01 and 02 through the C face: P6 to P12, both zeros of tau, refusals 4 to 8, the nearer end
**  (T-01), whole revolutions (T-04), each figure that is not finite (T-05), and runs of other lengths.
**
**  What is expected comes from the documents alone: marked cases, and formulas worked out by hand where
**  every step is exact; but for the points of 7, which the second program counted. Words are taken by the
**  header's names, so these are tried too.
*/
#include "kelubashi.h"

#include <float.h>
#include <inttypes.h>
#include <math.h>
#include <stdio.h>
#include <stdlib.h>
#include <string.h>

#define LENT UINT64_C(0x5EED5EED5EED5EED)     /* what a lent word holds before a call */
#define ROOM 40                               /* words of a test's memory: a run and its neighbours */
#define RUN 2                                 /* where the run starts in it */

struct sample {
    const char *name;
    double given[8];                    /* mu, x y z, vx vy vz, tau */
    double answer[KELUBASHI_ANSWER];    /* what is not named is +0 */
    double late;                        /* partial of x by vx, y by vy, z by vz */
    double turned;                      /* all nine of velocity by position */
};

#define NO_FORCE [KELUBASHI_END_AX] = -0.0, -0.0, -0.0, [KELUBASHI_START_AX] = -0.0, -0.0, -0.0

/* The distance is 13 and mu its cube, so the acceleration is the position turned round. */
#define AT_ONCE [KELUBASHI_X] = 3, 4, 12, [KELUBASHI_VX] = 5, 6, 7, \
                [KELUBASHI_END_AX] = -3, -4, -12, [KELUBASHI_START_AX] = -3, -4, -12

static const struct sample SAMPLES[] = {
    { "P6", { 0, 0, 0, 0, 0, 0, 0, 0 }, { [KELUBASHI_REFUSAL] = 3 }, 0, 0 },
    { "P7", { 0, NAN, 0, 0, 0, 0, 0, 0 }, { [KELUBASHI_REFUSAL] = 32 }, 0, 0 },
    { "P8", { 0, 0x1p-600, 0, 0, 0, 0, 0, 0 }, { [KELUBASHI_REFUSAL] = 3 }, 0, 0 },
    { "P9", { 0, 0x1p600, 0, 0, 0, 0, 0, 0 }, { [KELUBASHI_REFUSAL] = 4 }, 0, 0 },
    { "P10", { 0, 1, 0, 0, 0, 0, 0, 1 },
      { [KELUBASHI_POINTS] = 21, [KELUBASHI_X] = 1, NO_FORCE, [KELUBASHI_PSI] = 1 }, 1, -0.0 },
    { "P11", { 0, 1, 0, 0, 0, 0, 0, -1 },
      { [KELUBASHI_POINTS] = 21, [KELUBASHI_X] = 1, NO_FORCE, [KELUBASHI_PSI] = -1 }, -1, 0 },
    { "P12", { 0, 1, 0, 0, 0, 0x1p500, 0, 0x1p40 },
      { [KELUBASHI_REFUSAL] = 6, [KELUBASHI_POINTS] = 1 }, 0, 0 },
    { "tau +0", { 2197, 3, 4, 12, 5, 6, 7, 0 }, { AT_ONCE }, 0, -0.0 },
    { "tau -0", { 2197, 3, 4, 12, 5, 6, 7, -0.0 }, { AT_ONCE }, 0, -0.0 },

    /*
    **  With u for 2^971, the last place of the greatest double, x x, x vx and vx vx round to it less u. Then y y, y vy and vy vy are
    **  u/2, 3u/4 and 9u/8, and of z they are 9u/8, 21u/32 and 49u/128: by rounding alone sigma0 goes beyond it, and the sums of squares do not.
    */
    { "4 by sigma0", { 0, 0x1.fffffffffffffp511, 0x1p485, 0x1.8p485, 0x1.fffffffffffffp511, 0x1.8p485, 0x1.cp484, 0 },
      { [KELUBASHI_REFUSAL] = 4 }, 0, 0 },
    { "4 by alpha", { -0x1.2p1022, 1, 0, 0, 0, 0x1.8p511, 0, 0 }, { [KELUBASHI_REFUSAL] = 4 }, 0, 0 },
    { "4 by H", { 0, 0x1p-30, 0, 0, 0, 0, 0, 0x1p1000 }, { [KELUBASHI_REFUSAL] = 4 }, 0, 0 },

    /*
    **  alpha is zero, and the cube of psi vanishes. At 2^(k-420) the time error, times 2^420 and but for its sign, is
    **  2^k - 2^(2k-21) - 2^20.
    */
    { "5", { 0x1p799, 1, 0, 0, -0x1p400, 0, 0, 0x1p-400 }, { [KELUBASHI_REFUSAL] = 5, [KELUBASHI_POINTS] = 41 }, 0, 0 },
    { "5 before the start", { 0x1p799, 1, 0, 0, 0x1p400, 0, 0, -0x1p-400 },
      { [KELUBASHI_REFUSAL] = 5, [KELUBASHI_POINTS] = 41 }, 0, 0 },

    /*
    **  At rest. From 2^332 to 2^341 points are short, and then mu times the cube is zero times infinity. By an infinite time error they
    **  are short from 2^505 to 2^511, and then alpha times the square is.
    */
    { "6 by the time error", { 0, 1, 0, 0, 0, 0, 0, 0x1p352 }, { [KELUBASHI_REFUSAL] = 6, [KELUBASHI_POINTS] = 11 }, 0, 0 },
    { "6 by L", { -0x1p-1074, 0x1p10, 0, 0, 0, 0, 0, 0x1p535 }, { [KELUBASHI_REFUSAL] = 6, [KELUBASHI_POINTS] = 8 }, 0, 0 },

    /* Straight at the centre with no pull: by rounding r is 0, or -1; or r0 c0 and sigma0 s1 are infinite with two signs. */
    { "7 by r at zero", { 0, 8, 0, 0, -3, 0, 0, 3 }, { [KELUBASHI_REFUSAL] = 7, [KELUBASHI_POINTS] = 26 }, 0, 0 },
    { "7 by r below zero", { 0, 11, 0, 0, 1, 0, 0, -12 }, { [KELUBASHI_REFUSAL] = 7, [KELUBASHI_POINTS] = 26 }, 0, 0 },
    { "7 by r a NaN", { 0, 0x1.204a92c57f38ap+471, 0, 0, 0x1.5f6655950ef78p+396, -0.0, 0, -0x1.dd88e233d9e1ap+103 },
      { [KELUBASHI_REFUSAL] = 7, [KELUBASHI_POINTS] = 71 }, 0, 0 },

    /* The cube of r0 is zero; mu over the square of r0 is infinite. */
    { "8 by a divisor", { 0, 0x1p-400, 0, 0, 0, 0, 0, 0x1p-400 }, { [KELUBASHI_REFUSAL] = 8, [KELUBASHI_POINTS] = 21 }, 0, 0 },
    { "8 by a figure", { 0x1p1000, 0x1p-20, 0, 0, 0, 0, 0, 0 }, { [KELUBASHI_REFUSAL] = 8 }, 0, 0 },

    /*
    **  At rest without a force the time error is x psi - tau. The first step vanishes; 0 is tried and is short, 2^-1022
    **  is past, and so is the first proposal, 2^-1074. In units of that, for tau above zero, the errors at 0 and there
    **  are -1 and 1 in the first two cases, since 1.5 rounds to 2, and -2 and 1 in the last two.
    */
    { "T-01, a tie", { 0, 1.5, 0, 0, 0, 0, 0, 0x1p-1074 },
      { [KELUBASHI_POINTS] = 3, [KELUBASHI_X] = 1.5, NO_FORCE, [KELUBASHI_PSI] = 0 }, 0x1p-1074, -0.0 },
    { "T-01, a tie before the start", { 0, 1.5, 0, 0, 0, 0, 0, -0x1p-1074 },
      { [KELUBASHI_POINTS] = 3, [KELUBASHI_X] = 1.5, NO_FORCE, [KELUBASHI_PSI] = -0.0 }, -0x1p-1074, 0 },
    { "T-01, the past end", { 0, 3, 0, 0, 0, 0, 0, 0x1p-1073 },
      { [KELUBASHI_POINTS] = 3, [KELUBASHI_X] = 3, NO_FORCE, [KELUBASHI_PSI] = 0x1p-1074 }, 0x1p-1073, -0.0 },
    { "T-01, the past end before the start", { 0, 3, 0, 0, 0, 0, 0, -0x1p-1073 },
      { [KELUBASHI_POINTS] = 3, [KELUBASHI_X] = 3, NO_FORCE, [KELUBASHI_PSI] = -0x1p-1074 }, -0x1p-1073, 0 }
};

static const struct sample *sample;
static unsigned calls;

/* Ends the test with what differs. */
static void differs(const char *what, size_t place, uint64_t word, uint64_t right)
{
    printf("cases of states: %s: %s, place %zu: %016" PRIX64 ", expected %016" PRIX64 "\n",
           sample->name, what, place, word, right);
    exit(EXIT_FAILURE);
}

static void expect(const char *what, size_t place, uint64_t word, uint64_t right)
{
    if (word != right)
        differs(what, place, word, right);
}

static void lend(uint64_t *room)
{
    size_t i;

    for (i = 0; i < ROOM; i++)
        room[i] = LENT;
}

/* The room holds what was lent, but for the count words of a run that was written. */
static void expect_lent(const char *what, const uint64_t *room, size_t count)
{
    size_t i;

    for (i = 0; i < ROOM; i++)
        if (i < RUN || i >= RUN + count)
            expect(what, i, room[i], LENT);
}

static uint64_t propagate(uint64_t *answer, size_t n)
{
    const double *d = sample->given;

    calls++;
    return kelubashi1_propagate(kelubashi_word(d[0]), kelubashi_word(d[1]), kelubashi_word(d[2]), kelubashi_word(d[3]),
                                kelubashi_word(d[4]), kelubashi_word(d[5]), kelubashi_word(d[6]), kelubashi_word(d[7]),
                                answer, n);
}

static uint64_t partials(uint64_t *answer, size_t n, uint64_t *run, size_t k)
{
    const double *d = sample->given;

    calls++;
    return kelubashi1_partials(kelubashi_word(d[0]), kelubashi_word(d[1]), kelubashi_word(d[2]), kelubashi_word(d[3]),
                               kelubashi_word(d[4]), kelubashi_word(d[5]), kelubashi_word(d[6]), kelubashi_word(d[7]),
                               answer, n, run, k);
}

/* The status and all words of the answer; nothing beside it. */
static void expect_answer(uint64_t status, const uint64_t *room, const double *right)
{
    const uint64_t *answer = room + RUN;
    size_t i;

    expect("status", KELUBASHI_REFUSAL, status, (uint64_t)right[KELUBASHI_REFUSAL]);
    expect("refusal", KELUBASHI_REFUSAL, answer[KELUBASHI_REFUSAL], status);
    expect("points", KELUBASHI_POINTS, answer[KELUBASHI_POINTS], (uint64_t)right[KELUBASHI_POINTS]);
    for (i = KELUBASHI_X; i < KELUBASHI_ANSWER; i++)
        expect("figure", i, answer[i], kelubashi_word(right[i]));
    expect_lent("beside the answer", room, KELUBASHI_ANSWER);
}

static double right_partial(size_t row, size_t column)
{
    if (row >= 3 && column < 3)
        return sample->turned;
    if (row % 3 != column % 3)
        return 0;
    return row < 3 && column >= 3 ? sample->late : 1;
}

/* All 36, or none where the answer is a refusal; nothing beside them. */
static void expect_partials(const uint64_t *room)
{
    size_t row, column;

    if (sample->answer[KELUBASHI_REFUSAL] != 0) {
        expect_lent("partials under a refusal", room, 0);
        return;
    }
    for (row = 0; row < 6; row++)
        for (column = 0; column < 6; column++)
            expect("partial", 6 * row + column, room[RUN + 6 * row + column],
                   kelubashi_word(right_partial(row, column)));
    expect_lent("beside the partials", room, KELUBASHI_PARTIALS);
}

static void answers(void)
{
    uint64_t answer[ROOM], run[ROOM];

    lend(answer);
    expect_answer(propagate(answer + RUN, KELUBASHI_ANSWER), answer, sample->answer);

    lend(answer);
    lend(run);
    expect_answer(partials(answer + RUN, KELUBASHI_ANSWER, run + RUN, KELUBASHI_PARTIALS), answer, sample->answer);
    expect_partials(run);
}

/* 1 comes before the sample's own refusal. */
static void other_runs(void)
{
    static const double refused[KELUBASHI_ANSWER] = { [KELUBASHI_REFUSAL] = 1 };
    static const size_t counts[] = { 1, 35, 37 };
    uint64_t answer[ROOM], run[ROOM];
    size_t i;

    lend(run);
    for (i = 0; i < sizeof counts / sizeof counts[0]; i++) {
        lend(answer);
        expect_answer(partials(answer + RUN, KELUBASHI_ANSWER, run + RUN, counts[i]), answer, refused);
        expect_lent("a run of another length", run, 0);
    }
    lend(answer);
    expect_answer(partials(answer + RUN, KELUBASHI_ANSWER, NULL, 0), answer, refused);
}

/* 60 comes before all else, 1 too. */
static void other_answers(void)
{
    static const size_t counts[] = { 1, 14, 16 };
    uint64_t answer[ROOM], run[ROOM];
    size_t i;

    lend(answer);
    lend(run);
    for (i = 0; i < sizeof counts / sizeof counts[0]; i++) {
        expect("propagate's status", i, propagate(answer + RUN, counts[i]), 60);
        expect("partials' status", i, partials(answer + RUN, counts[i], run + RUN, KELUBASHI_PARTIALS), 60);
        expect("partials' status", i, partials(answer + RUN, counts[i], run + RUN, 35), 60);
    }
    expect("propagate's status", 0, propagate(NULL, 0), 60);
    expect("partials' status", 0, partials(NULL, 0, run + RUN, KELUBASHI_PARTIALS), 60);
    expect("partials' status", 0, partials(NULL, 0, NULL, 0), 60);
    expect_lent("an answer of another length", answer, 0);
    expect_lent("a run behind such an answer", run, 0);
}

/* The first eleven words are a result row: P10's, as document 01 writes it out. */
static void row(void)
{
    static const uint64_t right[11] = {
        0, 21, UINT64_C(0x3FF0000000000000), 0, 0, 0, 0, 0,
        UINT64_C(0x8000000000000000), UINT64_C(0x8000000000000000), UINT64_C(0x8000000000000000)
    };
    static const struct sample p10 = { "P10's row", { 0, 1, 0, 0, 0, 0, 0, 1 }, { 0 }, 0, 0 };
    uint64_t answer[KELUBASHI_ANSWER];
    size_t i;

    sample = &p10;
    propagate(answer, KELUBASHI_ANSWER);
    for (i = 0; i < 11; i++)
        expect("word", i, answer[i], right[i]);
}

/* The end's acceleration stands before the start's; only the start's is known by hand. */
static void two_accelerations(void)
{
    static const struct sample moving = { "a second later", { 2197, 3, 4, 12, 5, 6, 7, 1 }, { 0 }, 0, 0 };
    static const double right[3] = { -3, -4, -12 };
    uint64_t answer[KELUBASHI_ANSWER];
    size_t i;

    sample = &moving;
    expect("status", 0, propagate(answer, KELUBASHI_ANSWER), 0);
    for (i = 0; i < 3; i++) {
        expect("start acceleration", i, answer[KELUBASHI_START_AX + i], kelubashi_word(right[i]));
        if (answer[KELUBASHI_END_AX + i] == kelubashi_word(right[i]))
            differs("end acceleration, which must be another", i, answer[KELUBASHI_END_AX + i], 0);
    }
}

/*
**  T-04. A circle of radius 1 about mu 1, whose alpha is -1, and whose period is 2 pi as a double. After n times that,
**  rounded, n revolutions come off and nothing is left to search: psi is +0 with no points, and the end is the start.
*/
#define PERIOD 0x1.921fb54442d18p+2

static const struct sample *around(double turns)
{
    static struct sample circle = { "T-04, a circle", { 1, 1, 0, 0, 0, 1, 0, 0 },
        { [KELUBASHI_X] = 1, [KELUBASHI_VY] = 1, [KELUBASHI_END_AX] = -1, -0.0, -0.0, [KELUBASHI_START_AX] = -1, -0.0, -0.0 }, 0, 0 };

    circle.given[7] = turns * PERIOD;
    return &circle;
}

static void comes_round(void)
{
    static const double turns[] = { 1, 2, 3, 1000, 1048577, 0x1p40 };
    uint64_t answer[ROOM];
    size_t i;

    for (i = 0; i < 2 * sizeof turns / sizeof turns[0]; i++) {
        sample = around(i % 2 == 0 ? turns[i / 2] : -turns[i / 2]);
        lend(answer);
        expect_answer(propagate(answer + RUN, KELUBASHI_ANSWER), answer, sample->answer);
    }
}

/* Beyond 2^40 revolutions none comes off, and so there is something to search. */
static void too_many(void)
{
    uint64_t answer[KELUBASHI_ANSWER];
    double turns = 0x1p40 + 1;
    int i;

    for (i = 0; i < 2; i++, turns = -turns) {
        sample = around(turns);
        propagate(answer, KELUBASHI_ANSWER);
        if (answer[KELUBASHI_POINTS] == 0)
            differs("points, of which there must be some", KELUBASHI_POINTS, 0, 1);
    }
}

/*
**  T-05. Each of the eight alone, and every two of them, as an infinity and as a NaN of either sign, in words that would be
**  answered, or refused by 3 or by 4: the first is told.
*/
static const struct {
    const char *name;
    double refusal;
} FIGURES[8] = {
    { "T-05, mu", 31 }, { "T-05, x", 32 }, { "T-05, y", 33 }, { "T-05, z", 34 },
    { "T-05, vx", 35 }, { "T-05, vy", 36 }, { "T-05, vz", 37 }, { "T-05, tau", 38 }
};

static void not_finite(void)
{
    static const double otherwise[][8] = { { 2197, 3, 4, 12, 5, 6, 7, 1 }, { 0, 0, 0, 0, 0, 0, 0, 0 }, { 0, 0x1p600, 0, 0, 0, 0, 0, 0 } };
    const double bad[] = { NAN, -NAN, INFINITY, -INFINITY };
    static struct sample one;
    size_t first, last, i;

    sample = &one;
    for (first = 0; first < 8; first++)
        for (last = first; last < 8; last++)
            for (i = 0; i < 3 * 4 * 4; i++) {
                memcpy(one.given, otherwise[i / 16], sizeof one.given);
                one.given[last] = bad[i % 4];
                one.given[first] = bad[i / 4 % 4];
                one.name = FIGURES[first].name;
                one.answer[KELUBASHI_REFUSAL] = FIGURES[first].refusal;
                answers();
                other_runs();
                other_answers();
            }
}

/* All eight at once; and finite doubles at the edges, whose squares are infinite or zero. */
static void all_alike(void)
{
    static const double edges[][2] = {
        { NAN, 31 }, { INFINITY, 31 }, { DBL_MAX, 4 }, { -DBL_MAX, 4 }, { DBL_MIN, 3 }, { 0x1p-1074, 3 }, { -0.0, 3 }
    };
    static struct sample one = { "T-05, eight alike", { 0 }, { 0 }, 0, 0 };
    size_t i, k;

    sample = &one;
    for (i = 0; i < sizeof edges / sizeof edges[0]; i++) {
        for (k = 0; k < 8; k++)
            one.given[k] = edges[i][0];
        one.answer[KELUBASHI_REFUSAL] = edges[i][1];
        answers();
    }
}

int main(void)
{
    size_t count = sizeof SAMPLES / sizeof SAMPLES[0];

    for (sample = SAMPLES; sample < SAMPLES + count; sample++) {
        answers();
        other_runs();
        other_answers();
    }
    row();
    two_accelerations();
    comes_round();
    too_many();
    not_finite();
    all_alike();
    printf("cases of states: P6 to P12, both zeros of tau, refusals 4 to 8, the nearer end, whole revolutions, figures that are not finite, "
           "runs of other lengths: %u calls, none differs\n", calls);
    return EXIT_SUCCESS;
}
