/*
**  The self-check: first the processor's own arithmetic, then the library by some marked cases.
**
**  The compiler must not work anything out beforehand, when the processor is still sound: so every
**  number comes out of a volatile place. Numbers are compared as words, since a processor that takes
**  subnormals for zero finds them equal to zero.
**
**  The cases stand apart, in kelubashi_selfcheck_cases.h beside this file.
*/
#include "kelubashi_selfcheck.h"

#include "kelubashi.h"
#include "kelubashi_selfcheck_cases.h"

#include <inttypes.h>
#include <stdio.h>

/* ---- the processor ---- */

/* The words of a sum, a product and a quotient of the doubles of two words. */
static uint64_t sum(uint64_t a, uint64_t b)
{
    volatile double left = kelubashi_figure(a), right = kelubashi_figure(b), result;

    result = left + right;
    return kelubashi_word(result);
}

static uint64_t product(uint64_t a, uint64_t b)
{
    volatile double left = kelubashi_figure(a), right = kelubashi_figure(b), result;

    result = left * right;
    return kelubashi_word(result);
}

static uint64_t quotient(uint64_t a, uint64_t b)
{
    volatile double left = kelubashi_figure(a), right = kelubashi_figure(b), result;

    result = left / right;
    return kelubashi_word(result);
}

static const uint64_t ONE = W(3FF0000000000000), MINUS_ONE = W(BFF0000000000000);

#define SET_BACK ": call fesetround(FE_TONEAREST) before the library, and look for what changed it"

/* A little beside 1 or -1 goes back to it when rounded to nearest; each other way leaves it somewhere. */
static const char *rounding(void)
{
    const uint64_t little = W(3C30000000000000), minus_little = W(BC30000000000000);    /* 2^-60 */

    if (sum(ONE, little) != ONE)
        return "the processor rounds upward and not to nearest" SET_BACK;
    if (sum(MINUS_ONE, minus_little) != MINUS_ONE)
        return "the processor rounds downward and not to nearest" SET_BACK;
    if (sum(ONE, minus_little) != ONE)
        return "the processor rounds toward zero and not to nearest" SET_BACK;

    /* 1/3 goes down and 1/10 up; 1 + 2^-53 and 1 + 3 * 2^-53 lie in the middle and go to the even one */
    if (quotient(ONE, W(4008000000000000)) != W(3FD5555555555555) ||
        quotient(ONE, W(4024000000000000)) != W(3FB999999999999A) ||
        sum(ONE, W(3CA0000000000000)) != ONE ||
        sum(W(3FF0000000000001), W(3CA0000000000000)) != W(3FF0000000000002))
        return "the processor does not round to the nearest double, ties to even" SET_BACK;
    return NULL;
}

#define KEEP_THEM ": link without -ffast-math and -Ofast, or look for what sets MXCSR"

/* 2^-1022 is the least normal number, and its half is subnormal: once as a result, once as an operand. */
static const char *subnormals(void)
{
    const uint64_t least = W(0010000000000000), its_half = W(0008000000000000);
    int results = product(least, W(3FE0000000000000)) == its_half;
    int operands = product(its_half, W(4000000000000000)) == least;

    if (!results && !operands)
        return "the processor makes subnormal results zero (FTZ) and takes subnormal operands for zero (DAZ)" KEEP_THEM;
    if (!results)
        return "the processor makes subnormal results zero (FTZ)" KEEP_THEM;
    if (!operands)
        return "the processor takes subnormal operands for zero (DAZ)" KEEP_THEM;
    return NULL;
}

/* ---- the library ---- */

static char line[256];

#define ASTRAY(form) "the library does not answer as edition 1 does at %s: %s is " form " and not " form \
                     ": link the libkelubashi.a that came with this kelubashi.h"

/* The line for a case at which the library answers another whole number, or the word of another double. */
static const char *astray_number(const char *name, const char *what, uint64_t number, uint64_t right)
{
    snprintf(line, sizeof line, ASTRAY("%" PRIu64), name, what, number, right);
    return line;
}

static const char *astray_word(const char *name, const char *what, uint64_t word, uint64_t right)
{
    snprintf(line, sizeof line, ASTRAY("%016" PRIX64), name, what, word, right);
    return line;
}

static const char *root(const struct root *at)
{
    volatile uint64_t given = at->given;
    uint64_t answer = LENT;
    uint64_t status = kelubashi1_root(given, &answer, 1);

    if (status != at->status)
        return astray_number(at->name, "the status", status, at->status);
    if (answer != at->right)
        return astray_word(at->name, "the root", answer, at->right);
    return NULL;
}

/* The words of an answer, by the header's numbers. */
static const char *const NAMES[KELUBASHI_ANSWER] = {
    "the refusal", "the count of points", "x", "y", "z", "vx", "vy", "vz",
    "ax at the end", "ay at the end", "az at the end", "ax at the start", "ay at the start", "az at the start", "psi"
};

/* The first word of a run that is not the right one, by its name; the first so many are whole numbers. */
static const char *astray(const char *name, const char *const *names, const uint64_t *words, const uint64_t *right,
                          int count, int numbers)
{
    int i;

    for (i = 0; i < count; i++)
        if (words[i] != right[i])
            return (i < numbers ? astray_number : astray_word)(name, names[i], words[i], right[i]);
    return NULL;
}

static void lend(uint64_t *words, int count)
{
    int i;

    for (i = 0; i < count; i++)
        words[i] = LENT;
}

static const char *orbit(const struct orbit *at)
{
    volatile uint64_t given[8];
    uint64_t answer[KELUBASHI_ANSWER], status;
    int i;

    for (i = 0; i < 8; i++)
        given[i] = at->given[i];
    lend(answer, KELUBASHI_ANSWER);
    status = kelubashi1_propagate(given[0], given[1], given[2], given[3], given[4], given[5], given[6], given[7],
                                  answer, KELUBASHI_ANSWER);
    if (status != at->right[KELUBASHI_REFUSAL])
        return astray_number(at->name, "the status", status, at->right[KELUBASHI_REFUSAL]);
    return astray(at->name, NAMES, answer, at->right, KELUBASHI_ANSWER, KELUBASHI_X);
}

/* ---- NaNs from one of the eight on ---- */

static const char *figure(size_t first)
{
    struct orbit bad = { NULL, { 0 }, { 0 } };
    size_t i;

    bad.name = NANS[first];
    for (i = 0; i < 8; i++)
        bad.given[i] = i < first ? LOW_ORBIT->given[i] : NAN_WORD;
    bad.right[KELUBASHI_REFUSAL] = 31 + first;
    return orbit(&bad);
}

/* ---- the partials, and none where the run is a word short ---- */

static const char *partials(size_t k, uint64_t right_status)
{
    const char *name = right_status == 0 ? "the partials of the low Earth orbit" : "a run of 35 words for the partials";
    const uint64_t *g = LOW_ORBIT->given;
    uint64_t answer[KELUBASHI_ANSWER], run[KELUBASHI_PARTIALS], status;
    int i;

    lend(answer, KELUBASHI_ANSWER);
    lend(run, KELUBASHI_PARTIALS);
    status = kelubashi1_partials(g[0], g[1], g[2], g[3], g[4], g[5], g[6], g[7], answer, KELUBASHI_ANSWER, run, k);
    if (status != right_status)
        return astray_number(name, "the status", status, right_status);
    if (answer[KELUBASHI_X] != (status == 0 ? LOW_ORBIT->right[KELUBASHI_X] : 0))
        return astray_word(name, "x", answer[KELUBASHI_X], status == 0 ? LOW_ORBIT->right[KELUBASHI_X] : 0);
    for (i = 0; i < KELUBASHI_PARTIALS; i++)
        if (run[i] != (status == 0 ? PARTIALS[i] : LENT))
            return astray_word(name, "a partial", run[i], status == 0 ? PARTIALS[i] : LENT);
    return NULL;
}

/* ---- the element file and its result file ---- */

static uint8_t file[FILE_BYTES], room[ROOM];

/* The lowest byte first, on every machine. */
static void put_bytes(const uint64_t *words, int count, uint8_t *bytes)
{
    int i;

    for (i = 0; i < 8 * count; i++)
        bytes[i] = (uint8_t)(words[i / 8] >> 8 * (i % 8));
}

static uint64_t word_at(const uint8_t *bytes)
{
    uint64_t word = 0;
    int i;

    for (i = 7; i >= 0; i--)
        word = word << 8 | bytes[i];
    return word;
}

/* The room holds these words and, behind them, what it held when it was lent. */
static const char *room_astray(const char *name, const uint64_t *right, int count)
{
    int i;

    for (i = 0; i < ROOM / 8; i++) {
        uint64_t word = word_at(room + 8 * i), here = i < count ? right[i] : LENT;
        if (word != here)
            return astray_word(name, "a word of the room", word, here);
    }
    return NULL;
}

static void lend_room(void)
{
    uint64_t words[ROOM / 8];

    lend(words, ROOM / 8);
    put_bytes(words, ROOM / 8, room);
}

static const char *const READ_NAMES[KELUBASHI_READ_ANSWER] = {
    "the refusal", "the place", "the place of the centres", "their count", "the place of the states", "their count",
    "the place of the requests", "their count"
};

static const char *const LENGTH_NAMES[KELUBASHI_WRITE_ANSWER] = { "the refusal", "the length" };

static const char *reading(const char *name, size_t length, const uint64_t *right)
{
    uint64_t answer[KELUBASHI_READ_ANSWER], status;

    lend(answer, KELUBASHI_READ_ANSWER);
    status = kelubashi1_read(file, length, answer, KELUBASHI_READ_ANSWER);
    if (status != right[0])
        return astray_number(name, "the status", status, right[0]);
    return astray(name, READ_NAMES, answer, right, KELUBASHI_READ_ANSWER, KELUBASHI_READ_ANSWER);
}

static const char *writing(const char *name, size_t size, const uint64_t *right)
{
    uint64_t answer[KELUBASHI_WRITE_ANSWER], status;
    const char *wrong;

    lend_room();
    lend(answer, KELUBASHI_WRITE_ANSWER);
    status = kelubashi1_write(ELEMENTS + 2, 1, ELEMENTS + 4, KELUBASHI_STATE, ELEMENTS + 13, KELUBASHI_REQUEST,
                              room, size, answer, KELUBASHI_WRITE_ANSWER);
    if (status != right[0])
        return astray_number(name, "the status", status, right[0]);
    wrong = astray(name, LENGTH_NAMES, answer, right, KELUBASHI_WRITE_ANSWER, KELUBASHI_WRITE_ANSWER);
    return wrong != NULL ? wrong : room_astray(name, ELEMENTS, status == 0 ? FILE_WORDS : 0);
}

static const char *results(const char *name, size_t length, const uint64_t *rows, int count)
{
    const uint64_t right[KELUBASHI_RESULTS_ANSWER] = { 0, 8 * (uint64_t)count };
    uint64_t answer[KELUBASHI_RESULTS_ANSWER], status;
    const char *wrong;

    lend_room();
    lend(answer, KELUBASHI_RESULTS_ANSWER);
    status = kelubashi1_results(file, length, room, ROOM, answer, KELUBASHI_RESULTS_ANSWER);
    if (status != 0)
        return astray_number(name, "the status", status, 0);
    wrong = astray(name, LENGTH_NAMES, answer, right, KELUBASHI_RESULTS_ANSWER, KELUBASHI_RESULTS_ANSWER);
    return wrong != NULL ? wrong : room_astray(name, rows, count);
}

/* The three calls that take files, on P10's, whole and a byte short. */
static const char *files(void)
{
    static const uint64_t READ[KELUBASHI_READ_ANSWER] = { 0, 0, 8, 1, 24, 1, 96, 1 };
    static const uint64_t SHORT[KELUBASHI_READ_ANSWER] = { 21, 112, 0, 0, 0, 0, 0, 0 };
    static const uint64_t WRITTEN[KELUBASHI_WRITE_ANSWER] = { 0, FILE_BYTES };
    static const uint64_t NO_ROOM[KELUBASHI_WRITE_ANSWER] = { 26, FILE_BYTES };
    const char *wrong;

    put_bytes(ELEMENTS, FILE_WORDS, file);
    if ((wrong = reading("reading P10's file", FILE_BYTES, READ)) != NULL ||
        (wrong = reading("reading P10's file, a byte short", FILE_BYTES - 1, SHORT)) != NULL ||
        (wrong = writing("writing P10's file", ROOM, WRITTEN)) != NULL ||
        (wrong = writing("writing P10's file, in room a byte short", FILE_BYTES - 1, NO_ROOM)) != NULL ||
        (wrong = results("the results of P10's file", FILE_BYTES, RESULTS, RESULT_WORDS)) != NULL)
        return wrong;
    return results("the results of P10's file, a byte short", FILE_BYTES - 1, REFUSED, REFUSED_WORDS);
}

/* ---- intervals ---- */

static const char *interval(const struct interval *at)
{
    volatile uint64_t time = at->time, epoch = at->epoch;
    uint64_t answer = LENT;
    uint64_t status = kelubashi1_interval(time, epoch, &answer, 1);

    if (status != 0)
        return astray_number(at->name, "the status", status, 0);
    if (answer != at->right)
        return astray_word(at->name, "the interval", answer, at->right);
    return NULL;
}

/* ---- rows of another station ---- */

static uint8_t rows_file[CHECKED_BYTES];

static void put_row(const struct checked *at, uint8_t *bytes)
{
    const struct orbit *of = &ORBITS[at->orbit];
    uint64_t row[KELUBASHI_CHECK_ROW];

    memcpy(row + KELUBASHI_CHECK_MU, of->given, sizeof of->given);
    row[KELUBASHI_CHECK_PSI] = of->right[KELUBASHI_PSI];
    memcpy(row + KELUBASHI_CHECK_X, of->right + KELUBASHI_X, 9 * sizeof row[0]);
    row[at->word] ^= at->bits;
    put_bytes(row, KELUBASHI_CHECK_ROW, bytes);
}

static const char *const CHECK_NAMES[KELUBASHI_CHECK_ANSWER] = { "the refusal", "the count of rows, or the place," };

/* The verdicts of so many rows, and behind them the words that were lent. */
static const char *verdicts_astray(const char *name, const uint64_t *verdicts, int rows)
{
    int i;

    for (i = 0; i < rows; i++)
        if (verdicts[i] != CHECKED[i].verdict)
            return astray_number(CHECKED[i].name, "the verdict", verdicts[i], CHECKED[i].verdict);
    for (; i <= CHECKED_ROWS; i++)
        if (verdicts[i] != LENT)
            return astray_word(name, "a word that is no verdict", verdicts[i], LENT);
    return NULL;
}

static const char *checking(const char *name, size_t length, size_t k, const uint64_t *right)
{
    uint64_t verdicts[CHECKED_ROWS + 1], answer[KELUBASHI_CHECK_ANSWER], status;
    const char *wrong;

    lend(verdicts, CHECKED_ROWS + 1);
    lend(answer, KELUBASHI_CHECK_ANSWER);
    status = kelubashi1_check(rows_file, length, verdicts, k, answer, KELUBASHI_CHECK_ANSWER);
    if (status != right[0])
        return astray_number(name, "the status", status, right[0]);
    wrong = astray(name, CHECK_NAMES, answer, right, KELUBASHI_CHECK_ANSWER, KELUBASHI_CHECK_ANSWER);
    return wrong != NULL ? wrong : verdicts_astray(name, verdicts, status == 0 ? CHECKED_ROWS : 0);
}

static const char *rows(void)
{
    static const uint64_t JUDGED[KELUBASHI_CHECK_ANSWER] = { 0, CHECKED_ROWS };
    static const uint64_t SHORT[KELUBASHI_CHECK_ANSWER] = { 21, CHECKED_BYTES - 8 };
    static const uint64_t NO_ROOM[KELUBASHI_CHECK_ANSWER] = { 26, CHECKED_ROWS };
    const uint64_t count = CHECKED_ROWS;
    const char *wrong;
    int i;

    put_bytes(&count, 1, rows_file);
    for (i = 0; i < CHECKED_ROWS; i++)
        put_row(&CHECKED[i], rows_file + 8 + 8 * KELUBASHI_CHECK_ROW * i);
    if ((wrong = checking("checking rows", CHECKED_BYTES, CHECKED_ROWS + 1, JUDGED)) != NULL ||
        (wrong = checking("checking rows, a byte short", CHECKED_BYTES - 1, CHECKED_ROWS, SHORT)) != NULL)
        return wrong;
    return checking("checking rows, with a run a word short", CHECKED_BYTES, CHECKED_ROWS - 1, NO_ROOM);
}

/* ---- two result files ---- */

static uint8_t left_file[COMPARED_BYTES], right_file[COMPARED_BYTES];

/* A row of the result file, with this in one of its words. */
static void put_result(const struct compared *at, uint64_t word, uint8_t *bytes)
{
    uint64_t row[KELUBASHI_ROW];

    memcpy(row, RESULTS + 2, sizeof row);
    row[at->word] = word;
    put_bytes(row, KELUBASHI_ROW, bytes);
}

static void put_results(void)
{
    const uint64_t head[2] = { 1, COMPARED_ROWS };
    int i;

    put_bytes(head, 2, left_file);
    put_bytes(head, 2, right_file);
    for (i = 0; i < COMPARED_ROWS; i++) {
        put_result(&COMPARED[i], COMPARED[i].left, left_file + 16 + 8 * KELUBASHI_ROW * i);
        put_result(&COMPARED[i], COMPARED[i].right, right_file + 16 + 8 * KELUBASHI_ROW * i);
    }
}

/* What is told of one row. */
static const char *told_astray(const struct compared *at, const uint64_t *told)
{
    uint64_t other = at->row == KELUBASHI_ROW_ANSWERED ? KELUBASHI_FIGURE_DISTANCE : KELUBASHI_FIGURE_UNTOLD;
    int i;

    if (told[0] != at->row)
        return astray_number(at->name, "the kind of row", told[0], at->row);
    for (i = KELUBASHI_X; i < KELUBASHI_ROW; i++) {
        const uint64_t *of = told + 1 + 2 * (i - KELUBASHI_X);
        uint64_t kind = i == at->word ? at->figure : other, distance = i == at->word ? at->distance : 0;
        if (of[0] != kind)
            return astray_number(at->name, "the kind of a figure", of[0], kind);
        if (of[1] != distance)
            return astray_number(at->name, "a distance", of[1], distance);
    }
    return NULL;
}

static const char *const COMPARE_NAMES[KELUBASHI_COMPARE_ANSWER] = {
    "the refusal", "the side", "the place", "the count of rows", "the row of the largest distance", "its word", "the largest distance"
};

static const char *comparing(const char *name, size_t right_length, size_t k, const uint64_t *right)
{
    uint64_t told[TOLD_WORDS + 1], answer[KELUBASHI_COMPARE_ANSWER], status;
    const char *wrong;
    int i, rows;

    lend(told, TOLD_WORDS + 1);
    lend(answer, KELUBASHI_COMPARE_ANSWER);
    status = kelubashi1_compare(left_file, COMPARED_BYTES, right_file, right_length, told, k, answer, KELUBASHI_COMPARE_ANSWER);
    if (status != right[0])
        return astray_number(name, "the status", status, right[0]);
    wrong = astray(name, COMPARE_NAMES, answer, right, KELUBASHI_COMPARE_ANSWER, KELUBASHI_COMPARE_ANSWER);
    rows = status == 0 ? COMPARED_ROWS : 0;
    for (i = 0; wrong == NULL && i < rows; i++)
        wrong = told_astray(&COMPARED[i], told + KELUBASHI_COMPARED * i);
    for (i = KELUBASHI_COMPARED * rows; wrong == NULL && i <= TOLD_WORDS; i++)
        if (told[i] != LENT)
            wrong = astray_word(name, "a word that tells of no row", told[i], LENT);
    return wrong;
}

static const char *two_files(void)
{
    static const uint64_t TOLD[KELUBASHI_COMPARE_ANSWER] = { 0, 0, 0, COMPARED_ROWS, FIRST_LARGEST, KELUBASHI_VZ, 2 * LARGEST };
    static const uint64_t SHORT[KELUBASHI_COMPARE_ANSWER] = { 21, 1, COMPARED_BYTES - 8, 0, 0, 0, 0 };
    static const uint64_t NO_ROOM[KELUBASHI_COMPARE_ANSWER] = { 26, 0, TOLD_WORDS, 0, 0, 0, 0 };
    static const uint64_t COUNTS[KELUBASHI_COMPARE_ANSWER] = { 51, 0, 0, 0, 0, 0, 0 };
    const uint64_t fewer = COMPARED_ROWS - 1;
    const char *wrong;

    put_results();
    if ((wrong = comparing("comparing results", COMPARED_BYTES, TOLD_WORDS + 1, TOLD)) != NULL ||
        (wrong = comparing("comparing results, the right file a byte short", COMPARED_BYTES - 1, TOLD_WORDS, SHORT)) != NULL ||
        (wrong = comparing("comparing results, with a run a word short", COMPARED_BYTES, TOLD_WORDS - 1, NO_ROOM)) != NULL)
        return wrong;
    put_bytes(&fewer, 1, right_file + 8);
    return comparing("comparing results, a row fewer on the right", COMPARED_BYTES - 8 * KELUBASHI_ROW, TOLD_WORDS, COUNTS);
}

/* ---- a list kept beside the states ---- */

static uint64_t states[KELUBASHI_STATE_RUN], list[LISTED];

static const char *const CHANGE_NAMES[KELUBASHI_CHANGE_ANSWER] = { "the refusal", "the count of states" };

static const char *const LIST_NAMES[LISTED] = {
    "the states of centre 0", "its NaN epochs", "its earliest epoch", "its latest epoch",
    "the states of centre 1", "its NaN epochs", "its earliest epoch", "its latest epoch"
};

/* The call, with so many states in use. */
static uint64_t ask(const struct change *at, uint64_t count, uint64_t *answer)
{
    switch (at->asked) {
    case APPEND:
        return kelubashi1_append(RECORDS[at->which], KELUBASHI_STATE, states, at->words, count, CENTRES,
                                 list, at->listed, answer, KELUBASHI_CHANGE_ANSWER);
    case WITHDRAW:
        return kelubashi1_withdraw(at->which, states, at->words, count, CENTRES, list, at->listed, answer,
                                   KELUBASHI_CHANGE_ANSWER);
    default:
        lend(list, LISTED);
        return kelubashi1_summary(states, at->words, count, CENTRES, list, at->listed, answer,
                                  KELUBASHI_CHANGE_ANSWER);
    }
}

static const char *records_astray(const struct change *at)
{
    int i;

    for (i = 0; i < LOOKED_AT * KELUBASHI_STATE; i++) {
        int record = at->records[i / KELUBASHI_STATE];
        uint64_t here = record < 0 ? LENT : RECORDS[record][i % KELUBASHI_STATE];
        if (states[i] != here)
            return astray_word(at->name, "a word of the states", states[i], here);
    }
    return NULL;
}

static const char *change(const struct change *at, uint64_t count)
{
    uint64_t answer[KELUBASHI_CHANGE_ANSWER], status;
    const char *wrong;

    lend(answer, KELUBASHI_CHANGE_ANSWER);
    status = ask(at, count, answer);
    if (status != at->right[0])
        return astray_number(at->name, "the status", status, at->right[0]);
    wrong = astray(at->name, CHANGE_NAMES, answer, at->right, KELUBASHI_CHANGE_ANSWER, KELUBASHI_CHANGE_ANSWER);
    if (wrong == NULL)
        wrong = astray(at->name, LIST_NAMES, list, at->entries, LISTED, 0);
    return wrong != NULL ? wrong : records_astray(at);
}

/* All changes, one after another, of states and a list that are lent once. */
static const char *changes(void)
{
    const char *wrong = NULL;
    uint64_t count = 0;
    size_t i;

    lend(states, KELUBASHI_STATE_RUN);
    lend(list, LISTED);
    for (i = 0; wrong == NULL && i < sizeof CHANGES / sizeof CHANGES[0]; i++) {
        wrong = change(&CHANGES[i], count);
        count = CHANGES[i].right[KELUBASHI_CHANGE_COUNT];
    }
    return wrong;
}

const char *kelubashi_selfcheck(void)
{
    const char *wrong = rounding();
    size_t i;

    if (wrong == NULL)
        wrong = subnormals();
    for (i = 0; wrong == NULL && i < sizeof ROOTS / sizeof ROOTS[0]; i++)
        wrong = root(&ROOTS[i]);
    for (i = 0; wrong == NULL && i < sizeof ORBITS / sizeof ORBITS[0]; i++)
        wrong = orbit(&ORBITS[i]);
    for (i = 0; wrong == NULL && i < 8; i++)
        wrong = figure(i);
    if (wrong == NULL)
        wrong = partials(KELUBASHI_PARTIALS, 0);
    if (wrong == NULL)
        wrong = partials(KELUBASHI_PARTIALS - 1, 1);
    if (wrong == NULL)
        wrong = files();
    for (i = 0; wrong == NULL && i < sizeof INTERVALS / sizeof INTERVALS[0]; i++)
        wrong = interval(&INTERVALS[i]);
    if (wrong == NULL)
        wrong = rows();
    if (wrong == NULL)
        wrong = two_files();
    return wrong != NULL ? wrong : changes();
}
