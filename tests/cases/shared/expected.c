#include "expected.h"

#include <inttypes.h>
#include <stdio.h>
#include <stdlib.h>
#include <string.h>

#define EDGE 8     /* bytes before and behind a room */
#define BEYOND 3     /* words of a run beyond what is written */
#define MOST_VERDICTS (KELUBASHI_MOST_CHECK_ROWS + BEYOND)
#define MOST_TOLD (KELUBASHI_MOST_COMPARED + BEYOND)

/* What a call is lent, with a word or some bytes on either side. */
struct memory {
    uint64_t answer[1 + KELUBASHI_READ_ANSWER + 1];
    uint8_t room[EDGE + MOST_ROOM + EDGE];
    uint64_t run[1 + MOST_TOLD + 1];     /* for verdicts, or for what is told of rows */
};

struct file file, right_file;
struct runs runs;
unsigned calls;

static struct file results;
static struct memory lent, right, filled;     /* the first two are filled like the third; what has to be written is then put to the second */
static size_t room_bytes, run_words;     /* of these, what a call is lent, and the edges */

/* ---- what is lent, and what has to be there afterwards ---- */

static void fill_words(uint64_t *words, size_t count)
{
    size_t i;

    for (i = 0; i < count; i++)
        words[i] = UINT64_C(0x5EED5EED5EED5EED) + i;
}

static void fill(struct memory *memory)
{
    size_t i;

    fill_words(memory->answer, sizeof memory->answer / sizeof memory->answer[0]);
    fill_words(memory->run, sizeof memory->run / sizeof memory->run[0]);
    for (i = 0; i < sizeof memory->room; i++)
        memory->room[i] = (uint8_t)(0xA5 + i % 251);
}

static void fill_again(struct memory *memory)
{
    memcpy(memory->answer, filled.answer, sizeof memory->answer);
    memcpy(memory->room, filled.room, room_bytes);
    memcpy(memory->run, filled.run, run_words * sizeof *memory->run);
}

/* A room of so many bytes, and a run of so many words. */
static void lend(size_t size, size_t k)
{
    if (calls++ == 0)
        fill(&filled);
    room_bytes = EDGE + size + EDGE;
    run_words = 1 + k + 1;
    fill_again(&lent);
    fill_again(&right);
}

/* Ends the test with what differs. */
static void differs(const char *name, const char *call, const char *what, long place, uint64_t value, uint64_t expected)
{
    printf("%s: %s: %s: %s %ld: %" PRIX64 ", expected %" PRIX64 " (hex)\n", test_name, name, call, what, place, value,
           expected);
    exit(EXIT_FAILURE);
}

/* The status, and all that was lent, from edge to edge. */
static void expect(const char *name, const char *call, uint64_t status, uint64_t expected)
{
    size_t i;

    if (status != expected)
        differs(name, call, "status, place", 0, status, expected);
    if (memcmp(lent.answer, right.answer, sizeof lent.answer) == 0 && memcmp(lent.room, right.room, room_bytes) == 0
        && memcmp(lent.run, right.run, run_words * sizeof *lent.run) == 0)
        return;
    for (i = 0; i < sizeof lent.answer / sizeof *lent.answer; i++)
        if (lent.answer[i] != right.answer[i])
            differs(name, call, "answer, word", (long)i - 1, lent.answer[i], right.answer[i]);
    for (i = 0; i < room_bytes; i++)
        if (lent.room[i] != right.room[i])
            differs(name, call, "room, byte", (long)i - EDGE, lent.room[i], right.room[i]);
    for (i = 0; i < run_words; i++)
        if (lent.run[i] != right.run[i])
            differs(name, call, "run, word", (long)i - 1, lent.run[i], right.run[i]);
}

/* ---- files of words ---- */

/* "Little-endian 64-bit words". */
void put_word(struct file *f, size_t place, uint64_t word)
{
    int i;

    for (i = 0; i < 8; i++)
        f->bytes[place + (size_t)i] = (uint8_t)(word >> 8 * i);
}

static void add_words(struct file *f, const uint64_t *words, size_t count)
{
    size_t i;

    for (i = 0; i < count; i++, f->length += 8)
        put_word(f, f->length, words[i]);
}

void words_of(struct file *f, const uint64_t *words, size_t count)
{
    f->length = 0;
    add_words(f, words, count);
}

static void add_section(const uint64_t *run, size_t words, size_t width)
{
    uint64_t count = words / width;

    add_words(&file, &count, 1);
    add_words(&file, run, words);
}

/* "the edition, 1; then sections in a fixed order, each after its count". */
void file_of_runs(void)
{
    static const uint64_t edition = 1;

    words_of(&file, &edition, 1);
    add_section(runs.centres, runs.centre_words, 1);
    add_section(runs.states, runs.state_words, KELUBASHI_STATE);
    add_section(runs.requests, runs.request_words, KELUBASHI_REQUEST);
}

void runs_of(size_t centre_words, size_t state_words, size_t request_words)
{
    memset(&runs, 0, sizeof runs);
    runs.centre_words = centre_words;
    runs.state_words = state_words;
    runs.request_words = request_words;
}

/* ---- the calls; a count of 0 comes with a null pointer ---- */

static const uint8_t *bytes_of(const struct file *f)
{
    return f->length ? f->bytes : NULL;
}

static const uint64_t *run_of(const uint64_t *run, size_t words)
{
    return words ? run : NULL;
}

static uint8_t *room_of(size_t size)
{
    return size ? lent.room + EDGE : NULL;
}

static uint64_t *answer_of(size_t n)
{
    return n ? lent.answer + 1 : NULL;
}

static uint64_t read_file(size_t n)
{
    lend(0, 0);
    return kelubashi1_read(bytes_of(&file), file.length, answer_of(n), n);
}

static uint64_t write_runs(size_t size, size_t n)
{
    lend(size, 0);
    return kelubashi1_write(run_of(runs.centres, runs.centre_words), runs.centre_words,
                            run_of(runs.states, runs.state_words), runs.state_words,
                            run_of(runs.requests, runs.request_words), runs.request_words,
                            room_of(size), size, answer_of(n), n);
}

static uint64_t write_results(size_t size, size_t n)
{
    lend(size, 0);
    return kelubashi1_results(bytes_of(&file), file.length, room_of(size), size, answer_of(n), n);
}

static uint64_t *words_for(size_t k)
{
    return k ? lent.run + 1 : NULL;
}

static uint64_t check_rows(size_t k, size_t n)
{
    lend(0, k);
    return kelubashi1_check(bytes_of(&file), file.length, words_for(k), k, answer_of(n), n);
}

static uint64_t compare_files(size_t k, size_t n)
{
    lend(0, k);
    return kelubashi1_compare(bytes_of(&file), file.length, bytes_of(&right_file), right_file.length, words_for(k), k, answer_of(n), n);
}

/* ---- what is expected ---- */

void reads(const char *name, const uint64_t *answer)
{
    uint64_t status = read_file(KELUBASHI_READ_ANSWER);

    memcpy(right.answer + 1, answer, KELUBASHI_READ_ANSWER * sizeof *answer);
    expect(name, "read", status, answer[KELUBASHI_READ_REFUSAL]);
}

void writes_file(const char *name, size_t size)
{
    uint64_t status = write_runs(size, KELUBASHI_WRITE_ANSWER);

    right.answer[1 + KELUBASHI_WRITE_REFUSAL] = 0;
    right.answer[1 + KELUBASHI_WRITE_LENGTH] = file.length;
    memcpy(right.room + EDGE, file.bytes, file.length);
    expect(name, "write", status, 0);
}

void refuses_runs(const char *name, size_t size, uint64_t number, uint64_t place)
{
    uint64_t status = write_runs(size, KELUBASHI_WRITE_ANSWER);

    right.answer[1 + KELUBASHI_WRITE_REFUSAL] = number;
    right.answer[1 + KELUBASHI_WRITE_PLACE] = place;
    expect(name, "write", status, number);
}

void needs_room(const char *name, size_t size, uint64_t length)
{
    uint64_t status = write_results(size, KELUBASHI_RESULTS_ANSWER);

    right.answer[1 + KELUBASHI_RESULTS_REFUSAL] = 26;
    right.answer[1 + KELUBASHI_RESULTS_LENGTH] = length;
    expect(name, "results", status, 26);
}

static void writes_results_in(const char *name, size_t size)
{
    uint64_t status = write_results(size, KELUBASHI_RESULTS_ANSWER);

    right.answer[1 + KELUBASHI_RESULTS_REFUSAL] = 0;
    right.answer[1 + KELUBASHI_RESULTS_LENGTH] = results.length;
    memcpy(right.room + EDGE, results.bytes, results.length);
    expect(name, "results", status, 0);
}

void writes_results(const char *name, const uint64_t *words, size_t count)
{
    words_of(&results, words, count);
    needs_room(name, 0, results.length);
    needs_room(name, results.length - 1, results.length);
    writes_results_in(name, results.length);
    writes_results_in(name, results.length + TAIL);
}

/* With a run of this count: the number and the place, or the rows and, where the number is 0, their verdicts. */
static void checks(const char *name, size_t k, uint64_t number, uint64_t place, const uint64_t *verdicts)
{
    uint64_t status = check_rows(k, KELUBASHI_CHECK_ANSWER);

    right.answer[1 + KELUBASHI_CHECK_REFUSAL] = number;
    right.answer[1 + KELUBASHI_CHECK_PLACE] = place;
    if (number == 0)
        memcpy(right.run + 1, verdicts, (size_t)place * sizeof *verdicts);
    expect(name, "check", status, number);
}

void judges(const char *name, const uint64_t *verdicts, size_t rows)
{
    if (rows > 0) {
        checks(name, 0, 26, rows, NULL);
        checks(name, rows - 1, 26, rows, NULL);
    }
    checks(name, rows, 0, rows, verdicts);
    checks(name, rows + BEYOND, 0, rows, verdicts);
}

void refuses_rows(const char *name, uint64_t number, uint64_t place)
{
    checks(name, 0, number, place, NULL);
    checks(name, MOST_VERDICTS, number, place, NULL);
}

/* With a run of this count: this answer and, where its number is 0, what is told of its rows. */
static void compares_in(const char *name, size_t k, const uint64_t *answer, const uint64_t *told)
{
    uint64_t status = compare_files(k, KELUBASHI_COMPARE_ANSWER);

    memcpy(right.answer + 1, answer, KELUBASHI_COMPARE_ANSWER * sizeof *answer);
    if (answer[KELUBASHI_COMPARE_REFUSAL] == 0)
        memcpy(right.run + 1, told, KELUBASHI_COMPARED * (size_t)answer[KELUBASHI_COMPARE_ROWS] * sizeof *told);
    expect(name, "compare", status, answer[KELUBASHI_COMPARE_REFUSAL]);
}

static void refuses_in(const char *name, size_t k, uint64_t number, uint64_t side, uint64_t place)
{
    const uint64_t answer[KELUBASHI_COMPARE_ANSWER] = {
        [KELUBASHI_COMPARE_REFUSAL] = number, [KELUBASHI_COMPARE_SIDE] = side, [KELUBASHI_COMPARE_PLACE] = place
    };

    compares_in(name, k, answer, NULL);
}

void compares(const char *name, const uint64_t *told, size_t rows, const uint64_t largest[3])
{
    const uint64_t answer[KELUBASHI_COMPARE_ANSWER] = {
        [KELUBASHI_COMPARE_ROWS] = rows, [KELUBASHI_COMPARE_ROW] = largest[0], [KELUBASHI_COMPARE_WORD] = largest[1],
        [KELUBASHI_COMPARE_DISTANCE] = largest[2]
    };
    size_t words = KELUBASHI_COMPARED * rows;

    if (rows > 0) {
        refuses_in(name, 0, 26, 0, words);
        refuses_in(name, words - 1, 26, 0, words);
    }
    compares_in(name, words, answer, told);
    compares_in(name, words + BEYOND, answer, told);
}

/* Words that would do for all rows that either file has room for. */
static size_t enough(void)
{
    size_t longer = file.length > right_file.length ? file.length : right_file.length, rows = longer / (8 * KELUBASHI_ROW);

    return rows < KELUBASHI_MOST_REQUESTS ? KELUBASHI_COMPARED * rows : KELUBASHI_MOST_COMPARED;
}

void refuses_pair(const char *name, uint64_t number, uint64_t side, uint64_t place)
{
    refuses_in(name, 0, number, side, place);
    refuses_in(name, enough() + BEYOND, number, side, place);
}

void refuses_count(const char *name, size_t n)
{
    if (n != KELUBASHI_READ_ANSWER)
        expect(name, "read", read_file(n), 60);
    if (n != KELUBASHI_WRITE_ANSWER) {
        expect(name, "write", write_runs(MOST_ROOM, n), 60);
        expect(name, "write in no room", write_runs(0, n), 60);
    }
    if (n != KELUBASHI_RESULTS_ANSWER) {
        expect(name, "results", write_results(MOST_ROOM, n), 60);
        expect(name, "results in no room", write_results(0, n), 60);
    }
    if (n != KELUBASHI_CHECK_ANSWER) {
        expect(name, "check", check_rows(MOST_VERDICTS, n), 60);
        expect(name, "check in no run", check_rows(0, n), 60);
    }
    if (n != KELUBASHI_COMPARE_ANSWER) {
        expect(name, "compare", compare_files(MOST_TOLD, n), 60);
        expect(name, "compare in no run", compare_files(0, n), 60);
    }
}
