#include "ask_file.h"

#include "compared/shared/drive.h"
#include "compared/shared/lent_to_both.h"
#include "kelubashi.h"
#include "second/second.h"

#include <string.h>

#define ROW 11     /* words of a row */

static uint64_t read_seen[64], write_seen[64], results_seen[64], rows_seen[256];
static struct file again;
static struct sections taken;

/* ---- reading ---- */

static void compare_read(const struct file *f)
{
    size_t count = wrong_count(READ);

    lend_both(0);
    library.status = kelubashi1_read(library_file(), f->length, answer_of(&library, count), count);
    expect_sixty("read with another count than 8");

    lend_both(0);
    library.status = kelubashi1_read(library_file(), f->length, library.answer + 1, READ);
    second.status = second_read(second_file(), f->length, second.answer + 1, READ);
    compare("read", READ);
    read_seen[second.status]++;
}

/* ---- results ---- */

/* The numbers in the rows of a result file; that of a refused file has none. */
static void see_rows(const uint8_t *file, size_t length)
{
    size_t place;

    for (place = 16; length != 24 && place < length; place += 8 * ROW)
        rows_seen[file[place]]++;     /* their lowest byte */
}

static void compare_results_in(const char *what, size_t length, size_t room)
{
    lend_both(room);
    library.status = kelubashi1_results(library_file(), length, room_of(&library), room,
                                        library.answer + 1, WRITTEN);
    second.status = second_results(second_file(), length, room_of(&second), room,
                                   second.answer + 1, WRITTEN);
    compare(what, WRITTEN);
    results_seen[second.status]++;
    if (second.status == 0)
        see_rows(room_of(&second), second.answer[2]);
}

/* The room needed is told by the call itself, when there is none. */
static void compare_results(const struct file *f)
{
    size_t needed, count = wrong_count(WRITTEN);

    compare_results_in("results in no room", f->length, 0);
    needed = second.answer[2];
    compare_results_in("results in a room one byte short", f->length, needed - 1);
    if (one_in(2))
        compare_results_in("results in the exact room", f->length, needed);
    else
        compare_results_in("results in a larger room", f->length, needed + 1 + any_below(TAIL));

    lend(&library, LENT, 24);
    library.status = kelubashi1_results(library_file(), f->length, room_of(&library), 24,
                                        answer_of(&library, count), count);
    expect_sixty("results with another count than 2");
}

/* ---- intervals ---- */

/* Of each request of sections that were taken from an accepted file. */
static void compare_intervals(const struct sections *s)
{
    size_t i, count = wrong_count(1);

    for (i = 0; i < s->request_words; i += REQUEST) {
        uint64_t time = s->requests[i + 1], epoch = s->states[STATE * s->requests[i] + 1];

        lend_both(0);
        library.status = kelubashi1_interval(time, epoch, answer_of(&library, count), count);
        expect_sixty("interval with another count than 1");
        lend_both(0);
        library.status = kelubashi1_interval(time, epoch, library.answer + 1, 1);
        second.status = second_interval(time, epoch, second.answer + 1, 1);
        compare("interval", 1);
    }
}

/* ---- writing ---- */

static const uint64_t *run_of(const uint64_t *run, size_t words)
{
    return words ? run : NULL;
}

#define RUNS(s)                                                                                                  \
    run_of((s)->centres, (s)->centre_words), (s)->centre_words, run_of((s)->states, (s)->state_words),           \
        (s)->state_words, run_of((s)->requests, (s)->request_words), (s)->request_words

static void compare_write_in(const char *what, const struct sections *s, size_t room)
{
    lend_both(room);
    library.status = kelubashi1_write(RUNS(s), room_of(&library), room, library.answer + 1, WRITTEN);
    second.status = second_write(RUNS(s), room_of(&second), room, second.answer + 1, WRITTEN);
    compare(what, WRITTEN);
    write_seen[second.status]++;
}

/* Where the sections are refused, the room makes no difference, and any will do; no file is empty. */
static void compare_write(const struct sections *s)
{
    size_t needed, count = wrong_count(WRITTEN);

    compare_write_in("write in no room", s, 0);
    needed = second.status == 26 ? second.answer[2] : 64;
    compare_write_in("write in a room one byte short", s, needed - 1);
    compare_write_in("write in a larger room", s, needed + 1 + any_below(TAIL));

    lend(&library, LENT, 64);
    library.status = kelubashi1_write(RUNS(s), room_of(&library), 64, answer_of(&library, count), count);
    expect_sixty("write with another count than 2");

    compare_write_in("write in the exact room", s, needed);
}

/* ---- a whole input ---- */

static size_t take_run(const struct file *f, uint64_t *run, size_t place, uint64_t count, size_t width)
{
    size_t i, words = (size_t)count * width;

    for (i = 0; i < words; i++)
        run[i] = word_at(f, place + 8 + 8 * i);
    return words;
}

/* An accepted file written again is the same bytes. */
static void write_again(const struct file *f)
{
    const uint64_t *at = second.answer + 3;

    taken.centre_words = take_run(f, taken.centres, at[0], at[1], 1);
    taken.state_words = take_run(f, taken.states, at[2], at[3], STATE);
    taken.request_words = take_run(f, taken.requests, at[4], at[5], REQUEST);
    compare_write(&taken);
    if (second.status != 0 || second.answer[2] != f->length
        || memcmp(room_of(&second), f->bytes, f->length) != 0)
        differs("an accepted file written again");
    compare_intervals(&taken);
}

void ask_file(const char *family, const struct file *f)
{
    lent_for(family, f, NULL);
    lend_file(f);
    compare_results(f);
    compare_read(f);
    expect_file_kept();
    if (second.status == 0)
        write_again(f);
}

void ask_sections(const char *family, const struct sections *s)
{
    lent_for(family, NULL, s);
    compare_write(s);
    if (second.status != 0)
        return;
    lay_out(&again, s);
    if (second.answer[2] != again.length || memcmp(room_of(&second), again.bytes, again.length) != 0)
        differs("another file than its sections");
    lend_file(&again);
    compare_read(&again);
    if (second.status != 0)
        differs("what was written is not read");
}

int ask_file_tell(void)
{
    static const int reads[] = { 0, 21, 22, 23, 24, 25 }, writes[] = { 0, 23, 24, 26, 27 }, results[] = { 0, 26 };
    static const int rows[] = { 0, 31, 32, 33, 34, 35, 36, 37, 38, 3, 4 };
    int missed = numbers_tell("read", read_seen, reads, sizeof reads / sizeof reads[0]);

    missed += numbers_tell("write", write_seen, writes, sizeof writes / sizeof writes[0]);
    missed += numbers_tell("results", results_seen, results, sizeof results / sizeof results[0]);
    return missed + numbers_tell("rows", rows_seen, rows, sizeof rows / sizeof rows[0]);
}
