/*
**  kelubashi rows: a file of rows of our own answers to the requests of an element file, for another station to check.
*/
#include "command.h"
#include "parts/element_file.h"
#include "parts/figures.h"
#include "parts/origin.h"
#include "parts/output.h"
#include "parts/row_file.h"
#include "parts/say.h"

#include <inttypes.h>
#include <stdio.h>
#include <string.h>

enum { QUOTED = 5 * 4096 };     /* bytes of the longest name, all of it quotes, with a number behind it */

/* The number behind --from, 0 where it is not given. False where it is none, which is then said. */
static int take_first(const char *word, uint64_t *first)
{
    const char *wrong = word == NULL ? NULL : take_number(word, first);

    if (wrong != NULL)
        say("'%s' %s: see kelubashi rows --help", shown(word), wrong);
    return wrong == NULL;
}

/* Whether the file has a request of this number; one without requests may begin at 0. If not, it is said. */
static int is_there(const struct element_file *elements, uint64_t first)
{
    if (first == 0 || first < record_count(elements, REQUESTS))
        return 1;
    say("%s: has no request %" PRIu64 ": it has %lu, numbered from 0: give --from a number below that, or leave it out",
        elements->name, first, (unsigned long)record_count(elements, REQUESTS));
    return 0;
}

/* The rows of so many requests. One that is refused has none, which is said. */
static void make_rows(const struct element_file *elements, size_t first, size_t taken, struct row_file *rows)
{
    uint64_t words[KELUBASHI_CHECK_ROW];
    size_t request;

    begin_rows(rows);
    for (request = first; request < first + taken; request++) {
        uint64_t refusal;

        request_input(elements, request, words);
        refusal = answer_row(words);
        if (refusal == 0)
            add_row(rows, words);
        else
            say_refused_request(elements, request, refusal);
    }
}

/* ---- the next file ---- */

/* A name as a shell takes it. */
static const char *quoted(const char *name, char *text)
{
    static const char PLAIN[] = "abcdefghijklmnopqrstuvwxyzABCDEFGHIJKLMNOPQRSTUVWXYZ0123456789/._+-,:@%=";
    char *end = text;

    if (name[strspn(name, PLAIN)] == '\0')
        return name;
    *end++ = '\'';
    for (; *name != '\0'; name++)
        if (*name == '\'') {
            memcpy(end, "'\\''", 4);
            end += 4;
        } else {
            *end++ = *name;
        }
    strcpy(end, "'");
    return text;
}

/* The name of the next file: that of this one with the number of its first request, in the place of this one's. */
static void name_next(const char *output, size_t first, size_t next, char *name, size_t size)
{
    char end[24];
    size_t length = strlen(output);
    int ends;

    snprintf(end, sizeof end, ".%lu", (unsigned long)first);
    ends = length > strlen(end) && strcmp(output + length - strlen(end), end) == 0;
    snprintf(name, size, "%.*s.%lu", (int)(ends ? length - strlen(end) : length), output, (unsigned long)next);
}

/* Requests that are left over, and the call that makes the next file of them. */
static void say_left(const struct call *call, const struct element_file *elements, size_t first, size_t next)
{
    static char name[QUOTED], source[QUOTED], target[QUOTED];
    unsigned long left = (unsigned long)(record_count(elements, REQUESTS) - next);
    const char *here = *elements->name == '-' ? "./" : "";

    if (call->output != NULL)
        name_next(call->output, first, next, name, sizeof name);
    say("%s: requests left over: %lu: a file holds %d rows: make the next with: kelubashi rows --from %lu %s%s%s%s", elements->name,
        left, (int)KELUBASHI_MOST_CHECK_ROWS, (unsigned long)next, here, quoted(elements->name, source),
        call->output == NULL ? "" : " -o ", call->output == NULL ? "" : quoted(name, target));
}

/* What was done, in a line. */
static void say_done(const struct call *call, const struct element_file *elements, size_t first, size_t taken, size_t made)
{
    say("%s: requests %lu from number %lu on, refused %lu: the file of %lu rows is written to %s", elements->name,
        (unsigned long)taken, (unsigned long)first, (unsigned long)(taken - made), (unsigned long)made, output_name(call));
}

/* The file of the requests from this number on, as many as it holds. */
static enum status write_rows(const struct call *call, const struct element_file *elements, size_t first)
{
    static struct row_file rows;
    size_t left = record_count(elements, REQUESTS) - first;
    size_t taken = left < KELUBASHI_MOST_CHECK_ROWS ? left : KELUBASHI_MOST_CHECK_ROWS;

    make_rows(elements, first, taken, &rows);
    if (write_output(call->output, elements->name, rows.bytes, rows.length) != ALL_WELL)
        return NOT_DONE;
    if (!call->quiet)
        say_done(call, elements, first, taken, row_count(&rows));
    if (taken < left)
        say_left(call, elements, first, first + taken);
    return row_count(&rows) == left ? ALL_WELL : SOMETHING_AMISS;
}

static enum status run(const struct call *call)
{
    static struct element_file elements;
    uint64_t first = 0;

    if (!take_first(call->from, &first) || !take_elements(call->operands[0], &elements))
        return NOT_DONE;
    if (elements_refusal(&elements) != 0) {
        say_refused_elements(&elements);
        return NOT_DONE;
    }
    return is_there(&elements, first) ? write_rows(call, &elements, (size_t)first) : NOT_DONE;
}

const struct subcommand rows_subcommand = {
    "rows", "ELEMENTS [-o ROWS]", "our own answers as rows, for another station",
    "Answers the requests of the element file ELEMENTS and writes their rows to ROWS, or to standard output: the eight\n"
    "input words, the anomaly and the nine figures at the end. ROWS is replaced as by kelubashi results.\n"
    "A refused request has no row, and is told on standard error. A file holds 400 rows: where requests are left over, the\n"
    "call that makes the next file is told too.\n"
    "  --from REQUEST   begin at the request of this number, from 0\n",
    1, "qo:", TAKES_FROM, run
};
