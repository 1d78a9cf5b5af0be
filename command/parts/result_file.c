#include "result_file.h"

#include "input.h"
#include "say.h"

#include <inttypes.h>
#include <stdio.h>

enum {
    HEAD = 16,          /* bytes before the rows: edition and count */
    REFUSED_FILE = 24,  /* bytes of the result file of a refused element file */
    ROW_BYTES = 8 * KELUBASHI_ROW
};

#define MAKE_ANEW "make it anew with kelubashi results"

enum column result_column(size_t word)
{
    return RESULTS_LAYOUT.section[0].columns[word];
}

int make_results(const struct element_file *elements, struct result_file *results)
{
    uint64_t answer[KELUBASHI_RESULTS_ANSWER] = { 0, 0 };
    uint64_t refusal = kelubashi1_results(elements->bytes, elements->length, results->bytes, KELUBASHI_MOST_RESULTS,
                                          answer, KELUBASHI_RESULTS_ANSWER);

    results->name = "the results";
    results->length = (size_t)answer[KELUBASHI_RESULTS_LENGTH];
    if (refusal != 0)
        say_refused(refusal, "%s: the library's results are", elements->name);
    return refusal == 0;
}

int take_results(const char *name, struct result_file *results)
{
    results->name = name;
    return read_whole(name, results->bytes, sizeof results->bytes, &results->length);
}

static uint64_t word_of(const struct result_file *results, size_t word)
{
    return word_from(results->bytes + 8 * word);
}

uint64_t result_rows(const struct result_file *results)
{
    return word_of(results, 1);
}

uint64_t row_word(const struct result_file *results, size_t row, size_t word)
{
    return word_of(results, HEAD / 8 + row * KELUBASHI_ROW + word);
}

size_t refused_count(const struct result_file *results, size_t rows)
{
    size_t row, count = 0;

    for (row = 0; row < rows; row++)
        count += row_word(results, row, KELUBASHI_REFUSAL) != 0;
    return count;
}

/* ---- refused by the library ---- */

/* Whether what is left behind the count is the number of a refused element file. 25 is said of 24 bytes only where they count no rows. */
static int is_of_refused(const struct result_file *results, uint64_t refusal)
{
    return refusal == 25 && results->length == REFUSED_FILE && word_of(results, 2) != 0;
}

void say_refused_results(const struct result_file *results, uint64_t refusal, uint64_t place)
{
    char text[PLACE_TEXT];

    if (is_of_refused(results, refusal)) {
        say("%s: has no rows to compare: it is the result file of an element file that is refused (%" PRIu64 "): %s; correct the "
            "element file, as kelubashi read tells it, and make the results anew with kelubashi results", results->name,
            word_of(results, 2), kelubashi_refusal_text(word_of(results, 2)));
        return;
    }
    describe_byte(&RESULTS_LAYOUT, results->bytes, results->length, place, text, sizeof text);
    say_refused(refusal, "%s: %s:", results->name, text);
}

/* ---- judging ---- */

/* Whether a result file that counts so many rows can have this length. */
static int is_length(uint64_t rows, size_t length)
{
    if (rows > RESULTS_LAYOUT.section[0].limit)
        return 0;
    return length == HEAD + ROW_BYTES * (size_t)rows || (rows == 0 && length == REFUSED_FILE);
}

/* Edition, count and length agree with one another. */
static int is_whole(const struct result_file *results)
{
    if (results->length < HEAD)
        say("%s: is no result file: it has %lu bytes, and the shortest has %d: " MAKE_ANEW,
            results->name, (unsigned long)results->length, (int)HEAD);
    else if (word_of(results, 0) != 1)
        say("%s: is no result file of edition 1: its first word is %" PRIu64 ": look whether it is a result file; if so, "
            "use the command of its edition", results->name, word_of(results, 0));
    else if (!is_length(word_of(results, 1), results->length))
        say("%s: is no whole result file: it counts %" PRIu64 " rows, and has %lu bytes: " MAKE_ANEW,
            results->name, word_of(results, 1), (unsigned long)results->length);
    else
        return 1;
    return 0;
}

#define FOREIGN "name the element file that it is of, or " MAKE_ANEW

/* Both are of a refused file, or neither is; and there is a row for each request. */
static int is_alike(const struct result_file *results, const struct result_file *right, const struct element_file *elements)
{
    int refused = results->length == REFUSED_FILE, should = right->length == REFUSED_FILE;

    if (refused && !should)
        say("%s: is of another element file, one that is refused (%" PRIu64 "), and %s is not: " FOREIGN,
            results->name, word_of(results, 2), elements->name);
    else if (!refused && should)
        say("%s: is of another element file: it has rows, and %s is refused: " FOREIGN, results->name, elements->name);
    else if (results->length != right->length)
        say("%s: is of another element file: it has %" PRIu64 " rows, and %s %" PRIu64 " requests: " FOREIGN,
            results->name, word_of(results, 1), elements->name, word_of(right, 1));
    else
        return 1;
    return 0;
}

/* A word of a row as it is read: of figures the words of their doubles. */
static void describe_word(const struct about *about, uint64_t value, char *text, size_t size)
{
    if (about->kind == FIGURE)
        snprintf(text, size, "%016" PRIX64, value);
    else
        snprintf(text, size, "%" PRIu64, value);
}

/* The first word in which it is not what the library answers now. */
static void say_difference(const struct result_file *results, const struct result_file *right,
                           const struct element_file *elements, size_t word)
{
    size_t in_rows = word - HEAD / 8;
    const struct about *about = &ABOUT[result_column(in_rows % KELUBASHI_ROW)];
    char here[24], there[24];

    describe_word(about, word_of(results, word), here, sizeof here);
    describe_word(about, word_of(right, word), there, sizeof there);
    if (right->length == REFUSED_FILE)
        say("%s: is of another element file, one that is refused (%" PRIu64 "), and %s is refused (%" PRIu64 "): " FOREIGN,
            results->name, word_of(results, word), elements->name, word_of(right, word));
    else
        say("%s: is of another element file, of another library, or damaged: in row %lu %s%s is %s, and the library answers %s "
            "to request %lu of %s: " FOREIGN, results->name, (unsigned long)(in_rows / KELUBASHI_ROW), about->article,
            about->name, here, there, (unsigned long)(in_rows / KELUBASHI_ROW), elements->name);
}

int are_results_of(const struct result_file *results, const struct element_file *elements)
{
    static struct result_file right;
    size_t word;

    if (!is_whole(results) || !make_results(elements, &right) || !is_alike(results, &right, elements))
        return 0;
    for (word = HEAD / 8; word < right.length / 8; word++)
        if (word_of(results, word) != word_of(&right, word)) {
            say_difference(results, &right, elements, word);
            return 0;
        }
    return 1;
}
