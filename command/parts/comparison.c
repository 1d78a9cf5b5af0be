#include "comparison.h"

#include "say.h"

#include <inttypes.h>

enum { RIGHT = 1 };     /* the side of what is compared with the reference */

/* ---- the library's answer ---- */

/* The reference against these bytes. */
static uint64_t ask(struct comparison *comparison, const uint8_t *bytes, size_t length)
{
    const struct result_file *reference = &comparison->reference;

    return kelubashi1_compare(reference->bytes, reference->length, bytes, length, comparison->told, KELUBASHI_MOST_COMPARED,
                              comparison->answer, KELUBASHI_COMPARE_ANSWER);
}

/* A file refused by 21, 22, 23 or 25 has a place; 51 is of both; any other number is the library's own trouble. */
static void say_uncompared(const struct comparison *comparison, const struct result_file *results, uint64_t refusal)
{
    if (refusal == 21 || refusal == 22 || refusal == 23 || refusal == 25)
        say_refused_results(results, refusal, comparison->answer[KELUBASHI_COMPARE_PLACE]);
    else if (refusal == 51)
        say_refused(refusal, "%s: it has %" PRIu64 " rows, and %s %" PRIu64 ":", results->name, result_rows(results),
                    comparison->reference.name, result_rows(&comparison->reference));
    else
        say_refused(refusal, "%s: the library's comparison is", results->name);
}

/* Against no bytes at all: the left file is judged first, so that where the right one is at fault, the reference is not. */
int take_reference(const char *name, struct comparison *comparison)
{
    uint64_t refusal;

    if (!take_results(name, &comparison->reference))
        return 0;
    refusal = ask(comparison, NULL, 0);
    if (refusal == 21 && comparison->answer[KELUBASHI_COMPARE_SIDE] == RIGHT)
        return 1;
    say_uncompared(comparison, &comparison->reference, refusal);
    return 0;
}

int compare_with(const char *name, struct comparison *comparison)
{
    uint64_t refusal;

    if (!take_results(name, &comparison->results))
        return 0;
    refusal = ask(comparison, comparison->results.bytes, comparison->results.length);
    if (refusal != 0)
        say_uncompared(comparison, &comparison->results, refusal);
    return refusal == 0;
}

/* ---- figures ---- */

/* What is told of a row: its kind, then a kind and a distance for each figure. */
static const uint64_t *told_of(const struct comparison *comparison, size_t row)
{
    return comparison->told + row * KELUBASHI_COMPARED;
}

uint64_t figure_kind(const struct comparison *comparison, size_t row, size_t word)
{
    return told_of(comparison, row)[1 + 2 * (word - KELUBASHI_X)];
}

uint64_t figure_distance(const struct comparison *comparison, size_t row, size_t word)
{
    return told_of(comparison, row)[2 + 2 * (word - KELUBASHI_X)];
}

/* Whether it moved and has no distance. */
static int figure_unequal(const struct comparison *comparison, size_t row, size_t word)
{
    return figure_kind(comparison, row, word) == KELUBASHI_FIGURE_UNEQUAL;
}

int figure_moved(const struct comparison *comparison, size_t row, size_t word)
{
    return figure_distance(comparison, row, word) != 0 || figure_unequal(comparison, row, word);
}

int has_distance(const struct comparison *comparison)
{
    return largest_word(comparison) < KELUBASHI_ROW;
}

uint64_t largest_distance(const struct comparison *comparison)
{
    return comparison->answer[KELUBASHI_COMPARE_DISTANCE];
}

size_t largest_row(const struct comparison *comparison)
{
    return (size_t)comparison->answer[KELUBASHI_COMPARE_ROW];
}

size_t largest_word(const struct comparison *comparison)
{
    return (size_t)comparison->answer[KELUBASHI_COMPARE_WORD];
}

/* ---- rows ---- */

size_t compared_rows(const struct comparison *comparison)
{
    return (size_t)comparison->answer[KELUBASHI_COMPARE_ROWS];
}

uint64_t row_kind(const struct comparison *comparison, size_t row)
{
    return told_of(comparison, row)[0];
}

/* Whether this holds of a figure of the row. */
static int has_figure(const struct comparison *comparison, size_t row,
                      int (*holds)(const struct comparison *comparison, size_t row, size_t word))
{
    size_t word;

    for (word = KELUBASHI_X; word <= KELUBASHI_END_AZ; word++)
        if (holds(comparison, row, word))
            return 1;
    return 0;
}

enum sort sort_of(const struct comparison *comparison, size_t row)
{
    switch (row_kind(comparison, row)) {
    case KELUBASHI_ROW_ANSWERED:
        return has_figure(comparison, row, figure_moved) ? MOVED : NOT_MOVED;
    case KELUBASHI_ROW_REFUSED_ALIKE:
        return ONE_NUMBER;
    case KELUBASHI_ROW_REFUSED_UNLIKE:
        return TWO_NUMBERS;
    default:
        return ONE_SIDE;
    }
}

struct tally tally_of(const struct comparison *comparison)
{
    struct tally tally = { { 0 }, 0 };
    size_t row;

    for (row = 0; row < compared_rows(comparison); row++) {
        tally.rows[sort_of(comparison, row)]++;
        tally.not_finite += has_figure(comparison, row, figure_unequal) != 0;
    }
    return tally;
}

int something_moved(const struct tally *tally)
{
    return tally->rows[MOVED] != 0 || tally->rows[ONE_SIDE] != 0 || tally->rows[TWO_NUMBERS] != 0;
}
