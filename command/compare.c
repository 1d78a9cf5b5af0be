/*
**  kelubashi compare: what moved since a reference result file was made: of one other file row by row, of several a line for each.
*/
#include "command.h"
#include "parts/moved.h"
#include "parts/say.h"

#include <inttypes.h>
#include <stdio.h>
#include <string.h>

/* How much the figure moved that has the largest distance. */
static void describe_largest(const struct comparison *comparison, char *text, size_t size)
{
    describe_difference(comparison, largest_row(comparison), largest_word(comparison), text, size);
}

/* ---- one file ---- */

/* The end of the last line. */
static void show_largest(const struct comparison *comparison)
{
    char difference[DIFFERENCE_TEXT];

    if (!has_distance(comparison)) {
        printf("no figure has a distance\n");
    } else if (largest_distance(comparison) == 0) {
        printf("largest distance 0\n");
    } else {
        describe_largest(comparison, difference, sizeof difference);
        printf("largest distance %" PRIu64 " last place%s: %s of row %lu, %s\n", largest_distance(comparison),
               largest_distance(comparison) == 1 ? "" : "s", ABOUT[result_column(largest_word(comparison))].name,
               (unsigned long)largest_row(comparison), difference);
    }
}

/* The last line: how many rows there are of each sort. */
static void show_summary(const struct comparison *comparison, const struct tally *tally)
{
    printf("%s: rows %lu: moved %lu", comparison->results.name, (unsigned long)compared_rows(comparison),
           (unsigned long)tally->rows[MOVED]);
    if (tally->not_finite != 0)
        printf(" (not finite %lu)", (unsigned long)tally->not_finite);
    printf(", not moved %lu; refused on one side alone %lu, on both with two numbers %lu, with one number %lu; ",
           (unsigned long)tally->rows[NOT_MOVED], (unsigned long)tally->rows[ONE_SIDE], (unsigned long)tally->rows[TWO_NUMBERS],
           (unsigned long)tally->rows[ONE_NUMBER]);
    show_largest(comparison);
}

static enum status compare_one(const struct call *call, struct comparison *comparison)
{
    struct tally tally;
    int shown;

    if (!compare_with(call->operands[1], comparison))
        return NOT_DONE;
    tally = tally_of(comparison);
    shown = show_moved(comparison, &tally, call->all && !call->quiet);
    if (!call->quiet) {
        if (shown)
            printf("\n");
        show_summary(comparison, &tally);
    }
    return something_moved(&tally) ? SOMETHING_AMISS : ALL_WELL;
}

/* ---- several files ---- */

/* The table as far as it is shown, and how many files there are of each sort. */
struct table {
    int width;      /* of the names, in columns */
    int begun;
    size_t moved, not_moved, not_compared;
};

/* How many columns a name takes: in UTF-8 a byte that is 10 and six bits goes on with a letter. */
static int columns_of(const char *name)
{
    int columns = 0;

    for (; *name != '\0'; name++)
        columns += ((unsigned char)*name & 0xC0) != 0x80;
    return columns;
}

static int widest_of(const struct call *call, int least)
{
    int i;

    for (i = 1; i < call->operand_count; i++)
        if (columns_of(call->operands[i]) > least)
            least = columns_of(call->operands[i]);
    return least;
}

static void put_name(const struct table *table, const char *name)
{
    printf("%s%*s", name, table->width - columns_of(name), "");
}

/* The heading, before the first line. */
static void begin(struct table *table, const struct comparison *comparison)
{
    if (table->begun)
        return;
    table->begun = 1;
    printf("reference %s: rows %" PRIu64 "\n\n", comparison->reference.name, result_rows(&comparison->reference));
    put_name(table, "");
    printf("  %-16s   %-57s   %s\n", "rows moved", "largest distance", "rows refused");
    put_name(table, "results");
    printf("  %4s  %10s   %20s  %6s  %4s  %21s   %8s  %11s\n", "all", "not finite", "last places", "figure", "row", "in its unit",
           "one side", "two numbers");
}

static void show_uncompared(struct table *table, const struct comparison *comparison, const char *name)
{
    begin(table, comparison);
    put_name(table, name);
    printf("  not compared\n");
}

static void show_compared(struct table *table, const struct comparison *comparison, const struct tally *tally)
{
    char distance[24] = "-", row[24] = "-", difference[DIFFERENCE_TEXT] = "-";
    const char *figure = "-";

    if (has_distance(comparison))
        snprintf(distance, sizeof distance, "%" PRIu64, largest_distance(comparison));
    if (largest_distance(comparison) != 0) {
        figure = ABOUT[result_column(largest_word(comparison))].name;
        snprintf(row, sizeof row, "%lu", (unsigned long)largest_row(comparison));
        describe_largest(comparison, difference, sizeof difference);
    }
    begin(table, comparison);
    put_name(table, comparison->results.name);
    printf("  %4lu  %10lu   %20s  %6s  %4s  %21s   %8lu  %11lu\n", (unsigned long)tally->rows[MOVED],
           (unsigned long)tally->not_finite, distance, figure, row, difference, (unsigned long)tally->rows[ONE_SIDE],
           (unsigned long)tally->rows[TWO_NUMBERS]);
}

/* One of them, by its line; where only trouble is wanted, one in which nothing moved has none. */
static void compare_next(struct table *table, struct comparison *comparison, const char *name, int quiet)
{
    struct tally tally;

    if (!compare_with(name, comparison)) {
        table->not_compared++;
        show_uncompared(table, comparison, name);
        return;
    }
    tally = tally_of(comparison);
    if (something_moved(&tally))
        table->moved++;
    else
        table->not_moved++;
    if (!quiet || something_moved(&tally))
        show_compared(table, comparison, &tally);
}

static enum status compare_several(const struct call *call, struct comparison *comparison)
{
    struct table table = { 0, 0, 0, 0, 0 };
    int i;

    table.width = widest_of(call, (int)strlen("results"));
    for (i = 1; i < call->operand_count; i++)
        compare_next(&table, comparison, call->operands[i], call->quiet);
    if (!call->quiet)
        printf("\nfiles %d: something moved in %lu, nothing in %lu, not compared %lu\n", call->operand_count - 1,
               (unsigned long)table.moved, (unsigned long)table.not_moved, (unsigned long)table.not_compared);
    if (table.not_compared != 0)
        return NOT_DONE;
    return table.moved != 0 ? SOMETHING_AMISS : ALL_WELL;
}

static enum status run(const struct call *call)
{
    static struct comparison comparison;
    int several = call->operand_count > 2;

    if (several && call->all) {
        say("--all shows the rows of one file, and %d are named: name one beside the reference, or leave --all out",
            call->operand_count - 1);
        return NOT_DONE;
    }
    if (!take_reference(call->operands[0], &comparison))
        return NOT_DONE;
    return several ? compare_several(call, &comparison) : compare_one(call, &comparison);
}

const struct subcommand compare_subcommand = {
    "compare", "REFERENCE RESULTS..", "what moved since the reference was made",
    "Compares each result file RESULTS with the result file REFERENCE, figure by figure: after a rebuild, what the library\n"
    "answers now with what it answered before. The distance of two figures is told in last places, 1 from a double to the\n"
    "next; both zeros are one.\n"
    "Of one file each figure that moved is shown, then the rows refused on one side alone, or on both with two numbers;\n"
    "of several files each gets a line of a table. A file that cannot be compared is told, and the others are compared.\n"
    "With -q what moved alone is shown, and what is not compared.\n"
    "  --all   show the rows that did not move too; for one file\n",
    2, "q", TAKES_ALL | TAKES_MORE, run
};
