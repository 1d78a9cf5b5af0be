#include "moved.h"

#include "say.h"

#include <inttypes.h>
#include <math.h>
#include <stdio.h>

/* ---- a figure ---- */

/* Two finite figures may lie farther apart than a double can tell. */
void describe_difference(const struct comparison *comparison, size_t row, size_t word, char *text, size_t size)
{
    double reference = kelubashi_figure(row_word(&comparison->reference, row, word));
    double difference = kelubashi_figure(row_word(&comparison->results, row, word)) - reference;
    const char *unit = ABOUT[result_column(word)].unit->name;

    if (isfinite(difference))
        snprintf(text, size, "%+.3g %s", difference, unit);
    else
        snprintf(text, size, "over 1.79e+308 %s", unit);
}

/* A figure in its column, with 17 digits, so that any two look different; NaNs do by their words. */
static void put_value(uint64_t word)
{
    double figure = kelubashi_figure(word);

    if (isnan(figure))
        printf("%9s %016" PRIX64, "nan", word);
    else
        printf("  %24.17g", figure);
}

static void show_figure(const struct comparison *comparison, size_t row, size_t word)
{
    char difference[DIFFERENCE_TEXT];

    printf("%4lu  %-6s", (unsigned long)row, ABOUT[result_column(word)].name);
    if (figure_kind(comparison, row, word) == KELUBASHI_FIGURE_DISTANCE) {
        describe_difference(comparison, row, word, difference, sizeof difference);
        printf(" %20" PRIu64 "  %21s", figure_distance(comparison, row, word), difference);
    } else {
        printf(" %20s  %21s", "no distance", "not finite");
    }
    put_value(row_word(&comparison->reference, row, word));
    put_value(row_word(&comparison->results, row, word));
    printf("\n");
}

/* ---- the rows that are answered on both sides ---- */

static void show_figures(const struct comparison *comparison, size_t row)
{
    size_t word;

    for (word = KELUBASHI_X; word <= KELUBASHI_END_AZ; word++)
        if (figure_moved(comparison, row, word))
            show_figure(comparison, row, word);
}

static void show_answered(const struct comparison *comparison, int all)
{
    size_t row;

    printf("\n%4s  %-6s %20s  %21s  %24s  %24s\n", "row", "figure", "last places", "difference", "reference", "results");
    for (row = 0; row < compared_rows(comparison); row++)
        if (sort_of(comparison, row) == MOVED)
            show_figures(comparison, row);
        else if (all && sort_of(comparison, row) == NOT_MOVED)
            printf("%4lu  nothing moved\n", (unsigned long)row);
}

/* ---- the rows that are refused ---- */

/* A row's refusal on a side, or on both, in words. */
static void show_refusal(size_t row, const char *side, const struct result_file *results)
{
    printf("%4lu  %-9s  ", (unsigned long)row, side);
    put_refusal(stdout, row_word(results, row, KELUBASHI_REFUSAL));
    printf("\n");
}

static void show_refused(const struct comparison *comparison, size_t row)
{
    uint64_t kind = row_kind(comparison, row);

    if (kind == KELUBASHI_ROW_REFUSED_ALIKE) {
        show_refusal(row, "both", &comparison->reference);
        return;
    }
    if (kind != KELUBASHI_ROW_RIGHT_REFUSED)
        show_refusal(row, "reference", &comparison->reference);
    if (kind != KELUBASHI_ROW_LEFT_REFUSED)
        show_refusal(row, "results", &comparison->results);
}

/* The rows of a sort, where there are any. */
static void show_sort(const struct comparison *comparison, const struct tally *tally, enum sort sort, const char *heading)
{
    size_t row;

    if (tally->rows[sort] == 0)
        return;
    printf("\n%4s  %s\n", "row", heading);
    for (row = 0; row < compared_rows(comparison); row++)
        if (sort_of(comparison, row) == sort)
            show_refused(comparison, row);
}

/* ---- all of it ---- */

int show_moved(const struct comparison *comparison, const struct tally *tally, int all)
{
    if (!something_moved(tally) && (!all || compared_rows(comparison) == 0))
        return 0;
    printf("reference  %s\nresults    %s\n", comparison->reference.name, comparison->results.name);
    if (tally->rows[MOVED] != 0 || (all && tally->rows[NOT_MOVED] != 0))
        show_answered(comparison, all);
    show_sort(comparison, tally, ONE_SIDE, "refused on one side alone");
    show_sort(comparison, tally, TWO_NUMBERS, "refused on both sides, with two numbers");
    if (all)
        show_sort(comparison, tally, ONE_NUMBER, "refused on both sides, with one number");
    return 1;
}
