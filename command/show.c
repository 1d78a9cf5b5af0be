/*
**  kelubashi show: a result file as a table, a line for each request, refusals in words.
*/
#include "command.h"
#include "parts/element_file.h"
#include "parts/figures.h"
#include "parts/origin.h"
#include "parts/result_file.h"
#include "parts/say.h"

#include <inttypes.h>
#include <stdio.h>

static void show_heading(void)
{
    printf("%4s %5s %14s   %-47s   %-41s %6s\n", "", "", "after epoch", "position", "velocity", "trial");
    printf("%4s %5s %14s   %15s %15s %15s   %13s %13s %13s %6s\n", "no.", "state", "s", "x km", "y km", "z km",
           "vx km/s", "vy km/s", "vz km/s", "points");
}

static void show_figures(const struct result_file *results, size_t row)
{
    size_t i;

    for (i = KELUBASHI_X; i <= KELUBASHI_Z; i++)
        put_column(result_column(i), row_word(results, row, i));
    printf("  ");
    for (i = KELUBASHI_VX; i <= KELUBASHI_VZ; i++)
        put_column(result_column(i), row_word(results, row, i));
    printf(" %6" PRIu64 "\n", row_word(results, row, KELUBASHI_POINTS));
}

static void show_refusal(const struct element_file *elements, size_t row, uint64_t refusal)
{
    char origin[ORIGIN_TEXT];

    printf(" ");
    put_refusal(stdout, refusal);
    if (describe_origin(elements, row, refusal, origin, sizeof origin))
        printf(": %s", origin);
    printf("\n");
}

static void show_row(const struct element_file *elements, const struct result_file *results, size_t row)
{
    uint64_t refusal = row_word(results, row, KELUBASHI_REFUSAL);

    printf("%4lu %5lu %14.9g  ", (unsigned long)row, (unsigned long)state_of(elements, row),
           kelubashi_figure(interval_of(elements, row)));
    if (refusal == 0)
        show_figures(results, row);
    else
        show_refusal(elements, row, refusal);
}

/* The table; where only trouble is wanted, the refused requests alone. */
static enum status show_rows(const struct element_file *elements, const struct result_file *results, int quiet)
{
    size_t row, rows = record_count(elements, REQUESTS);
    size_t refused = refused_count(results, rows);

    if (!quiet || refused != 0)
        show_heading();
    for (row = 0; row < rows; row++)
        if (!quiet || row_word(results, row, KELUBASHI_REFUSAL) != 0)
            show_row(elements, results, row);
    return refused == 0 ? ALL_WELL : SOMETHING_AMISS;
}

static enum status run(const struct call *call)
{
    static struct element_file elements;
    static struct result_file results;

    if (!take_elements(call->operands[0], &elements) || !take_results(call->operands[1], &results))
        return NOT_DONE;
    if (elements_refusal(&elements) != 0)
        say_refused_elements(&elements);
    if (!are_results_of(&results, &elements))
        return NOT_DONE;
    return elements_refusal(&elements) != 0 ? SOMETHING_AMISS : show_rows(&elements, &results, call->quiet);
}

const struct subcommand show_subcommand = {
    "show", "ELEMENTS RESULTS", "a result file as a table for a person",
    "Shows RESULTS, the result file of the element file ELEMENTS: a line for each request, refusals in words.\n"
    "Both files are judged first: a result file that is not whole, or of another element file, is not shown.\n"
    "With -q the refused requests alone are shown.\n",
    2, "q", 0, run
};
