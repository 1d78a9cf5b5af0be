/*
**  kelubashi centres: the morning screen, a line for each centre of an element file: how many states it has, and
**  their earliest and latest epoch.
*/
#include "command.h"
#include "parts/element_file.h"
#include "parts/figures.h"
#include "parts/say.h"

#include <inttypes.h>
#include <stdio.h>

enum { LIST = KELUBASHI_MOST_CENTRES * KELUBASHI_ENTRY };   /* words of the longest list */

/* The library's list of a file, an entry for each centre. False where it gives none, which is then said. */
static int make_list(const struct element_file *elements, uint64_t *list)
{
    static uint64_t states[KELUBASHI_STATE_RUN];
    uint64_t answer[KELUBASHI_CHANGE_ANSWER] = { 0, 0 };
    uint64_t refusal;

    copy_states(elements, states);
    refusal = kelubashi1_summary(states, KELUBASHI_STATE_RUN, record_count(elements, STATES), record_count(elements, CENTRES), list,
                                 record_count(elements, CENTRES) * KELUBASHI_ENTRY, answer, KELUBASHI_CHANGE_ANSWER);
    if (refusal != 0)
        say_refused(refusal, "%s: the library's summary is", elements->name);
    return refusal == 0;
}

static void show_heading(void)
{
    printf("\n%6s %15s   %-21s   %s\n", "", "", "states whose epoch is", "epoch");
    printf("%6s %15s   %10s %10s   %15s %15s\n", "centre", "mu km^3/s^2", "a number", "NaN", "earliest s", "latest s");
}

static void show_centre(const struct element_file *elements, size_t centre, const uint64_t *entry)
{
    printf("%6lu", (unsigned long)centre);
    put_column(COLUMN_MU, record_word(elements, CENTRES, centre, COLUMN_MU));
    printf("   %10" PRIu64 " %10" PRIu64 "  ", entry[KELUBASHI_ENTRY_STATES], entry[KELUBASHI_ENTRY_NANS]);
    put_column(COLUMN_EPOCH, entry[KELUBASHI_ENTRY_EARLIEST]);
    put_column(COLUMN_EPOCH, entry[KELUBASHI_ENTRY_LATEST]);
    printf("\n");
}

static void show_list(const struct element_file *elements, const uint64_t *list)
{
    size_t k;

    show_counts(elements);
    show_heading();
    for (k = 0; k < record_count(elements, CENTRES); k++)
        show_centre(elements, k, list + k * KELUBASHI_ENTRY);
}

static enum status run(const struct call *call)
{
    static struct element_file elements;
    uint64_t list[LIST];

    if (!take_elements(call->operands[0], &elements))
        return NOT_DONE;
    if (elements_refusal(&elements) != 0) {
        say_refused_elements(&elements);
        return SOMETHING_AMISS;
    }
    if (!make_list(&elements, list))
        return NOT_DONE;
    if (!call->quiet)
        show_list(&elements, list);
    return ALL_WELL;
}

const struct subcommand centres_subcommand = {
    "centres", "ELEMENTS", "each centre: how many states, earliest and latest epoch",
    "Shows a line for each centre of the element file ELEMENTS: its number and mu, how many states it has whose\n"
    "epoch is a number, how many whose epoch is a NaN, and the earliest and the latest epoch. Infinite epochs\n"
    "count, NaNs are in their own count only, and a centre without any epoch shows zero twice.\n"
    "A file that is refused is told as kelubashi read tells it.\n"
    "With -q only a refusal is told.\n",
    1, "q", 0, run
};
