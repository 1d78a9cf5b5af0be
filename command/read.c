/*
**  kelubashi read: what is in an element file, or its refusal in words, with its byte.
*/
#include "command.h"
#include "parts/element_file.h"
#include "parts/figures.h"
#include "parts/say.h"

#include <stdio.h>

/* Where the unit is another than that of the figure before it, the two stand further apart. */
static void put_gap(const struct section *section, size_t word)
{
    const struct unit *unit = ABOUT[section->columns[word]].unit;
    const struct unit *before = word == 0 ? NULL : ABOUT[section->columns[word - 1]].unit;

    if (unit != NULL && before != NULL && unit != before)
        printf("  ");
}

/* The name of a column, with its unit. */
static void put_name(enum column column)
{
    const struct about *about = &ABOUT[column];
    char text[32];

    snprintf(text, sizeof text, "%s%s%s", about->name, about->unit == NULL ? "" : " ", about->unit == NULL ? "" : about->unit->name);
    printf(" %*s", column_width(column), text);
}

static void show_heading(const struct section *section)
{
    size_t i;

    printf("\n%*s", name_width(section->name), section->name);
    for (i = 0; i < section->width; i++) {
        put_gap(section, i);
        put_name(section->columns[i]);
    }
}

static void show_record(const struct element_file *elements, size_t number, size_t record)
{
    const struct section *section = &elements->layout->section[number];
    size_t i;

    printf("%*lu", name_width(section->name), (unsigned long)record);
    for (i = 0; i < section->width; i++) {
        put_gap(section, i);
        put_column(section->columns[i], record_word(elements, number, record, section->columns[i]));
    }
}

/* A section as a table; requests have the interval behind their words. */
static void show_section(const struct element_file *elements, size_t number)
{
    int is_requests = number == REQUESTS;
    size_t k;

    show_heading(&elements->layout->section[number]);
    if (is_requests)
        printf(" %*s", column_width(COLUMN_TAU), "after epoch s");
    printf("\n");
    for (k = 0; k < record_count(elements, number); k++) {
        show_record(elements, number, k);
        if (is_requests)
            put_column(COLUMN_TAU, interval_of(elements, k));
        printf("\n");
    }
}

static void show_elements(const struct element_file *elements)
{
    size_t i;

    show_counts(elements);
    for (i = 0; i < SECTIONS; i++)
        show_section(elements, i);
}

static enum status run(const struct call *call)
{
    static struct element_file elements;

    if (!take_elements(call->operands[0], &elements))
        return NOT_DONE;
    if (elements_refusal(&elements) != 0) {
        say_refused_elements(&elements);
        return SOMETHING_AMISS;
    }
    if (!call->quiet)
        show_elements(&elements);
    return ALL_WELL;
}

const struct subcommand read_subcommand = {
    "read", "ELEMENTS", "what is in an element file, or its refusal with its byte",
    "Shows the centres, states and requests of the element file ELEMENTS. A file that is refused is told in a\n"
    "line: the byte, what stands there, the refusal's number and words, and what to do.\n"
    "With -q only a refusal is told.\n",
    1, "q", 0, run
};
