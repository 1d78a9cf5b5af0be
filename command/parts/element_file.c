#include "element_file.h"

#include "input.h"
#include "say.h"

#include <inttypes.h>
#include <math.h>
#include <stdio.h>

void judge_elements(struct element_file *elements)
{
    uint64_t status = kelubashi1_read(elements->bytes, elements->length, elements->answer, KELUBASHI_READ_ANSWER);

    elements->answer[KELUBASHI_READ_REFUSAL] = status;
    elements->layout = elements_layout(word_from(elements->bytes));
}

int take_elements(const char *name, struct element_file *elements)
{
    elements->name = name;
    if (!read_whole(name, elements->bytes, sizeof elements->bytes, &elements->length))
        return 0;
    judge_elements(elements);
    return 1;
}

uint64_t elements_refusal(const struct element_file *elements)
{
    return elements->answer[KELUBASHI_READ_REFUSAL];
}

/* ---- the place of a refusal ---- */

void describe_place(const struct element_file *elements, uint64_t place, char *text, size_t size)
{
    describe_byte(elements->layout, elements->bytes, elements->length, place, text, size);
}

void say_refused_elements(const struct element_file *elements)
{
    char text[PLACE_TEXT];

    describe_place(elements, elements->answer[KELUBASHI_READ_PLACE], text, sizeof text);
    say_refused(elements_refusal(elements), "%s: %s:", elements->name, text);
}

/* ---- records ---- */

/* In the library's answer the sections follow one another, each with the place of its count and the count. */
enum { PER_SECTION = KELUBASHI_READ_STATES - KELUBASHI_READ_CENTRES };

size_t record_count(const struct element_file *elements, size_t section)
{
    return (size_t)elements->answer[KELUBASHI_READ_CENTRE_COUNT + PER_SECTION * section];
}

void show_counts(const struct element_file *elements)
{
    printf("%s: element file of edition %" PRIu64 ", %lu bytes: centres %lu, states %lu, requests %lu\n", elements->name,
           elements->layout->edition, (unsigned long)elements->length, (unsigned long)record_count(elements, CENTRES),
           (unsigned long)record_count(elements, STATES), (unsigned long)record_count(elements, REQUESTS));
}

/* The place of a word by its number, the records standing behind the count of their section. */
static size_t word_place(const struct element_file *elements, size_t section, size_t record, size_t word)
{
    size_t place = (size_t)elements->answer[KELUBASHI_READ_CENTRES + PER_SECTION * section];

    return place + 8 + 8 * (record * elements->layout->section[section].width + word);
}

size_t record_place(const struct element_file *elements, size_t section, size_t record, enum column column)
{
    return word_place(elements, section, record, word_number(&elements->layout->section[section], column));
}

uint64_t record_word(const struct element_file *elements, size_t section, size_t record, enum column column)
{
    return word_from(elements->bytes + record_place(elements, section, record, column));
}

void copy_states(const struct element_file *elements, uint64_t *run)
{
    size_t width = elements->layout->section[STATES].width, state, word;

    for (state = 0; state < record_count(elements, STATES); state++)
        for (word = 0; word < width; word++)
            *run++ = word_from(elements->bytes + word_place(elements, STATES, state, word));
}

size_t centre_of(const struct element_file *elements, size_t state)
{
    return (size_t)record_word(elements, STATES, state, COLUMN_CENTRE);
}

size_t state_of(const struct element_file *elements, size_t request)
{
    return (size_t)record_word(elements, REQUESTS, request, COLUMN_STATE);
}

/* The library refuses no two words; an interval that it did not give would be no number. */
uint64_t interval_of(const struct element_file *elements, size_t request)
{
    uint64_t interval;
    uint64_t refusal = kelubashi1_interval(record_word(elements, REQUESTS, request, COLUMN_TIME),
                                           record_word(elements, STATES, state_of(elements, request), COLUMN_EPOCH), &interval, 1);

    return refusal == 0 ? interval : kelubashi_word(NAN);
}

void request_input(const struct element_file *elements, size_t request, uint64_t *words)
{
    size_t state = state_of(elements, request);
    enum column column;

    *words++ = record_word(elements, CENTRES, centre_of(elements, state), COLUMN_MU);
    for (column = COLUMN_X; column <= COLUMN_VZ; column++)
        *words++ = record_word(elements, STATES, state, column);
    *words = interval_of(elements, request);
}
