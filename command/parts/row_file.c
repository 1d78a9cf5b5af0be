#include "row_file.h"

#include "input.h"
#include "place.h"
#include "say.h"

#include <string.h>

enum { ROW_BYTES = 8 * KELUBASHI_CHECK_ROW };

/* ---- words ---- */

enum column row_column(size_t word)
{
    return ROWS_LAYOUT.section[0].columns[word];
}

static size_t row_place(size_t row)
{
    return 8 + ROW_BYTES * row;
}

size_t row_count(const struct row_file *rows)
{
    return (size_t)word_from(rows->bytes);
}

void copy_row(const struct row_file *rows, size_t row, uint64_t *words)
{
    size_t word;

    for (word = 0; word < KELUBASHI_CHECK_ROW; word++)
        words[word] = word_from(rows->bytes + row_place(row) + 8 * word);
}

/* ---- a file that was read ---- */

/* A file refused by 21, 23 or 25 has a place; any other number is the library's own trouble. */
static void say_refused_rows(const struct row_file *rows, uint64_t refusal, uint64_t place)
{
    char text[PLACE_TEXT];

    if (refusal != 21 && refusal != 23 && refusal != 25) {
        say_refused(refusal, "%s: the library's verdicts are", rows->name);
        return;
    }
    describe_byte(&ROWS_LAYOUT, rows->bytes, rows->length, place, text, sizeof text);
    say_refused(refusal, "%s: %s:", rows->name, text);
}

int take_rows(const char *name, struct row_file *rows)
{
    uint64_t answer[KELUBASHI_CHECK_ANSWER] = { 0, 0 };
    uint64_t refusal;

    rows->name = name;
    if (!read_whole(name, rows->bytes, sizeof rows->bytes, &rows->length))
        return 0;
    refusal = kelubashi1_check(rows->bytes, rows->length, rows->verdicts, KELUBASHI_MOST_CHECK_ROWS, answer, KELUBASHI_CHECK_ANSWER);
    if (refusal != 0)
        say_refused_rows(rows, refusal, answer[KELUBASHI_CHECK_PLACE]);
    return refusal == 0;
}

int is_accepted(const struct row_file *rows, size_t row)
{
    return rows->verdicts[row] == 1;
}

/* ---- a file that is made ---- */

static void put_word(uint8_t *bytes, uint64_t word)
{
    int i;

    for (i = 0; i < 8; i++)
        bytes[i] = (uint8_t)(word >> 8 * i);
}

void begin_rows(struct row_file *rows)
{
    put_word(rows->bytes, 0);
    rows->length = row_place(0);
}

void add_row(struct row_file *rows, const uint64_t *words)
{
    size_t word;

    for (word = 0; word < KELUBASHI_CHECK_ROW; word++)
        put_word(rows->bytes + rows->length + 8 * word, words[word]);
    put_word(rows->bytes, row_count(rows) + 1);
    rows->length += ROW_BYTES;
}

uint64_t answer_row(uint64_t *words)
{
    uint64_t answer[KELUBASHI_ANSWER] = { 0 };
    uint64_t refusal = kelubashi1_propagate(words[0], words[1], words[2], words[3], words[4], words[5], words[6], words[7],
                                            answer, KELUBASHI_ANSWER);

    words[KELUBASHI_CHECK_PSI] = answer[KELUBASHI_PSI];
    memcpy(words + KELUBASHI_CHECK_X, answer + KELUBASHI_X, (KELUBASHI_CHECK_ROW - KELUBASHI_CHECK_X) * sizeof *words);
    return refusal;
}
