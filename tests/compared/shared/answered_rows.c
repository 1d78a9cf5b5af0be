#include "answered_rows.h"

#include "second/second.h"

#include <string.h>

enum { STATE = 64, REQUEST = 16 };      /* bytes of a record */

static uint64_t word_at(const uint8_t *bytes)
{
    uint64_t word = 0, i;

    for (i = 0; i < 8; i++)
        word += (uint64_t)bytes[i] << 8 * i;
    return word;
}

static double figure_at(const uint8_t *bytes)
{
    uint64_t word = word_at(bytes);
    double figure;

    memcpy(&figure, &word, sizeof figure);
    return figure;
}

static void put_word(uint8_t *bytes, uint64_t word)
{
    int i;

    for (i = 0; i < 8; i++)
        bytes[i] = (uint8_t)(word >> 8 * i & 255);
}

/* The row of a request: its input, psi and the nine figures. False where it is refused. */
static int answered(const uint8_t *centres, const uint8_t *states, const uint8_t *request, uint8_t *row)
{
    const uint8_t *state = states + STATE * word_at(request);
    uint64_t words[ROW_WORDS], answer[15];
    double tau = figure_at(request + 8) - figure_at(state + 8);
    size_t i;

    words[0] = word_at(centres + 8 * word_at(state));
    for (i = 0; i < 6; i++)
        words[1 + i] = word_at(state + 16 + 8 * i);
    memcpy(words + 7, &tau, sizeof tau);
    if (second_propagate(words[0], words[1], words[2], words[3], words[4], words[5], words[6], words[7], answer, 15) != 0)
        return 0;
    words[8] = answer[14];
    memcpy(words + 9, answer + 2, 9 * sizeof *words);
    for (i = 0; i < ROW_WORDS; i++)
        put_word(row + 8 * i, words[i]);
    return 1;
}

size_t answered_rows(const uint8_t *elements, size_t length, uint64_t first, uint8_t *rows)
{
    uint64_t read[8], request;
    size_t made = 0;

    if (second_read(elements, length, read, 8) != 0)
        return 0;
    for (request = first; request < read[7] && request < first + MOST_ROWS; request++)
        made += (size_t)answered(elements + read[2] + 8, elements + read[4] + 8, elements + read[6] + 8 + REQUEST * request,
                                 rows + 8 + 8 * ROW_WORDS * made);
    put_word(rows, made);
    return 8 + 8 * ROW_WORDS * made;
}
