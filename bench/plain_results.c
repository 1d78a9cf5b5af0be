/*
**  The result file of an element file, and the interval of a request, in plain C of the same rules. Words are copied as they lie: x86-64 has the lowest
**  byte first, as the files have.
*/
#include "plain.h"

#include <string.h>

static const size_t widths[3] = { 1, 8, 2 };
static const uint64_t limits[3] = { 16, 500, 1500 };

/* Where the records of the three sections start, and how many there are. */
struct sections {
    const uint8_t *start[3];
    uint64_t count[3];
};

static uint64_t word_at(const uint8_t *place)
{
    uint64_t word;

    memcpy(&word, place, 8);
    return word;
}

static double figure_at(const uint8_t *place)
{
    double figure;

    memcpy(&figure, place, 8);
    return figure;
}

/* One section from a place on: 0, 21, 23 or 24. Numbers have to lie below; of centres none is asked. */
static uint64_t walk(const uint8_t **place, const uint8_t *end, int section, uint64_t below, struct sections *s)
{
    const size_t width = 8 * widths[section];
    uint64_t left;

    if (end - *place < 8)
        return 21;
    left = word_at(*place);
    if (left > limits[section])
        return 23;
    s->count[section] = left;
    *place += 8;
    s->start[section] = *place;
    for (; left > 0; left--) {
        if (end - *place < 8)
            return 21;
        if (section > 0 && word_at(*place) >= below)
            return 24;
        if ((size_t)(end - *place) < width)
            return 21;
        *place += width;
    }
    return 0;
}

static uint64_t read_sections(const uint8_t *file, size_t length, struct sections *s)
{
    const uint8_t *place = file + 8, *end = file + length;
    uint64_t below = 0, refusal;
    int i;

    if (length < 8)
        return 21;
    if (word_at(file) != 1)
        return 22;
    for (i = 0; i < 3; i++) {
        refusal = walk(&place, end, i, below, s);
        if (refusal != 0)
            return refusal;
        below = s->count[i];
    }
    return place == end ? 0 : 25;
}

/* Time less epoch, and one word for every NaN. */
uint64_t plain_interval(uint64_t time, uint64_t epoch, uint64_t *answer, size_t n)
{
    const uint64_t nan = UINT64_C(0x7FF8000000000000);
    double left, right, tau;

    if (n != 1)
        return 60;
    memcpy(&left, &time, 8);
    memcpy(&right, &epoch, 8);
    tau = left - right;
    memcpy(answer, tau == tau ? (const void *)&tau : &nan, 8);
    return 0;
}

static void put_row(uint8_t *row, const struct sections *s, uint64_t number)
{
    const uint8_t *request = s->start[2] + 16 * number;
    const uint8_t *state = s->start[1] + 64 * word_at(request);
    const uint8_t *centre = s->start[0] + 8 * word_at(state);
    double tau = figure_at(request + 8) - figure_at(state + 8);
    uint64_t word, answer[15];

    memcpy(&word, &tau, 8);
    plain_propagate(word_at(centre), word_at(state + 16), word_at(state + 24), word_at(state + 32),
                    word_at(state + 40), word_at(state + 48), word_at(state + 56), word, answer, 15);
    memcpy(row, answer, 88);
}

uint64_t plain_results(const uint8_t *file, size_t length, uint8_t *room, size_t size, uint64_t *answer, size_t n)
{
    struct sections s;
    uint64_t head[3] = { 1, 0, 0 }, i;

    if (n != 2)
        return 60;
    head[2] = read_sections(file, length, &s);
    if (head[2] == 0)
        head[1] = s.count[2];
    answer[1] = head[2] == 0 ? 16 + 88 * head[1] : 24;
    answer[0] = size < answer[1] ? 26 : 0;
    if (answer[0] != 0)
        return answer[0];
    memcpy(room, head, head[2] == 0 ? 16 : 24);
    for (i = 0; i < head[1]; i++)
        put_row(room + 16 + 88 * i, &s, i);
    return 0;
}
