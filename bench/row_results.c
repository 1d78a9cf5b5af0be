/*
**  The row of a whole element file: 16 centres, 500 states of the fixed set, 1,500 requests. The library is also asked for fewer requests of the same states.
*/
#include "elements.h"
#include "kelubashi.h"
#include "plain.h"
#include "row.h"

#include <stdio.h>
#include <string.h>

static const char *const columns[] = { "library", "plain", "1000", "100", "10", "1", "empty", NULL };

static const uint64_t requests[] = { 1500, 1500, 1000, 100, 10, 1, 1500 };

static uint64_t (*const calls[])(const uint8_t *, size_t, uint8_t *, size_t, uint64_t *, size_t) = {
    kelubashi1_results, plain_results, kelubashi1_results, kelubashi1_results, kelubashi1_results, kelubashi1_results,
    empty_results
};

static uint8_t files[sizeof requests / sizeof requests[0]][KELUBASHI_MOST_FILE], room[KELUBASHI_MOST_RESULTS];
static size_t lengths[sizeof requests / sizeof requests[0]];

static void pass(size_t column)
{
    uint64_t answer[2];

    calls[column](files[column], lengths[column], room, sizeof room, answer, 2);
}

static void check(void)
{
    static uint8_t plain[sizeof room];
    uint64_t answer[2];

    if (kelubashi1_results(files[0], lengths[0], room, sizeof room, answer, 2) != 0 || answer[1] != sizeof room)
        row_differs("the file is refused", 0);
    if (plain_results(files[1], lengths[1], plain, sizeof plain, answer, 2) != 0 || answer[1] != sizeof plain)
        row_differs("plain C refuses the file", 0);
    if (memcmp(room, plain, sizeof room) != 0)
        row_differs("the result files differ", 0);
    printf("results: a file of %d requests, %d bytes; library and plain C write alike\n", KELUBASHI_MOST_REQUESTS,
           KELUBASHI_MOST_FILE);
}

int main(int count, char **words)
{
    const struct row row = { columns, 1, pass, check };
    size_t i;

    for (i = 0; i < sizeof requests / sizeof requests[0]; i++)
        lengths[i] = elements_fill(files[i], requests[i]);
    return row_run(&row, count, words);
}
