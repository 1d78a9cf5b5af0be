#include "one_row.h"

void one_row(const uint64_t *given, const uint64_t *answer, uint8_t *file)
{
    uint64_t words[1 + KELUBASHI_CHECK_ROW] = { 1 };
    int i;

    memcpy(words + 1 + KELUBASHI_CHECK_MU, given, 8 * sizeof *words);
    words[1 + KELUBASHI_CHECK_PSI] = answer[KELUBASHI_PSI];
    memcpy(words + 1 + KELUBASHI_CHECK_X, answer + KELUBASHI_X, 9 * sizeof *words);
    for (i = 0; i < ONE_ROW; i++)
        file[i] = (uint8_t)(words[i / 8] >> 8 * (i % 8));
}

void move_results(const uint8_t *results, uint8_t *moved)
{
    int i;

    memcpy(moved, results, ONE_RESULT);
    for (i = 16 + 8 * KELUBASHI_X; i < ONE_RESULT; i += 8)
        moved[i] ^= 1;
}
