/*
**  Positions for the table of accuracy.py, which gives a line of eight figures for each call: mu, position, velocity,
**  interval. For each it gets one of six: the position before T-04, by plain C, and the library's. All are
**  written in hexadecimal, so that no digit is lost.
*/
#include "kelubashi.h"
#include "plain.h"

#include <stdio.h>
#include <stdlib.h>

#define WORDS(w) (w)[0], (w)[1], (w)[2], (w)[3], (w)[4], (w)[5], (w)[6], (w)[7]

/* Eight figures of a line, as words: whether they are there. */
static int take(uint64_t *words)
{
    double figure;
    int i;

    for (i = 0; i < 8 && scanf("%la", &figure) == 1; i++)
        words[i] = kelubashi_word(figure);
    return i == 8;
}

static void print_position(const uint64_t *answer, char behind)
{
    printf("%a %a %a%c", kelubashi_figure(answer[KELUBASHI_X]), kelubashi_figure(answer[KELUBASHI_Y]),
           kelubashi_figure(answer[KELUBASHI_Z]), behind);
}

int main(void)
{
    uint64_t words[8], before[KELUBASHI_ANSWER], after[KELUBASHI_ANSWER];

    while (take(words)) {
        if (whole_propagate(WORDS(words), before, KELUBASHI_ANSWER) != 0
            || kelubashi1_propagate(WORDS(words), after, KELUBASHI_ANSWER) != 0) {
            fprintf(stderr, "accuracy: an orbit of the table is refused\n");
            return EXIT_FAILURE;
        }
        print_position(before, ' ');
        print_position(after, '\n');
    }
    return EXIT_SUCCESS;
}
