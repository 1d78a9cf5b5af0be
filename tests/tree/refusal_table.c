/*
**  The refusals that the header has in words, a line each, with bars between: number, text, advice.
*/
#include "kelubashi.h"

#include <stdio.h>

int main(void)
{
    const char *none = kelubashi_refusal_text(UINT64_MAX);
    uint64_t number;

    for (number = 1; number < 1000; number++)
        if (kelubashi_refusal_text(number) != none)
            printf("%d|%s|%s\n", (int)number, kelubashi_refusal_text(number), kelubashi_refusal_advice(number));
    return 0;
}
