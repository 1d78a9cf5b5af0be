/*
**  The row of the propagation with its 36 partials, over the fixed set of orbits.
*/
#include "kelubashi.h"
#include "orbits.h"
#include "plain.h"
#include "row.h"

#include <stdio.h>
#include <string.h>

static const char *const columns[] = { "library", "plain", "empty", NULL };

static uint64_t (*const calls[])(uint64_t, uint64_t, uint64_t, uint64_t, uint64_t, uint64_t, uint64_t, uint64_t,
                                 uint64_t *, size_t, uint64_t *, size_t) = {
    kelubashi1_partials, plain_partials, empty_partials
};

static void pass(size_t column)
{
    uint64_t answer[15], run[36];
    size_t i;

    for (i = 0; i < ORBITS; i++)
        calls[column](ORBIT(i), answer, 15, run, 36);
}

static void check(void)
{
    uint64_t library[15 + 36], plain[15 + 36];
    size_t i;

    for (i = 0; i < ORBITS; i++) {
        if (kelubashi1_partials(ORBIT(i), library, 15, library + 15, 36) != 0
            || plain_partials(ORBIT(i), plain, 15, plain + 15, 36) != 0)
            row_differs("a plain orbit is refused", i);
        if (memcmp(library, plain, sizeof plain) != 0)
            row_differs("the partials differ", i);
    }
    printf("partials: the same %d orbits; library and plain C answer alike\n", ORBITS);
}

int main(int count, char **words)
{
    const struct row row = { columns, ORBITS, pass, check };

    orbits_fill();
    return row_run(&row, count, words);
}
