/*
**  kelubashi1_propagate and kelubashi1_partials against the second program, on families of inputs.
**
**     states [N [SEED [FIRST]]]
*/
#include "compared/shared/drive.h"
#include "compared/states/aims_states.h"
#include "compared/states/ask_state.h"
#include "compared/states/state_families.h"

#include <inttypes.h>
#include <stdio.h>

#define USUAL 200000

static uint64_t most_points;

static void compare_one(uint64_t number)
{
    const struct state_family *family = state_family(number);
    uint64_t words[8];
    struct asked asked;

    family->make(words);
    asked = ask_state(family->its.name, words, number);
    if (asked.points > most_points)
        most_points = asked.points;
    if (family->aimed && one_in(4))     /* a part of them: this repeats the search */
        aims_see(words, asked.propagated, asked.with_partials);
}

static int tell(void)
{
    int missed;

    printf("states: seed %" PRIu64 ", %" PRIu64 " inputs, none differs, at most %" PRIu64 " points\n",
           drive_seed(), drive_count(), most_points);
    state_families_tell();
    missed = ask_state_tell();
    return missed + aims_tell();
}

int main(int count, char **words)
{
    drive_start("states", USUAL, count, words);
    return drive_all(compare_one, tell, "a refusal or an aim with 0 above was never met:"
                                        " aim its family in tests/compared/states/aimed.c, aimed_search.c or aimed_revolutions.c better");
}
