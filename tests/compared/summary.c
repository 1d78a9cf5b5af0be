/*
**  kelubashi1_summary, kelubashi1_append and kelubashi1_withdraw against the second program, on families of rosters:
**  states, a list, and some tens of calls on both, compared after each.
**
**     summary [N [SEED [FIRST]]]
*/
#include "compared/shared/drive.h"
#include "compared/summary/ask_summary.h"

#include <inttypes.h>
#include <stdio.h>

#define USUAL 10000

static struct roster roster;

static void compare_one(uint64_t number)
{
    uint64_t turn;
    const struct roster_family *family = roster_family(number, &turn);

    family->make(&roster, turn);
    ask_roster(family->its.name, &roster);
}

static int tell(void)
{
    printf("summary: seed %" PRIu64 ", %" PRIu64 " inputs, none differs\n", drive_seed(), drive_count());
    roster_families_tell();
    return ask_roster_tell();
}

int main(int count, char **words)
{
    drive_start("summary", USUAL, count, words);
    return drive_all(compare_one, tell, "a number or an aim with 0 above was never met:"
                                        " give it a family in tests/compared/summary/rosters.c or a call in tests/compared/summary/roster_calls.c");
}
