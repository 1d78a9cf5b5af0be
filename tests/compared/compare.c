/*
**  kelubashi1_compare against the second program, on families of pairs of result files.
**
**     compare [N [SEED [FIRST]]]
*/
#include "compared/compare/ask_compare.h"
#include "compared/shared/drive.h"

#include <inttypes.h>
#include <stdio.h>

#define USUAL 20000

static struct pair pair;

static void compare_one(uint64_t number)
{
    uint64_t turn;
    const struct pair_family *family = pair_family(number, &turn);

    make_pair(family, &pair, turn);
    ask_compare(family->its.name, &pair);
}

static int tell(void)
{
    printf("compare: seed %" PRIu64 ", %" PRIu64 " inputs, none differs\n", drive_seed(), drive_count());
    pair_families_tell();
    return ask_compare_tell();
}

int main(int count, char **words)
{
    drive_start("compare", USUAL, count, words);
    return drive_all(compare_one, tell, "a number or an aim with 0 above was never met:"
                                        " give it a row in tests/compared/compare/pair_makers.c or a family in tests/compared/compare/result_pairs.c");
}
