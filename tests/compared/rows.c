/*
**  kelubashi1_check against the second program, on families of files of rows.
**
**     rows [N [SEED [FIRST]]]
*/
#include "compared/rows/ask_rows.h"
#include "compared/shared/drive.h"

#include <inttypes.h>
#include <stdio.h>

#define USUAL 20000

static struct file file;

static void compare_one(uint64_t number)
{
    uint64_t turn;
    const struct row_family *family = row_family(number, &turn);

    make_rows(family, &file, turn);
    ask_rows(family->its.name, &file, family->accepted);
}

static int tell(void)
{
    printf("rows: seed %" PRIu64 ", %" PRIu64 " inputs, none differs\n", drive_seed(), drive_count());
    row_families_tell();
    return ask_rows_tell();
}

int main(int count, char **words)
{
    drive_start("rows", USUAL, count, words);
    return drive_all(compare_one, tell, "a number or an aim with 0 above was never met:"
                                        " give it a row in tests/compared/rows/row_makers.c or a family in tests/compared/rows/row_files.c");
}
