/*
**  kelubashi1_read, kelubashi1_write and kelubashi1_results against the second program, on families of
**  files and of sections to write.
**
**     files [N [SEED [FIRST]]]
*/
#include "compared/files/ask_file.h"
#include "compared/shared/drive.h"

#include <inttypes.h>
#include <stdio.h>

#define USUAL 60000     /* three in four are files, the others are sections to write */

static struct file file;
static struct sections sections;

static void compare_one(uint64_t number)
{
    uint64_t turn;
    const struct file_family *family = file_family(number, &turn);

    if (family->file != NULL) {
        family->file(&file, turn);
        ask_file(family->its.name, &file);
    } else {
        family->sections(&sections, turn);
        ask_sections(family->its.name, &sections);
    }
}

static int tell(void)
{
    printf("files: seed %" PRIu64 ", %" PRIu64 " inputs, none differs\n", drive_seed(), drive_count());
    file_families_tell();
    return ask_file_tell();
}

int main(int count, char **words)
{
    drive_start("files", USUAL, count, words);
    return drive_all(compare_one, tell, "a number with 0 above was never met: give it a family in tests/compared/files/damaged_files.c");
}
