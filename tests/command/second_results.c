/*
**  The result file that the second program gives for an element file, whole, however long the file is.
**
**     second_results <ELEMENTS >RESULTS
*/
#include "second/second.h"

#include <stdio.h>
#include <stdlib.h>

enum { LONGEST = 1 << 20, ROOM = 16 + 88 * 1500 };

int main(void)
{
    static uint8_t file[LONGEST], room[ROOM];
    size_t length = fread(file, 1, LONGEST, stdin);
    uint64_t answer[2];

    if (ferror(stdin) || !feof(stdin)) {
        fprintf(stderr, "second_results: standard input cannot be read, or is longer than %d bytes\n", LONGEST);
        return EXIT_FAILURE;
    }
    if (second_results(file, length, room, ROOM, answer, 2) != 0 || fwrite(room, 1, answer[1], stdout) != answer[1])
        return EXIT_FAILURE;
    return fflush(stdout) == 0 ? EXIT_SUCCESS : EXIT_FAILURE;
}
