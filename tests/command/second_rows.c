/*
**  The rows that the second program answers to the requests of an element file, from a number on and 400 at most.
**
**     second_rows FROM <ELEMENTS >ROWS
*/
#include "compared/shared/answered_rows.h"

#include <stdio.h>
#include <stdlib.h>

enum { LONGEST = 56160 };

int main(int count, char **words)
{
    static uint8_t file[LONGEST + 1], rows[MOST_ROW_BYTES];
    size_t length = fread(file, 1, sizeof file, stdin), made;

    if (count != 2 || ferror(stdin)) {
        fprintf(stderr, "usage: second_rows FROM <ELEMENTS >ROWS\n");
        return EXIT_FAILURE;
    }
    made = answered_rows(file, length, strtoull(words[1], NULL, 10), rows);
    return made != 0 && fwrite(rows, 1, made, stdout) == made && fflush(stdout) == 0 ? EXIT_SUCCESS : EXIT_FAILURE;
}
