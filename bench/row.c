/*
**  One row's program: what it is asked for, and the time of a call.
*/
#include "row.h"

#include <stdio.h>
#include <stdlib.h>
#include <string.h>
#include <time.h>

void row_differs(const char *what, size_t number)
{
    fprintf(stderr, "bench: %s (number %lu of the set): nothing is measured\n", what, (unsigned long)number);
    exit(EXIT_FAILURE);
}

static void passes(const struct row *row, size_t column, unsigned long count)
{
    while (count-- > 0)
        row->pass(column);
}

/* In seconds of this processor. */
static double time_of(const struct row *row, size_t column, unsigned long count)
{
    clock_t start = clock();

    passes(row, column, count);
    return (double)(clock() - start) / CLOCKS_PER_SEC;
}

/* The least of nine runs of a twentieth of a second each: what disturbs a run only makes it longer. */
static double nanoseconds(const struct row *row, size_t column)
{
    unsigned long count = 1;
    double least, next;
    int i;

    while ((least = time_of(row, column, count)) < 0.05)
        count *= 2;
    for (i = 1; i < 9; i++) {
        next = time_of(row, column, count);
        least = next < least ? next : least;
    }
    return least * 1e9 / (double)count / (double)row->calls;
}

static int usage(const struct row *row)
{
    size_t i;

    fprintf(stderr, "usage: check | calls | COLUMN [PASSES], a column being one of\n");
    for (i = 0; row->columns[i] != NULL; i++)
        fprintf(stderr, "    %s\n", row->columns[i]);
    return EXIT_FAILURE;
}

int row_run(const struct row *row, int count, char **words)
{
    size_t column = 0;

    if (count < 2 || count > 3)
        return usage(row);
    if (strcmp(words[1], "check") == 0) {
        row->check();
        return EXIT_SUCCESS;
    }
    if (strcmp(words[1], "calls") == 0) {
        printf("%lu\n", (unsigned long)row->calls);
        return EXIT_SUCCESS;
    }
    while (row->columns[column] != NULL && strcmp(words[1], row->columns[column]) != 0)
        column++;
    if (row->columns[column] == NULL)
        return usage(row);
    if (count == 3)
        passes(row, column, strtoul(words[2], NULL, 10));
    else
        printf("%.1f\n", nanoseconds(row, column));
    return EXIT_SUCCESS;
}
