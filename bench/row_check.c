/*
**  The row of another station's rows: our own answers to the fixed set of orbits, all of which are accepted. The row is for files of one row each; beside it are
**  files of 400 rows, and the propagation of the same orbits. Whatever the column, a pass comes by each orbit as often, so that all are counted by the row.
*/
#include "kelubashi.h"
#include "orbits.h"
#include "plain.h"
#include "row.h"

#include <stdio.h>
#include <string.h>

enum {
    ROWS = 4 * KELUBASHI_MOST_CHECK_ROWS,     /* of a pass: each orbit 25 times, and whole files of 400 */
    FULL = KELUBASHI_MOST_CHECK_FILE,         /* bytes of such a file */
    SINGLE = 8 + 8 * KELUBASHI_CHECK_ROW      /* bytes of one of a row */
};

static const char *const columns[] = {
    "library", "plain", "empty", "library files", "plain files", "empty files", "library propagate", "plain propagate", "empty propagate", NULL
};

enum { FILES = 3, PROPAGATE = 6 };     /* the first columns of full files and of the propagation */

static uint64_t (*const checks[])(const uint8_t *, size_t, uint64_t *, size_t, uint64_t *, size_t) = {
    kelubashi1_check, plain_check, empty_check
};

static uint64_t (*const propagations[])(uint64_t, uint64_t, uint64_t, uint64_t, uint64_t, uint64_t, uint64_t, uint64_t,
                                        uint64_t *, size_t) = {
    kelubashi1_propagate, plain_propagate, empty_propagate
};

static uint8_t singles[ORBITS][SINGLE], full[ROWS / KELUBASHI_MOST_CHECK_ROWS][FULL];
static uint64_t verdicts[KELUBASHI_MOST_CHECK_ROWS];

/* The row of an orbit: what goes in, psi, and position, velocity and acceleration at the end. */
static void row_of(size_t orbit, uint64_t *row)
{
    uint64_t answer[15];

    if (kelubashi1_propagate(ORBIT(orbit), answer, 15) != 0)
        row_differs("a plain orbit is refused", orbit);
    memcpy(row, orbits[orbit], sizeof orbits[orbit]);
    row[KELUBASHI_CHECK_PSI] = answer[KELUBASHI_PSI];
    memcpy(row + KELUBASHI_CHECK_X, answer + KELUBASHI_X, 9 * sizeof *row);
}

static void put_count(uint8_t *file, uint64_t rows)
{
    memcpy(file, &rows, sizeof rows);
}

static void fill(void)
{
    uint64_t row[KELUBASHI_CHECK_ROW];
    size_t i, file, k;

    orbits_fill();
    for (i = 0; i < ORBITS; i++) {
        row_of(i, row);
        put_count(singles[i], 1);
        memcpy(singles[i] + 8, row, sizeof row);
    }
    for (i = 0; i < ROWS; i++) {
        file = i / KELUBASHI_MOST_CHECK_ROWS;
        k = i % KELUBASHI_MOST_CHECK_ROWS;
        put_count(full[file], KELUBASHI_MOST_CHECK_ROWS);
        memcpy(full[file] + 8 + sizeof row * k, singles[i % ORBITS] + 8, sizeof row);
    }
}

static void pass(size_t column)
{
    uint64_t answer[15];
    size_t i;

    if (column >= PROPAGATE)
        for (i = 0; i < ROWS; i++)
            propagations[column - PROPAGATE](ORBIT(i % ORBITS), answer, 15);
    else if (column >= FILES)
        for (i = 0; i < ROWS / KELUBASHI_MOST_CHECK_ROWS; i++)
            checks[column - FILES](full[i], FULL, verdicts, KELUBASHI_MOST_CHECK_ROWS, answer, 2);
    else
        for (i = 0; i < ROWS; i++)
            checks[column](singles[i % ORBITS], SINGLE, verdicts, 1, answer, 2);
}

/* Library and plain C say the same of a file; how many of its rows they accept. */
static size_t accepted(const uint8_t *file, size_t length, size_t number)
{
    static uint64_t plain[KELUBASHI_MOST_CHECK_ROWS];
    uint64_t answer[2], plain_answer[2];
    size_t yes = 0, i;

    if (kelubashi1_check(file, length, verdicts, KELUBASHI_MOST_CHECK_ROWS, answer, 2) != 0)
        row_differs("a file of rows is refused", number);
    if (plain_check(file, length, plain, KELUBASHI_MOST_CHECK_ROWS, plain_answer, 2) != 0)
        row_differs("plain C refuses a file of rows", number);
    if (memcmp(answer, plain_answer, sizeof answer) != 0 || memcmp(verdicts, plain, answer[1] * sizeof plain[0]) != 0)
        row_differs("the verdicts differ", number);
    for (i = 0; i < answer[1]; i++)
        yes += verdicts[i] == 1;
    return yes;
}

/* How many are accepted of a row's 18 words, each with its last digit changed in turn. */
static size_t accepted_changed(size_t orbit)
{
    size_t yes = 0, i;

    for (i = 0; i < KELUBASHI_CHECK_ROW; i++) {
        singles[orbit][8 + 8 * i] ^= 1;
        yes += accepted(singles[orbit], SINGLE, orbit);
        singles[orbit][8 + 8 * i] ^= 1;
    }
    return yes;
}

static void check(void)
{
    size_t changed = 0, i;

    for (i = 0; i < ORBITS; i++) {
        if (accepted(singles[i], SINGLE, i) != 1)
            row_differs("our own row is not accepted", i);
        changed += accepted_changed(i);
    }
    for (i = 0; i < ROWS / KELUBASHI_MOST_CHECK_ROWS; i++)
        if (accepted(full[i], FULL, i) != KELUBASHI_MOST_CHECK_ROWS)
            row_differs("our own rows are not accepted", i);
    printf("check: %d rows, all accepted; with the last digit of a word changed %lu of %d; library and plain C say the same\n", ORBITS,
           (unsigned long)changed, ORBITS * KELUBASHI_CHECK_ROW);
}

int main(int count, char **words)
{
    const struct row row = { columns, ROWS, pass, check };

    fill();
    return row_run(&row, count, words);
}
