#include "ask_rows.h"

#include "aims_rows.h"
#include "compared/shared/drive.h"
#include "compared/shared/lent_to_both.h"
#include "kelubashi.h"
#include "rules_rows.h"
#include "second/second.h"

#define LOOKED_AT 8     /* rows of a file that are propagated too, since a search takes time */
#define MOST_BEYOND 3     /* words of a run beyond the verdicts */

static uint64_t seen[64];

/* ---- the file ---- */

static void compare_check(const char *what, const struct file *f, size_t k)
{
    lend_both(8 * k);
    library.status = kelubashi1_check(library_file(), f->length, words_of(&library), k, library.answer + 1, WRITTEN);
    second.status = second_check(second_file(), f->length, words_of(&second), k, second.answer + 1, WRITTEN);
    compare(what, WRITTEN);
    expect_check(f, k);
    seen[library.status]++;
    aims_see_check(f, k);
}

static void refuse_count(const struct file *f, size_t k)
{
    size_t count = wrong_count(WRITTEN);

    lend_both(8 * k);
    library.status = kelubashi1_check(library_file(), f->length, words_of(&library), k, answer_of(&library, count), count);
    expect_sixty("check with another count than 2");
    seen[60]++;
}

/* ---- its rows ---- */

static void see_row(const struct file *f, uint64_t which)
{
    uint64_t row[ROW_WORDS], verdict = words_of(&library)[which];
    struct own own;

    take_row(f, which, row);
    memcpy(own.row, row, sizeof row);
    own.refusal = answer_row(own.row);
    expect_verdict(row, verdict, &own);
    aims_see_row(row, verdict, &own);
}

/* All where they are few, otherwise any of them. */
static void see_rows(const struct file *f, uint64_t rows)
{
    uint64_t i;

    for (i = 0; i < rows && i < LOOKED_AT; i++)
        see_row(f, rows <= LOOKED_AT ? i : any_below(rows));
}

static void expect_all_accepted(uint64_t rows)
{
    uint64_t i;

    for (i = 0; i < rows; i++)
        if (words_of(&library)[i] != 1)
            differs("a row that has to be accepted is not");
}

/* ---- a whole input ---- */

/* The rows are told by the call itself, where it has no run. */
void ask_rows(const char *family, const struct file *f, int all_accepted)
{
    size_t rows;

    lent_for(family, f, NULL);
    lend_file(f);
    compare_check("check with no run", f, 0);
    rows = library.status == 26 ? (size_t)library.answer[2] : 0;
    if (rows > 0)
        compare_check("check with a run a word short", f, rows - 1);
    refuse_count(f, rows);
    compare_check("check", f, one_in(2) ? rows : rows + 1 + any_below(MOST_BEYOND));
    expect_file_kept();
    if (library.status != 0)
        return;
    see_rows(f, rows);
    if (all_accepted)
        expect_all_accepted(rows);
}

int ask_rows_tell(void)
{
    static const int numbers[] = { 0, 21, 23, 25, 26, 60 };
    int missed = numbers_tell("check", seen, numbers, sizeof numbers / sizeof numbers[0]);

    return missed + aims_rows_tell();
}
