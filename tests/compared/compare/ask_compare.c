#include "ask_compare.h"

#include "aims_compare.h"
#include "kelubashi.h"
#include "rules_compare.h"
#include "second/second.h"

#include <string.h>

#define MOST_BEYOND 3     /* words of a run beyond what is told */

static uint64_t seen[64];

/* ---- one call, on what is lent ---- */

static void compare_call(const char *what, const struct file *left, const struct file *right, size_t k)
{
    lend_both(8 * k);
    library.status = kelubashi1_compare(library_file(), left->length, library_right(), right->length, words_of(&library), k,
                                        library.answer + 1, COMPARE);
    second.status = second_compare(second_file(), left->length, second_right(), right->length, words_of(&second), k,
                                   second.answer + 1, COMPARE);
    compare(what, COMPARE);
    expect_compare(left, right, k);
    seen[library.status]++;
}

static void compare_run(const char *what, const struct pair *p, size_t k)
{
    compare_call(what, &p->left, &p->right, k);
    aims_see_compare(&p->left, &p->right, k);
}

static void refuse_count(const struct pair *p, size_t k)
{
    size_t count = wrong_count(COMPARE);

    lend_both(8 * k);
    library.status = kelubashi1_compare(library_file(), p->left.length, library_right(), p->right.length, words_of(&library), k,
                                        answer_of(&library, count), count);
    expect_sixty("compare with another count than 7");
    seen[60]++;
}

/* ---- two calls ---- */

/* What the library gave, as far as it was lent. */
static void keep(struct given *copy)
{
    copy->status = library.status;
    memcpy(copy->answer, library.answer, sizeof copy->answer);
    memcpy(copy->room, library.room, library.room_length + 2 * EDGE);
}

static void exchange_sides(const struct pair *p, size_t k)
{
    static struct given forward;

    keep(&forward);
    lend_pair(&p->right, &p->left);
    compare_call("compare with the sides exchanged", &p->right, &p->left, k);
    expect_file_kept();
    if (forward.status == 0)
        expect_mirrored(&forward);
}

static void with_itself(const struct file *f, size_t k)
{
    lend_pair(f, f);
    compare_call("compare of a file with itself", f, f, k);
    expect_file_kept();
    if (library.status == 0)
        expect_nothing_moved();
}

/* ---- a whole input ---- */

/* Words that would do for as many rows as either file has room for: what a call has to leave that refuses. */
static size_t enough(const struct pair *p)
{
    size_t longer = p->left.length > p->right.length ? p->left.length : p->right.length;
    size_t rows = longer / (8 * RESULT_ROW);

    return COMPARED * (rows < MOST_RESULT_ROWS ? rows : MOST_RESULT_ROWS);
}

/* The words needed are told by the call itself, where it has no run. */
void ask_compare(const char *family, const struct pair *p)
{
    size_t needed;

    lent_for_pair(family, &p->left, &p->right);
    lend_pair(&p->left, &p->right);
    compare_run("compare with no run", p, 0);
    needed = library.status == 26 ? (size_t)library.answer[PLACE] : library.status == 0 ? 0 : enough(p);
    if (library.status == 26) {
        compare_run("compare with a run a word short", p, needed - 1);
        compare_run("compare with a short run", p, one_in(4) ? needed / COMPARED : any_below(needed));
    }
    refuse_count(p, needed);
    compare_run("compare with a longer run", p, needed + 1 + any_below(MOST_BEYOND));
    compare_run("compare", p, needed);
    expect_file_kept();
    exchange_sides(p, needed);
    with_itself(&p->left, enough(p));
}

int ask_compare_tell(void)
{
    static const int numbers[] = { 0, 21, 22, 23, 25, 26, 51, 60 };
    int missed = numbers_tell("compare", seen, numbers, sizeof numbers / sizeof numbers[0]);

    return missed + aims_compare_tell();
}
