/* Calls on a roster: right ones, and such as are refused. */
#include "compared/shared/drive.h"
#include "records.h"
#include "rosters.h"

#include <string.h>

#define OF(list) (list)[any_below(sizeof(list) / sizeof(list)[0])]
#define LESS(number) (-UINT64_C(number))

/* What is added to a length, so that it is another: of the section, of the list, of the record, of the answer. */
static const uint64_t words_by[] = { 1, LESS(1), 8, LESS(8), LESS(4000), LESS(3992), LESS(500), LESS(2000) };
static const uint64_t k_by[] = { 1, LESS(1), 4, LESS(4), 3, LESS(3), 8, 1000 };
static const uint64_t r_by[] = { 1, LESS(1), LESS(8), 8, LESS(4), LESS(7) };
static const uint64_t n_by[] = { 1, LESS(1), LESS(2), 2, 6 };

/* To a count of states: some leave it a sound one, of which other states are in use. */
static uint64_t count_by(void)
{
    static const uint64_t by[] = {
        1, LESS(1), 2, LESS(2), 500, 501, UINT64_C(1) << 61, UINT64_C(1) << 63, UINT64_C(1) << 32,
    };

    return one_in(4) ? any_word() : OF(by);
}

/* To a count of centres: some by which four times it is the same word. */
static uint64_t centres_by(void)
{
    static const uint64_t by[] = {
        1, LESS(1), UINT64_C(1) << 62, UINT64_C(1) << 63, UINT64_C(3) << 62, UINT64_C(1) << 32, UINT64_C(1) << 61,
    };

    return one_in(6) ? any_word() : OF(by);
}

static void spoil(struct call *c)
{
    switch (any_below(7)) {
    case 0:
        c->words = OF(words_by);
        break;
    case 1:
        c->count = count_by();
        break;
    case 2:
        c->centres = centres_by();
        break;
    case 3:
        c->k = OF(k_by);
        break;
    case 4:     /* in append alone */
        c->r = OF(r_by);
        break;
    case 5:
        c->n = OF(n_by);
        break;
    default:     /* one centre more or less, with its entry */
        c->centres = one_in(2) ? 1 : LESS(1);
        c->k = 4 * c->centres;
        break;
    }
}

/* The first, the last or any other; or none, by a little or by much. */
static void any_which(struct call *c, uint64_t wrong)
{
    static const uint64_t beyond[] = {
        0, LESS(1), LESS(2), UINT64_C(1) << 61, UINT64_C(1) << 63, UINT64_C(1) << 32, LESS(500), 500,
    };

    c->back = any_below(2);
    if (one_in(2 * wrong)) {
        c->back = 1;
        c->which = one_in(6) ? any_word() : OF(beyond);
    } else if (one_in(3))     /* the first or the last */
        c->which = c->back;
    else if (one_in(6))
        c->which = any_below(RECORDS);
    else
        c->which = c->back + any_below(5);
}

static void any_call(struct call *c, uint64_t centres, uint64_t wrong)
{
    uint64_t turn = any_below(16);

    memset(c, 0, sizeof *c);
    c->name = turn == 0 ? SUMMARY : turn < 9 ? APPEND : WITHDRAW;
    any_record(c->record, centres);
    if (one_in(2 * wrong))
        c->record[0] = bad_centre(centres);
    any_which(c, wrong);
    if (one_in(wrong))
        spoil(c);
    if (one_in(3 * wrong))
        spoil(c);
}

/* The state appended before it is the last. */
static void take_back(struct call *c)
{
    memset(c, 0, sizeof *c);
    c->name = WITHDRAW;
    c->back = c->which = 1;
}

void any_calls(struct roster *r, uint64_t wrong)
{
    size_t i;

    r->calls = 8 + any_below(MOST_CALLS - 7);
    for (i = 0; i < r->calls; i++)
        if (i > 0 && r->call[i - 1].name == APPEND && one_in(6))
            take_back(&r->call[i]);
        else
            any_call(&r->call[i], r->centres, wrong);
}
