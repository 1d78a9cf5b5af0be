/* States and lists, sound and damaged, and the families of rosters. */
#include "rosters.h"

#include "compared/shared/drive.h"
#include "records.h"
#include "second/second.h"

#define WRONG 8     /* one call in so many, in most families */

/* ---- states ---- */

/* States in use, and at times some behind them, as they are left when others were withdrawn; a list of any words. */
static void any_states(struct roster *r, uint64_t centres, size_t count)
{
    size_t behind = one_in(2) ? any_below(4) : 0, i;

    r->count = count;
    r->centres = centres;
    r->fill = any_word();
    r->records = count + behind < RECORDS ? count + behind : RECORDS;
    r->list_words = 0;
    for (i = 0; i < r->records; i++)
        any_record(r->states + STATE * i, centres);
}

/* The list that the states have; the rest of its room follows from the fill. */
static void right_list(struct roster *r)
{
    uint64_t answer[2];
    size_t words = ENTRY * (size_t)r->centres;

    if (second_summary(r->states, SECTION, r->count, r->centres, r->list, words, answer, 2) == 0)
        r->list_words = words;
}

static void few_states(struct roster *r, enum epochs how, size_t most_centres, size_t most_states)
{
    size_t centres = 1 + any_below(most_centres), count = any_below(most_states + 1);

    records_begin(how);
    any_states(r, centres, count);
}

/* ---- the families ---- */

static void sound_roster(struct roster *r, uint64_t turn)
{
    few_states(r, turn % 3 == 0 ? FEW : PLAIN, 4, 12);
    right_list(r);
    any_calls(r, WRONG);
}

static void small_roster(struct roster *r, uint64_t turn)
{
    few_states(r, (enum epochs)(turn % EPOCHS), 2, 3);
    right_list(r);
    any_calls(r, WRONG);
}

static void special_epochs(struct roster *r, uint64_t turn)
{
    few_states(r, turn % 2 ? SPECIAL : FEW, 2, 6);
    right_list(r);
    any_calls(r, 2 * WRONG);
}

/* Some states are in no entry: they are there, and move, and cannot be withdrawn. */
static void bad_centres(struct roster *r, uint64_t turn)
{
    size_t i;

    few_states(r, (enum epochs)(turn % EPOCHS), 3, 9);
    for (i = 0; i < r->records; i++)
        if (one_in(3))
            r->states[STATE * i] = bad_centre(r->centres);
    right_list(r);
    any_calls(r, WRONG);
}

/* Entries that a change of their own centre mends, and no other change touches. */
static void wrong_entries(struct roster *r, uint64_t turn)
{
    int count;

    few_states(r, (enum epochs)(turn % EPOCHS), 4, 9);
    right_list(r);
    for (count = any_from(1, 3); count > 0; count--) {
        uint64_t *word = r->list + any_below(ENTRY * r->centres);

        *word = one_in(3) ? any_word() : one_in(2) ? any_epoch() : *word + 1;
    }
    any_calls(r, WRONG);
}

static void any_list(struct roster *r, uint64_t turn)
{
    few_states(r, (enum epochs)(turn % EPOCHS), 4, 9);
    any_calls(r, WRONG);
}

/* No state at all is given, and all follow from the fill; or the numbers of the centres alone are sound. */
static void any_section(struct roster *r, uint64_t turn)
{
    size_t centres = any_below(6), count = any_below(40), i;

    records_begin(ANY);
    any_states(r, centres, count);
    if (turn % 2)
        r->records = 0;
    for (i = 1; i < STATE * r->records; i++)
        if (i % STATE)
            r->states[i] = any_word();
    if (one_in(4))
        r->count = any_word();
    any_calls(r, WRONG);
}

/* Room for a few states more, or for none. */
static void full_section(struct roster *r, uint64_t turn)
{
    size_t centres = 1 + any_below(16);

    records_begin((enum epochs)(turn % EPOCHS));
    any_states(r, centres, RECORDS - turn % 4);
    right_list(r);
    any_calls(r, WRONG / 2);
}

static void many_states(struct roster *r, uint64_t turn)
{
    size_t centres = 1 + any_below(16), count = 13 + any_below(RECORDS - 13);

    records_begin((enum epochs)(turn % EPOCHS));
    any_states(r, centres, count);
    if (one_in(2))
        right_list(r);
    any_calls(r, WRONG);
}

static void no_centres(struct roster *r, uint64_t turn)
{
    size_t count = any_below(5);

    records_begin((enum epochs)(turn % EPOCHS));
    any_states(r, 0, count);
    any_calls(r, WRONG);
}

/* The limit of a file, which the calls do not have, and more than a byte holds. */
static void many_centres(struct roster *r, uint64_t turn)
{
    static const uint64_t centres[] = { 16, 17, 15, 255, 256, 257, MOST_LISTED };
    size_t count = any_below(30);

    records_begin((enum epochs)(turn % EPOCHS));
    any_states(r, centres[turn % (sizeof centres / sizeof centres[0])], count);
    right_list(r);
    any_calls(r, WRONG);
}

static void wrong_lengths(struct roster *r, uint64_t turn)
{
    few_states(r, (enum epochs)(turn % EPOCHS), 3, 6);
    if (one_in(3))
        right_list(r);
    any_calls(r, 1);
}

/* Centres whose fourfold wraps around, to the length that is lent or to another. */
static void wrapped_centres(struct roster *r, uint64_t turn)
{
    few_states(r, (enum epochs)(turn % EPOCHS), 3, 6);
    right_list(r);
    any_calls(r, WRONG);
    r->centres = one_in(3) ? any_word() : r->centres | (1 + any_below(3)) << 62;
}

static const struct roster_family rows[] = {
    { { "sound", 20 }, sound_roster },
    { { "small", 14 }, small_roster },
    { { "special epochs", 16 }, special_epochs },
    { { "centres out of range", 10 }, bad_centres },
    { { "wrong entries", 8 }, wrong_entries },
    { { "any list", 6 }, any_list },
    { { "any words", 5 }, any_section },
    { { "full section", 4 }, full_section },
    { { "many states", 2 }, many_states },
    { { "no centres", 3 }, no_centres },
    { { "many centres", 2 }, many_centres },
    { { "wrong lengths", 8 }, wrong_lengths },
    { { "wrapped centres", 2 }, wrapped_centres },
};

#define FAMILIES (sizeof rows / sizeof rows[0])

static uint64_t seen[FAMILIES];
static const struct families families = { rows, sizeof rows[0], FAMILIES, seen };

const struct roster_family *roster_family(uint64_t number, uint64_t *turn)
{
    return &rows[family_of(&families, number, turn)];
}

void roster_families_tell(void)
{
    families_tell(&families);
}
