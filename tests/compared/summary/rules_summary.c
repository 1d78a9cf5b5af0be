#include "rules_summary.h"

#include "right_entries.h"

#include <string.h>

static const uint64_t *const was = held_before.states + MARGIN, *const is = library_held.states + MARGIN;
static const uint64_t *const list_was = held_before.list + MARGIN, *const list_is = library_held.list + MARGIN;

static int same(const uint64_t *a, const uint64_t *b, uint64_t words)
{
    return memcmp(a, b, 8 * words) == 0;
}

/* The count that came in, or the one that a change makes of it. */
static void expect_answer(const struct made *m)
{
    static const uint64_t more[CALL_NAMES] = { 0, 1, UINT64_MAX };
    uint64_t status = library_held.status, count = status == 0 ? m->count + more[m->name] : m->count;

    if (status != 60 && (library_held.answer[MARGIN] != status || library_held.answer[MARGIN + 1] != count))
        held_differs("an answer that is not the status and the count");
}

/* The record stands behind those in use, and no other word changes. */
static int appended(const struct made *m)
{
    uint64_t end = STATE * m->count, behind = end + STATE;

    return same(is, was, end) && same(is + end, m->record, STATE) && same(is + behind, was + behind, SECTION - behind);
}

/* "A withdrawn state's followers move down one, and the last record freed keeps its words." */
static int withdrawn(const struct made *m)
{
    uint64_t gap = STATE * m->which, freed = STATE * (m->count - 1);

    return same(is, was, gap) && same(is + gap, was + gap + STATE, freed - gap)
        && same(is + freed, was + freed, SECTION - freed);
}

static int states_right(const struct made *m)
{
    if (m->name == SUMMARY)
        return same(is, was, SECTION);
    return m->name == APPEND ? appended(m) : withdrawn(m);
}

/* "After a change that centre's entry is the one worked out afresh and no other is touched." */
static int changed_right(const struct made *m)
{
    uint64_t centre = m->name == APPEND ? m->record[0] : was[STATE * m->which];
    uint64_t entry = ENTRY * centre, behind = entry + ENTRY;

    return same(list_is, list_was, entry) && same(list_is + behind, list_was + behind, LIST_ROOM - behind)
        && entry_right(list_is + entry, centre, is, library_held.answer[MARGIN + 1]);
}

static int summary_right(const struct made *m)
{
    uint64_t behind = ENTRY * m->centres;

    return list_right(list_is, m->centres, is, m->count)
        && same(list_is + behind, list_was + behind, LIST_ROOM - behind);
}

void expect_rules(const struct made *m)
{
    expect_answer(m);
    if (library_held.status != 0) {
        if (!all_held())
            held_differs("a refusal that changes a word");
        return;
    }
    if (!states_right(m))
        held_differs("states that the call does not leave so");
    if (!(m->name == SUMMARY ? summary_right(m) : changed_right(m)))
        held_differs("entries that the call does not leave so");
}
