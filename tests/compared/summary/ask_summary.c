#include "ask_summary.h"

#include "aims_summary.h"
#include "held_by_both.h"
#include "kelubashi.h"
#include "right_entries.h"
#include "rules_summary.h"
#include "second/second.h"

#include <string.h>

#define RECORD(h, m) lent_run((h)->record, (m)->r), (m)->r
#define STATES(h, m) lent_run((h)->states, (m)->words), (m)->words, (m)->count, (m)->centres
#define LIST(h, m) lent_run((h)->list, (m)->k), (m)->k
#define ANSWER(h, m) lent_run((h)->answer, (m)->n), (m)->n

/* What is known while the calls of a roster are made. */
struct course {
    const struct roster *roster;
    uint64_t count;     /* as the last accepted call answered it */
    int right;     /* whether the list has to be right */
    int appended;     /* whether the call before was an append, accepted */
};

static uint64_t seen[CALL_NAMES][64];
static uint64_t in_use[SECTION];     /* before the append that was accepted last */

/* ---- one call ---- */

/* A length of more than there is room for becomes another. */
static size_t length_of(uint64_t length, size_t room)
{
    return (size_t)(length <= room ? length : length % (room + 1));
}

static struct made made_of(const struct course *at, const struct call *c)
{
    struct made m;

    m.name = (enum call_name)(c->name % CALL_NAMES);
    m.count = at->count + c->count;
    m.centres = at->roster->centres + c->centres;
    m.which = c->back % 2 ? m.count - c->which : c->which;
    m.record = c->record;
    m.r = length_of(STATE + c->r, RECORD_ROOM);
    m.words = length_of(SECTION + c->words, SECTION_ROOM);
    m.k = length_of(ENTRY * at->roster->centres + c->k, LIST_ROOM);
    m.n = length_of(COUNTED + c->n, ANSWER_ROOM);
    return m;
}

static void call_library(struct held *h, const struct made *m)
{
    switch (m->name) {
    case SUMMARY:
        h->status = kelubashi1_summary(STATES(h, m), LIST(h, m), ANSWER(h, m));
        break;
    case APPEND:
        h->status = kelubashi1_append(RECORD(h, m), STATES(h, m), LIST(h, m), ANSWER(h, m));
        break;
    default:
        h->status = kelubashi1_withdraw(m->which, STATES(h, m), LIST(h, m), ANSWER(h, m));
        break;
    }
}

static void call_second(struct held *h, const struct made *m)
{
    switch (m->name) {
    case SUMMARY:
        h->status = second_summary(STATES(h, m), LIST(h, m), ANSWER(h, m));
        break;
    case APPEND:
        h->status = second_append(RECORD(h, m), STATES(h, m), LIST(h, m), ANSWER(h, m));
        break;
    default:
        h->status = second_withdraw(m->which, STATES(h, m), LIST(h, m), ANSWER(h, m));
        break;
    }
}

/* ---- what the document says of several calls ---- */

/*
**  A summary makes the list right, and each change leaves it right, for as long as the calls tell the same count
**  as the one before them answered, and the same centres.
*/
static void expect_right(struct course *at, const struct made *m)
{
    int same = m->count == at->count && m->centres == at->roster->centres;

    if (!same)
        aim_seen(OTHER_COUNTS);
    at->right = same && (at->right || m->name == SUMMARY);
    if (!at->right)
        return;
    if (!list_right(library_held.list + MARGIN, m->centres, library_held.states + MARGIN,
                    library_held.answer[MARGIN + 1]))
        held_differs("a right list did not stay right");
    aim_seen(m->name == SUMMARY ? MADE_RIGHT : STAYED_RIGHT);
}

/* The state withdrawn is the one that was appended just before. */
static void expect_taken_back(struct course *at, const struct made *m)
{
    if (m->name == WITHDRAW && at->appended && m->count == at->count && m->which == m->count - 1) {
        if (memcmp(library_held.states + MARGIN, in_use, 8 * STATE * (m->count - 1)) != 0)
            held_differs("appended and withdrawn, the states in use are not what they were");
        aim_seen(TAKEN_BACK);
    }
    at->appended = m->name == APPEND;
    if (at->appended)
        memcpy(in_use, held_before.states + MARGIN, 8 * STATE * m->count);
}

/* ---- a whole roster ---- */

static void make_call(struct course *at, const struct call *c)
{
    struct made m = made_of(at, c);

    hold_call(&m);
    call_library(&library_held, &m);
    call_second(&second_held, &m);
    compare_held();
    expect_rules(&m);
    seen[m.name][library_held.status % 64]++;
    aims_see_call(&m);
    if (library_held.status == 0) {
        expect_right(at, &m);
        expect_taken_back(at, &m);
        at->count = library_held.answer[MARGIN + 1];
    }
}

void ask_roster(const char *family, const struct roster *r)
{
    struct course at = { r, r->count, 0, 0 };
    size_t i;

    hold_roster(family, r);
    at.right = r->count <= RECORDS && r->centres <= MOST_LISTED
        && list_right(library_held.list + MARGIN, r->centres, library_held.states + MARGIN, r->count);
    for (i = 0; i < r->calls; i++)
        make_call(&at, &r->call[i]);
}

int ask_roster_tell(void)
{
    static const int numbers[] = { 0, 27, 41, 60, 24, 42 };     /* the last two not of a summary */
    int missed = numbers_tell("summary", seen[SUMMARY], numbers, 4);

    missed += numbers_tell("append", seen[APPEND], numbers, 6);
    missed += numbers_tell("withdraw", seen[WITHDRAW], numbers, 6);
    return missed + aims_summary_tell();
}
