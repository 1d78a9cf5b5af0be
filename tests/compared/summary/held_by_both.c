#include "held_by_both.h"

#include "compared/shared/drive.h"

#include <inttypes.h>
#include <stdio.h>
#include <string.h>

#define LENT UINT64_C(0x5EED5EED5EED5EED)
#define ROOM(run) (sizeof(run) / sizeof(run)[0])

struct held library_held, second_held, held_before;

static const char *const names[CALL_NAMES] = { "summary", "append", "withdraw" };
static const char *its_family;
static const struct roster *its_roster;
static const struct made *its_call;
static uint64_t calls_made;

/* ---- what is lent ---- */

/* Another mark for each program, so that one that reads beside what is lent finds other words than the other. */
static uint64_t mark_of(const struct held *h)
{
    return h == &library_held ? LENT : ~LENT;
}

static void mark(uint64_t *run, size_t room, uint64_t word)
{
    size_t i;

    for (i = 0; i < room; i++)
        run[i] = word + i;
}

/* Whether all words but those of the middle are as they were marked. */
static int marked(const uint64_t *run, size_t room, size_t middle, uint64_t word)
{
    size_t i;

    for (i = 0; i < MARGIN; i++)
        if (run[i] != word + i)
            return 0;
    for (i = MARGIN + middle; i < room; i++)
        if (run[i] != word + i)
            return 0;
    return 1;
}

/* Words that no family gave: any bits. */
static void put_run(uint64_t *run, size_t room, const uint64_t *given, size_t count, uint64_t fill)
{
    size_t i;

    memcpy(run, given, 8 * count);
    for (i = count; i < room; i++) {
        fill = fill * UINT64_C(0x5851F42D4C957F2D) + UINT64_C(0x14057B7EF767814F);
        run[i] = fill ^ fill >> 29;
    }
}

static void hold(struct held *h, const struct roster *r)
{
    mark(h->states, ROOM(h->states), mark_of(h));
    mark(h->list, ROOM(h->list), mark_of(h));
    put_run(h->states + MARGIN, SECTION, r->states, STATE * r->records, r->fill);
    put_run(h->list + MARGIN, LIST_ROOM, r->list, r->list_words, ~r->fill);
}

void hold_roster(const char *family, const struct roster *r)
{
    its_family = family;
    its_roster = r;
    its_call = NULL;
    calls_made = 0;
    hold(&library_held, r);
    hold(&second_held, r);
}

static void hold_one(struct held *h, const struct made *m)
{
    h->status = mark_of(h);
    mark(h->answer, ROOM(h->answer), mark_of(h));
    mark(h->record, ROOM(h->record), mark_of(h));
    memcpy(h->record + MARGIN, m->record, STATE * sizeof *m->record);
}

void hold_call(const struct made *m)
{
    its_call = m;
    calls_made++;
    hold_one(&library_held, m);
    hold_one(&second_held, m);
    memcpy(held_before.states, library_held.states, sizeof library_held.states);
    memcpy(held_before.list, library_held.list, sizeof library_held.list);
}

uint64_t *lent_run(uint64_t *held, size_t length)
{
    return length ? held + MARGIN : NULL;
}

/* ---- telling ---- */

/* In full: a comparison may have no other way to tell it. */
static void print_roster(void)
{
    const struct roster *r = its_roster;
    uint64_t words[CALL_WORDS];
    size_t i;

    printf("  the roster: count %" PRIu64 ", centres %" PRIu64 ", fill %016" PRIX64 "\n", r->count, r->centres,
           r->fill);
    words_tell("states", r->states, STATE * r->records);
    words_tell("list", r->list, r->list_words);
    for (i = 0; i < r->calls; i++) {
        memcpy(words, &r->call[i], sizeof words);
        words_tell("call", words, CALL_WORDS);
    }
}

static void print_call(void)
{
    const struct made *m = its_call;

    if (m == NULL)
        return;
    printf("  call %" PRIu64 ", %s: which %" PRIu64 ", r %zu, words %zu, count %" PRIu64 ", centres %" PRIu64
           ", k %zu, n %zu\n",
           calls_made, names[m->name], m->which, m->r, m->words, m->count, m->centres, m->k, m->n);
    words_tell("its record", m->record, STATE);
}

static void print_first(const char *name, const uint64_t *library, const uint64_t *second, const uint64_t *was,
                        size_t words)
{
    size_t i;

    for (i = 0; i < words && library[i] == second[i]; i++)
        ;
    if (i < words)
        printf("  word %zu of the %s is the first that differs: %016" PRIX64 " in the library's, %016" PRIX64
               " in the second program's; before the call %016" PRIX64 "\n",
               i, name, library[i], second[i], was[i]);
}

static void print_held(const char *whose, const struct held *h)
{
    printf("  %s: status %" PRIu64 ", answer %" PRIX64 " %" PRIX64 " hex\n", whose, h->status, h->answer[MARGIN],
           h->answer[MARGIN + 1]);
}

void held_differs(const char *what)
{
    drive_found(what, its_family);
    print_roster();
    print_call();
    print_held("the library", &library_held);
    print_held("the second program", &second_held);
    print_first("states", library_held.states + MARGIN, second_held.states + MARGIN, held_before.states + MARGIN,
                SECTION);
    print_first("list", library_held.list + MARGIN, second_held.list + MARGIN, held_before.list + MARGIN, LIST_ROOM);
    drive_differs();
}

/* ---- comparing ---- */

/* Under 60 no word of the answer is written, and else the two. */
static int beside_kept(const struct held *h)
{
    uint64_t word = mark_of(h);

    return marked(h->answer, ROOM(h->answer), h->status == 60 ? 0 : COUNTED, word)
        && marked(h->record, ROOM(h->record), STATE, word) && marked(h->states, ROOM(h->states), SECTION, word)
        && marked(h->list, ROOM(h->list), LIST_ROOM, word)
        && memcmp(h->record + MARGIN, its_call->record, STATE * sizeof *its_call->record) == 0;
}

void compare_held(void)
{
    if (library_held.status != second_held.status)
        held_differs("another status");
    if (library_held.status != 60
        && memcmp(library_held.answer + MARGIN, second_held.answer + MARGIN, 8 * COUNTED) != 0)
        held_differs("another answer");
    if (memcmp(library_held.states + MARGIN, second_held.states + MARGIN, 8 * SECTION) != 0)
        held_differs("other states");
    if (memcmp(library_held.list + MARGIN, second_held.list + MARGIN, 8 * LIST_ROOM) != 0)
        held_differs("another list");
    if (!beside_kept(&library_held) || !beside_kept(&second_held))
        held_differs("written where nothing is to be written");
}

int all_held(void)
{
    return memcmp(library_held.states, held_before.states, sizeof library_held.states) == 0
        && memcmp(library_held.list, held_before.list, sizeof library_held.list) == 0;
}
