/* Changes of a roster: of its states, of its list, and of its calls. */
#include "changes.h"

#include "compared/shared/drive.h"

#include <string.h>

static struct roster mine, lender;

/* Any of so many, 0 where there is none. */
static size_t any_of(size_t count)
{
    return count ? (size_t)any_below(count) : 0;
}

static uint64_t near_or_changed(uint64_t word)
{
    return one_in(3) ? any_below(6) : one_in(2) ? word + (uint64_t)any_from(-2, 2) : changed(word);
}

static void change_counts(void)
{
    switch (any_below(3)) {
    case 0:
        mine.count = near_or_changed(mine.count);
        break;
    case 1:
        mine.centres = near_or_changed(mine.centres);
        break;
    default:
        mine.fill = any_word();
        break;
    }
}

/* The centre of a state, or its epoch, which may become that of another, or that with the other sign. */
static void change_record(uint64_t *record)
{
    const uint64_t *like = mine.states + STATE * any_of(mine.records);

    if (one_in(3))
        record[0] = near_or_changed(record[0]);
    else if (one_in(3))
        record[1] = like[1];
    else
        record[1] = changed(record[1]);
}

/* A record more, like another, or one less; the count goes along but for a few. */
static void change_records(void)
{
    size_t at = any_of(mine.records), follow = STATE * (mine.records - at);
    uint64_t *record = mine.states + STATE * at;

    if (mine.records > 0 && one_in(2)) {
        memmove(record, record + STATE, (follow - STATE) * sizeof *record);
        mine.records--;
        mine.count -= !one_in(4);
    } else if (mine.records < RECORDS) {
        memmove(record + STATE, record, follow * sizeof *record);
        mine.records++;
        mine.count += !one_in(4);
    }
}

/* A word of it, or how many of its words are given. */
static void change_list(void)
{
    uint64_t *word = mine.list + any_of(mine.list_words);

    if (mine.list_words > 0 && !one_in(4))
        *word = near_or_changed(*word);
    else
        mine.list_words = (size_t)(ENTRY * any_below(6));
}

static void change_call(struct call *c)
{
    uint64_t *const lengths[] = { &c->r, &c->words, &c->count, &c->centres, &c->k, &c->n };
    uint64_t *length = lengths[any_below(sizeof lengths / sizeof lengths[0])];

    switch (any_below(6)) {
    case 0:
        c->name = any_below(CALL_NAMES);
        break;
    case 1:
        c->which = near_or_changed(c->which);
        break;
    case 2:
        c->back ^= 1;
        break;
    case 3:
        change_record(c->record);
        break;
    case 4:     /* right again, or another */
        *length = one_in(2) ? 0 : near_or_changed(*length);
        break;
    default:
        *length = changed(*length);
        break;
    }
}

/* A call more, of this roster or of the other, at any place; or one less. */
static void change_calls(void)
{
    const struct roster *from = one_in(2) ? &lender : &mine;
    size_t at = any_of(mine.calls), which = any_of(from->calls), follow = mine.calls - at;
    struct call copy = from->call[which];

    if (mine.calls > 0 && one_in(2)) {
        memmove(&mine.call[at], &mine.call[at + 1], (follow - 1) * sizeof copy);
        mine.calls--;
    } else if (mine.calls < MOST_CALLS && from->calls > 0) {
        memmove(&mine.call[at + 1], &mine.call[at], follow * sizeof copy);
        mine.call[at] = copy;
        mine.calls++;
    }
}

/* The other's calls from a place on. */
static void splice_calls(void)
{
    size_t at = any_of(mine.calls);

    if (at < lender.calls) {
        memcpy(&mine.call[at], &lender.call[at], (lender.calls - at) * sizeof mine.call[0]);
        mine.calls = lender.calls;
    }
}

/* In its bytes, whatever they stand for. */
static void change_any_word(struct file *f)
{
    size_t words = f->length / 8, place = 8 * any_of(words);

    if (words == 0 || one_in(4))
        f->length = any_of(f->length + 1);
    else
        put_word(f, place, changed(word_at(f, place)));
}

void change_roster(struct file *f, const struct file *other)
{
    if (one_in(8)) {
        change_any_word(f);
        return;
    }
    unpack_roster(f, &mine);
    unpack_roster(other, &lender);
    switch (any_below(10)) {
    case 0:
        change_counts();
        break;
    case 1:
    case 2:
        change_record(mine.states + STATE * any_of(mine.records));
        break;
    case 3:
        change_records();
        break;
    case 4:
        change_list();
        break;
    case 5:
        splice_calls();
        break;
    case 6:
    case 7:
        change_calls();
        break;
    default:
        change_call(&mine.call[any_of(mine.calls)]);
        break;
    }
    pack_roster(f, &mine);
}
