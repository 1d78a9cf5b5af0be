#include "packed.h"

#include "compared/shared/orbits.h"

#include <string.h>

#define ROOM(run) (sizeof(run) / sizeof(run)[0])

void pack_state(struct file *f, const uint64_t *words)
{
    int i;

    f->length = 0;
    for (i = 0; i < EIGHT; i++)
        add_word(f, words[i]);
}

void unpack_state(const struct file *f, uint64_t *words)
{
    size_t i;

    for (i = 0; i < EIGHT; i++)
        words[i] = word_at(f, 8 * i);
}

static void add_run(struct file *f, const uint64_t *run, size_t words)
{
    size_t i;

    for (i = 0; i < words; i++)
        add_word(f, run[i]);
}

void pack_sections(struct file *f, const struct sections *s)
{
    f->length = 0;
    add_word(f, s->centre_words);
    add_word(f, s->state_words);
    add_word(f, s->request_words);
    add_run(f, s->centres, s->centre_words);
    add_run(f, s->states, s->state_words);
    add_run(f, s->requests, s->request_words);
}

uint64_t word_or_zero(const struct file *f, size_t place)
{
    return place + 8 <= f->length ? word_at(f, place) : 0;
}

/* A count that is more than the run has room for becomes another. */
static size_t take(const struct file *f, size_t *place, uint64_t *run, uint64_t count, size_t room)
{
    size_t i, words = (size_t)(count % (room + 1));

    for (i = 0; i < words; i++, *place += 8)
        run[i] = word_or_zero(f, *place);
    return words;
}

void unpack_sections(const struct file *f, struct sections *s)
{
    size_t place = 24;

    s->centre_words = take(f, &place, s->centres, word_or_zero(f, 0), ROOM(s->centres));
    s->state_words = take(f, &place, s->states, word_or_zero(f, 8), ROOM(s->states));
    s->request_words = take(f, &place, s->requests, word_or_zero(f, 16), ROOM(s->requests));
}

static void add_call(struct file *f, const struct call *call)
{
    uint64_t words[CALL_WORDS];

    memcpy(words, call, sizeof words);
    add_run(f, words, CALL_WORDS);
}

void pack_roster(struct file *f, const struct roster *r)
{
    size_t i;

    f->length = 0;
    add_word(f, r->count);
    add_word(f, r->centres);
    add_word(f, r->fill);
    add_word(f, r->records);
    add_word(f, r->list_words);
    add_run(f, r->states, STATE * r->records);
    add_run(f, r->list, r->list_words);
    for (i = 0; i < r->calls; i++)
        add_call(f, &r->call[i]);
}

static void take_call(const struct file *f, size_t *place, struct call *call)
{
    uint64_t words[CALL_WORDS];

    take(f, place, words, CALL_WORDS, CALL_WORDS);
    memcpy(call, words, sizeof words);
}

void unpack_roster(const struct file *f, struct roster *r)
{
    size_t place = 40;

    r->count = word_or_zero(f, 0);
    r->centres = word_or_zero(f, 8);
    r->fill = word_or_zero(f, 16);
    r->records = (size_t)(word_or_zero(f, 24) % (RECORDS + 1));
    take(f, &place, r->states, STATE * r->records, SECTION);
    r->list_words = take(f, &place, r->list, word_or_zero(f, 32), LIST_ROOM);
    for (r->calls = 0; r->calls < MOST_CALLS && place < f->length; r->calls++)
        take_call(f, &place, &r->call[r->calls]);
}

static void add_file(struct file *f, const struct file *part)
{
    memcpy(f->bytes + f->length, part->bytes, part->length);
    f->length += part->length;
}

void pack_pair(struct file *f, const struct pair *p)
{
    f->length = 0;
    add_word(f, p->left.length);
    add_file(f, &p->left);
    add_file(f, &p->right);
}

static void take_file(const struct file *f, size_t from, size_t length, struct file *part)
{
    memcpy(part->bytes, f->bytes + from, length);
    part->length = length;
}

/* A length that is more than there is becomes another. */
void unpack_pair(const struct file *f, struct pair *p)
{
    size_t from = f->length < 8 ? f->length : 8, bytes = f->length - from, left = (size_t)(word_or_zero(f, 0) % (bytes + 1));

    take_file(f, from, left, &p->left);
    take_file(f, from + left, bytes - left, &p->right);
}
