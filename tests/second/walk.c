/* The words of a file, and the reader's way through them. */
#include "parts.h"

/* Words are little-endian, whatever the machine. */
uint64_t sec_word_at(const uint8_t *bytes, uint64_t place)
{
    uint64_t word = 0;
    int i;

    for (i = 7; i >= 0; i--)
        word = word << 8 | bytes[place + (uint64_t)i];
    return word;
}

struct refusal sec_say(uint64_t number, uint64_t place)
{
    struct refusal r;

    r.number = number;
    r.place = place;
    return r;
}

struct walk sec_walk(const uint8_t *file, uint64_t len)
{
    struct walk w;

    w.file = file;
    w.len = len;
    w.place = 0;
    w.refusal = sec_say(0, 0);
    return w;
}

int sec_refuse(struct walk *w, uint64_t number, uint64_t place)
{
    w->refusal = sec_say(number, place);
    return 0;
}

/* 21: a needed word is not whole; the place is the word's first byte. */
int sec_take_word(struct walk *w, uint64_t *word)
{
    if (w->len - w->place < 8)
        return sec_refuse(w, 21, w->place);
    *word = sec_word_at(w->file, w->place);
    w->place += 8;
    return 1;
}

/* 22: another edition. */
int sec_take_edition(struct walk *w, uint64_t edition)
{
    uint64_t place = w->place, word;

    if (!sec_take_word(w, &word))
        return 0;
    return word == edition || sec_refuse(w, 22, place);
}

/* 23: a count above its limit. */
int sec_take_count(struct walk *w, uint64_t limit, uint64_t *count)
{
    uint64_t place = w->place;

    if (!sec_take_word(w, count))
        return 0;
    return *count <= limit || sec_refuse(w, 23, place);
}

/* Float words may hold any bits; they need only be whole. */
int sec_take_floats(struct walk *w, uint64_t count)
{
    uint64_t i, word;

    for (i = 0; i < count; i++)
        if (!sec_take_word(w, &word))
            return 0;
    return 1;
}

/* 25: bytes left after the last record; the place is the first of them. */
int sec_take_end(struct walk *w)
{
    return w->place == w->len || sec_refuse(w, 25, w->place);
}
