/* Changes of a file, and of sections. */
#include "changes.h"

#include "compared/shared/drive.h"

#include <string.h>

static const size_t width[3] = { 1, STATE, REQUEST };     /* words of a record */

/* Where a section's count stands, its records begin, and how many of them are whole. */
struct part {
    size_t count, first, records;
};

/* As far as the counts go that are there. */
static void find_parts(enum kind kind, const struct file *f, struct part parts[3])
{
    size_t place = kind == FILES ? 8 : 24;
    int i;

    for (i = 0; i < 3; i++) {
        struct part *p = &parts[i];
        size_t whole;
        uint64_t count;

        p->count = kind == FILES ? place : 8 * (size_t)i;
        p->first = kind == FILES ? place + 8 : place;
        whole = p->first < f->length ? (f->length - p->first) / (8 * width[i]) : 0;
        count = word_or_zero(f, p->count);
        if (kind == SECTIONS)
            count /= width[i];
        p->records = count < whole ? (size_t)count : whole;
        place = p->first + 8 * width[i] * p->records;
    }
}

static void put_if_there(struct file *f, size_t place, uint64_t word)
{
    if (place + 8 <= f->length)
        put_word(f, place, word);
}

/* Opens a gap of any bytes, or closes one. */
static void insert(struct file *f, size_t place, size_t bytes)
{
    if (place > f->length || f->length + bytes > MOST_PACKED)
        return;
    memmove(f->bytes + place + bytes, f->bytes + place, f->length - place);
    f->length += bytes;
}

static void leave_out(struct file *f, size_t place, size_t bytes)
{
    if (place + bytes > f->length)
        return;
    memmove(f->bytes + place, f->bytes + place + bytes, f->length - place - bytes);
    f->length -= bytes;
}

/* A count, or the number that a record begins with. */
static void change_number(struct file *f, const struct part *p, size_t record_bytes)
{
    size_t place = p->records && one_in(2) ? p->first + record_bytes * any_below(p->records) : p->count;
    uint64_t word = word_or_zero(f, place);

    put_if_there(f, place, one_in(4) ? any_below(6) : one_in(3) ? word + (uint64_t)any_from(-2, 2) : changed(word));
}

/* A record more, like another, or one less; its count goes along but for a few. */
static void change_records(enum kind kind, struct file *f, const struct part *p, size_t record_bytes)
{
    uint64_t count = word_or_zero(f, p->count), step = kind == FILES ? 1 : record_bytes / 8;
    size_t place = p->first + (p->records ? record_bytes * any_below(p->records) : 0);

    if (p->records && one_in(2)) {
        leave_out(f, place, record_bytes);
        step = -step;
    } else {
        uint8_t record[8 * STATE];

        memset(record, 0, sizeof record);
        if (p->records)
            memcpy(record, f->bytes + place, record_bytes);
        insert(f, place, record_bytes);
        if (place + record_bytes <= f->length)
            memcpy(f->bytes + place, record, record_bytes);
    }
    if (!one_in(8))
        put_if_there(f, p->count, count + step);
}

/* From any two places. */
void splice(struct file *f, const struct file *other)
{
    size_t place = 8 * any_below(f->length / 8 + 1), from = one_in(2) ? place : 8 * any_below(other->length / 8 + 1);
    size_t bytes = from < other->length ? other->length - from : 0;

    if (place + bytes > MOST_PACKED)
        bytes = MOST_PACKED - place;
    memcpy(f->bytes + place, other->bytes + from, bytes);
    f->length = place + bytes;
}

void change_end(struct file *f)
{
    size_t bytes = one_in(2) ? 1 + any_below(9) : 8 * any_below(9);

    if (one_in(3))
        f->length = any_below(f->length + 1);
    else if (one_in(2))
        f->length -= bytes < f->length ? bytes : f->length;
    else
        for (; bytes > 0 && f->length < MOST_PACKED; bytes--)
            f->bytes[f->length++] = (uint8_t)any_word();
}

void change_bytes(enum kind kind, struct file *f, const struct file *other)
{
    struct part parts[3];
    int which = any_from(0, 2);
    size_t record_bytes = 8 * width[which], words = f->length / 8, place = words ? 8 * any_below(words) : 0;

    find_parts(kind, f, parts);
    switch (any_below(10)) {
    case 0:
        change_end(f);
        break;
    case 1:
        splice(f, other);
        break;
    case 2:
        if (one_in(2))
            leave_out(f, place, 8);
        else
            insert(f, place, 8);
        break;
    case 3:
    case 4:
        change_records(kind, f, &parts[which], record_bytes);
        break;
    case 5:
    case 6:
        change_number(f, &parts[which], record_bytes);
        break;
    default:
        put_if_there(f, place, changed(word_or_zero(f, place)));
        break;
    }
}
