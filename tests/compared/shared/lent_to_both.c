#include "lent_to_both.h"

#include "drive.h"

#include <inttypes.h>
#include <stdio.h>
#include <string.h>

struct given library, second;

#define BEHIND 16     /* bytes behind a file that are looked at */

/* A file that is lent, and its copies. */
static struct copies {
    const struct file *file;
    struct file to_library, to_second;
} left, right;

static const char *its_family;
static const struct file *its_file, *its_right;
static const struct sections *its_sections;

void lent_for(const char *family, const struct file *file, const struct sections *sections)
{
    its_family = family;
    its_file = file;
    its_right = NULL;
    its_sections = sections;
}

void lent_for_pair(const char *family, const struct file *of_left, const struct file *of_right)
{
    lent_for(family, of_left, NULL);
    its_right = of_right;
}

/* The room with its edges. */
static uint8_t *bytes_of(struct given *g)
{
    return (uint8_t *)g->room;
}

static size_t length_of(const struct given *g)
{
    return g->room_length + 2 * EDGE;
}

/* What a room holds when it is lent. */
static const uint8_t *lent_bytes(void)
{
    static uint8_t bytes[MOST_ROOM];
    size_t i;

    if (bytes[0] == 0)
        for (i = 0; i < MOST_ROOM; i++)
            bytes[i] = (uint8_t)(0xA5 + i % 251);
    return bytes;
}

void lend(struct given *g, uint64_t mark, size_t room_length)
{
    size_t i;

    g->status = mark;
    g->room_length = room_length;
    for (i = 0; i < READ + 2; i++)
        g->answer[i] = mark + i;
    memcpy(g->room, lent_bytes(), length_of(g));
}

void lend_both(size_t room_length)
{
    lend(&library, LENT, room_length);
    lend(&second, ~LENT, room_length);
}

uint8_t *room_of(struct given *g)
{
    return g->room_length ? bytes_of(g) + EDGE : NULL;
}

uint64_t *words_of(struct given *g)
{
    return g->room_length ? g->room + EDGE / 8 : NULL;
}

int room_kept(size_t from)
{
    size_t behind = EDGE + from;

    return memcmp(bytes_of(&library), lent_bytes(), EDGE) == 0
           && memcmp(bytes_of(&library) + behind, lent_bytes() + behind, length_of(&library) - behind) == 0;
}

/* ---- the file, or two ---- */

static void lend_copy(struct file *copy, const struct file *f, int behind)
{
    memcpy(copy->bytes, f->bytes, f->length);
    memset(copy->bytes + f->length, behind, BEHIND);
    copy->length = f->length;
}

static void lend_copies(struct copies *c, const struct file *f)
{
    c->file = f;
    lend_copy(&c->to_library, f, 0);
    lend_copy(&c->to_second, f, 0xFF);
}

void lend_file(const struct file *f)
{
    lend_copies(&left, f);
    right.file = NULL;
}

void lend_pair(const struct file *of_left, const struct file *of_right)
{
    lend_copies(&left, of_left);
    lend_copies(&right, of_right);
}

static const uint8_t *file_bytes(const struct file *f)
{
    return f->length ? f->bytes : NULL;
}

const uint8_t *library_file(void)
{
    return file_bytes(&left.to_library);
}

const uint8_t *second_file(void)
{
    return file_bytes(&left.to_second);
}

const uint8_t *library_right(void)
{
    return file_bytes(&right.to_library);
}

const uint8_t *second_right(void)
{
    return file_bytes(&right.to_second);
}

static int copy_kept(const struct file *copy, const struct file *f, int behind)
{
    size_t i;

    for (i = 0; i < BEHIND; i++)
        if (copy->bytes[f->length + i] != behind)
            return 0;
    return memcmp(copy->bytes, f->bytes, f->length) == 0;
}

static int copies_kept(const struct copies *c)
{
    return copy_kept(&c->to_library, c->file, 0) && copy_kept(&c->to_second, c->file, 0xFF);
}

void expect_file_kept(void)
{
    if (!copies_kept(&left) || (right.file != NULL && !copies_kept(&right)))
        differs("written to a file");
}

/* ---- what is told ---- */

static void print_bytes(const uint8_t *bytes, size_t length, size_t most)
{
    size_t i;

    for (i = 0; i < length && i < most; i++)
        printf("%s%02X", i % 8 == 0 ? " " : "", (unsigned)bytes[i]);
    printf("%s\n", length > most ? " and more" : "");
}

static void print_file(const char *which, const struct file *f)
{
    printf("  the %sfile, %zu bytes:", which, f->length);
    print_bytes(f->bytes, f->length, f->length);
}

/* In full: a comparison may have no other way to tell it. */
static void print_input(void)
{
    if (its_file != NULL) {
        print_file(its_right != NULL ? "left " : "", its_file);
        if (its_right != NULL)
            print_file("right ", its_right);
        return;
    }
    words_tell("centres", its_sections->centres, its_sections->centre_words);
    words_tell("states", its_sections->states, its_sections->state_words);
    words_tell("requests", its_sections->requests, its_sections->request_words);
}

static void print_given(const char *whose, struct given *g, size_t from)
{
    size_t i, end = length_of(g);

    printf("  %s: status %" PRIu64 ", answer", whose, g->status);
    for (i = 1; i <= READ; i++)
        printf(" %" PRIX64, g->answer[i]);
    printf(" hex\n");
    if (from < end) {
        printf("    room from there on:");
        print_bytes(bytes_of(g) + from, end - from, 512);
    }
}

void differs(const char *what)
{
    size_t at = 0, end = length_of(&library);

    drive_found(what, its_family);
    print_input();
    while (at < end && bytes_of(&library)[at] == bytes_of(&second)[at])
        at++;
    if (at < end)
        printf("  of a room of %zu bytes, the byte at %ld is another\n", library.room_length, (long)at - EDGE);
    print_given("the library", &library, at);
    print_given("the second program", &second, at);
    drive_differs();
}

void compare(const char *what, size_t words)
{
    size_t i;

    if (library.status != second.status || memcmp(library.answer + 1, second.answer + 1, 8 * words) != 0
        || memcmp(library.room, second.room, length_of(&library)) != 0)
        differs(what);
    for (i = 0; i < READ + 2; i++)
        if ((i == 0 || i > words) && (library.answer[i] != LENT + i || second.answer[i] != ~LENT + i))
            differs("written beside the answer");
}

void expect_sixty(const char *what)
{
    lend(&second, LENT, library.room_length);
    second.status = 60;
    if (library.status != 60 || memcmp(library.answer, second.answer, sizeof library.answer) != 0
        || memcmp(library.room, second.room, length_of(&library)) != 0)
        differs(what);
}

size_t wrong_count(size_t right)
{
    size_t count = any_below(READ + 1);

    return count == right ? right + 1 : count;
}

uint64_t *answer_of(struct given *g, size_t count)
{
    return count ? g->answer + 1 : NULL;
}
