#include "listing.h"

#include "figures.h"
#include "say.h"

#include <inttypes.h>
#include <string.h>

enum {
    LINE = 500,     /* bytes of the longest line */
    EDITION = 1     /* of the element file */
};

static const char BETWEEN[] = " \t";

/* ---- a line ---- */

static int bad_line(const struct listing *listing, unsigned long line, const char *wrong)
{
    say("%s: line %lu: %s", listing->name, line, wrong);
    return 0;
}

static int bad_word(const struct listing *listing, unsigned long line, const char *word, const char *wrong)
{
    say("%s: line %lu: '%s' %s", listing->name, line, shown(word), wrong);
    return 0;
}

/* A word of a record, by what its column holds: a null pointer, or what is wrong with it. */
static const char *take_word(const struct listing *listing, enum column column, const char *text, uint64_t *word)
{
    return ABOUT[column].kind == NUMBER ? take_number(text, word) : take_figure(text, listing->any_bits, word);
}

/* The words behind a record's name, which strtok has at hand. */
static int take_record(const struct listing *listing, const struct section *section, uint64_t *words, unsigned long line)
{
    const char *word;
    size_t i;

    for (i = 0; i < section->width; i++) {
        const char *wrong;

        word = strtok(NULL, BETWEEN);
        if (word == NULL) {
            say("%s: line %lu: a %s has %lu words behind its name, and here are %lu", listing->name, line, section->name,
                (unsigned long)section->width, (unsigned long)i);
            return 0;
        }
        wrong = take_word(listing, section->columns[i], word, words + i);
        if (wrong != NULL)
            return bad_word(listing, line, word, wrong);
    }
    word = strtok(NULL, BETWEEN);
    return word == NULL || bad_word(listing, line, word, "is one word too many");
}

/* A record more, as long as there are not more than one beyond the limit. */
static void add_record(struct records *records, const struct section *section, const uint64_t *words, unsigned long line)
{
    if (records->count > section->limit)
        return;
    memcpy(records->words + records->count * section->width, words, section->width * sizeof *words);
    records->lines[records->count++] = line;
}

/* The record of a line, if it has one. */
static int take_line(struct listing *listing, char *text, unsigned long line)
{
    uint64_t words[MOST_WIDTH];
    const char *name;
    size_t i;

    text[strcspn(text, "#")] = '\0';
    name = strtok(text, BETWEEN);
    if (name == NULL)
        return 1;
    for (i = 0; i < SECTIONS; i++) {
        const struct section *section = &listing->layout->section[i];

        if (strcmp(section->name, name) == 0) {
            if (!take_record(listing, section, words, line))
                return 0;
            add_record(&listing->records[i], section, words, line);
            return 1;
        }
    }
    return bad_word(listing, line, name, "is no name of a record: a line starts with centre, state or request");
}

/* ---- the lines ---- */

/* A line's bytes as a text, without a carriage return at their end. */
static int take_bytes(struct listing *listing, const uint8_t *bytes, size_t length, unsigned long line)
{
    char text[LINE + 1];

    if (length > 0 && bytes[length - 1] == '\r')
        length--;
    if (length > LINE)
        return bad_line(listing, line, "is longer than 500 bytes: divide it, or shorten its comment");
    if (length > 0 && memchr(bytes, '\0', length) != NULL)
        return bad_line(listing, line, "has a NUL byte: write the listing as plain text");
    if (length > 0)
        memcpy(text, bytes, length);
    text[length] = '\0';
    return take_line(listing, text, line);
}

int take_listing(const char *name, const uint8_t *bytes, size_t length, int any_bits, struct listing *listing)
{
    unsigned long line;
    size_t at = 0;

    memset(listing, 0, sizeof *listing);
    listing->name = name;
    listing->any_bits = any_bits;
    listing->layout = elements_layout(EDITION);
    for (line = 1; at < length; line++) {
        const uint8_t *end = (const uint8_t *)memchr(bytes + at, '\n', length - at);
        size_t here = end == NULL ? length - at : (size_t)(end - (bytes + at));

        if (!take_bytes(listing, bytes + at, here, line))
            return 0;
        at += here + 1;
    }
    return 1;
}

/* ---- the element file ---- */

/* The line of the record at this place of the file; at a count, of the first record beyond the limit. */
static unsigned long line_of(const struct listing *listing, uint64_t place)
{
    uint64_t at = 8;
    size_t i;

    for (i = 0; i < SECTIONS; i++) {
        const struct section *section = &listing->layout->section[i];
        const struct records *records = &listing->records[i];
        uint64_t record = 8 * section->width;

        if (place == at)
            return records->lines[section->limit];
        at += 8;
        if (place < at + record * records->count)
            return records->lines[(place - at) / record];
        at += record * records->count;
    }
    return 0;
}

/* How many words the records of a section are. */
static size_t words_of(const struct listing *listing, size_t section)
{
    return listing->records[section].count * listing->layout->section[section].width;
}

int make_elements(const struct listing *listing, uint8_t *room, size_t size, size_t *length)
{
    uint64_t answer[KELUBASHI_WRITE_ANSWER] = { 0, 0 };
    uint64_t refusal = kelubashi1_write(listing->records[CENTRES].words, words_of(listing, CENTRES),
                                        listing->records[STATES].words, words_of(listing, STATES),
                                        listing->records[REQUESTS].words, words_of(listing, REQUESTS),
                                        room, size, answer, KELUBASHI_WRITE_ANSWER);

    *length = (size_t)answer[KELUBASHI_WRITE_LENGTH];
    if (refusal != 0)
        say_refused(refusal, "%s: line %lu:", listing->name, line_of(listing, answer[KELUBASHI_WRITE_PLACE]));
    return refusal == 0;
}
