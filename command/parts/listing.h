/*
**  A listing of centres, states and requests, as a person writes it: see kelubashi-elements(1).
*/
#ifndef LISTING_H
#define LISTING_H

#include "formats.h"

/* The records of a section, with the line that each stands in. One beyond the limit is kept, for the library to refuse. */
struct records {
    size_t count;
    uint64_t words[MOST_WORDS];
    unsigned long lines[MOST_RECORDS];
};

struct listing {
    const char *name;
    int any_bits;
    const struct layout *layout;            /* of the element file that is made of it */
    struct records records[SECTIONS];
};

/* Takes a listing's bytes apart. False where a line is not good, which is then said with its number. */
int take_listing(const char *name, const uint8_t *bytes, size_t length, int any_bits, struct listing *listing);

/* Its element file. False where the library refuses it, which is then said with the listing's line. */
int make_elements(const struct listing *listing, uint8_t *room, size_t size, size_t *length);

#endif
