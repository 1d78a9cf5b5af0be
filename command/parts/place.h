/*
**  What stands at a byte of a file, in words.
*/
#ifndef PLACE_H
#define PLACE_H

#include "formats.h"

enum { PLACE_TEXT = 96 };   /* bytes that describe_byte needs at most */

/*
**  What stands at a byte: "at byte 48, x of state 0". It is found by the counts before it, which are good in a file that is
**  accepted, and where the place is the first fault.
*/
void describe_byte(const struct layout *layout, const uint8_t *bytes, size_t length, uint64_t place, char *text, size_t size);

#endif
