/*
**  Whole files, and words in them.
*/
#ifndef INPUT_H
#define INPUT_H

#include <stddef.h>
#include <stdint.h>

/* Reads a file, of a longer one as much as there is room for. False where it cannot, which is then said. */
int read_whole(const char *name, uint8_t *room, size_t size, size_t *length);

/* The word of eight bytes, the lowest first. */
uint64_t word_from(const uint8_t *bytes);

#endif
