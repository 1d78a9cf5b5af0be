/*
**  The rows that the second program answers to the requests of an element file.
*/
#ifndef ANSWERED_ROWS_H
#define ANSWERED_ROWS_H

#include <stddef.h>
#include <stdint.h>

enum { MOST_ROWS = 400, ROW_WORDS = 18, MOST_ROW_BYTES = 8 + 8 * ROW_WORDS * MOST_ROWS };

/*
**  Writes a file of the rows of its requests, from a number on and MOST_ROWS at most; a refused request has none. Answers its
**  bytes, or 0 where the element file is refused. rows has MOST_ROW_BYTES.
*/
size_t answered_rows(const uint8_t *elements, size_t length, uint64_t first, uint8_t *rows);

#endif
