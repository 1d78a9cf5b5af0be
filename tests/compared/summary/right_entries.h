/*
**  Whether entries are right, by what the document says of them and not by working them out as a program would.
*/
#ifndef RIGHT_ENTRIES_H
#define RIGHT_ENTRIES_H

#include <stdint.h>

/* An entry of a centre whose states are among those in use. */
int entry_right(const uint64_t *entry, uint64_t centre, const uint64_t *states, uint64_t count);

/* All entries of a list. */
int list_right(const uint64_t *list, uint64_t centres, const uint64_t *states, uint64_t count);

#endif
