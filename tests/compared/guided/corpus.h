/*
**  The inputs that are kept, of each kind by itself.
*/
#ifndef CORPUS_H
#define CORPUS_H

#include "packed.h"

/* Keeps a copy, with the steps that it takes. */
void corpus_keep(enum kind kind, const struct file *input, uint64_t steps);

/* Any of those kept, more often a late one, and one with few steps; there must be one. */
void corpus_take(enum kind kind, struct file *input);

size_t corpus_count(enum kind kind);
size_t corpus_size(void);     /* of all kinds */

#endif
