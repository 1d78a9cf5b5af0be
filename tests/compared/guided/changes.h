/*
**  How an input of the guided comparison is changed into another.
*/
#ifndef CHANGES_H
#define CHANGES_H

#include "packed.h"

/* In one or more ways; another input of its kind lends a part at times. */
void change(enum kind kind, struct file *input, const struct file *other);

/* One change of a file or of sections, in its bytes, words or records. */
void change_bytes(enum kind kind, struct file *input, const struct file *other);

/* One change of a roster: of its states, its list or its calls. */
void change_roster(struct file *input, const struct file *other);

/* One change of a file of rows: of its count, its end, or a row. */
void change_rows(struct file *input, const struct file *other);

/* One change of a pair of result files: of a side alone, or of rows that stand on both. */
void change_pair(struct file *input, const struct file *other);

/* Some bytes fewer at the end of a file, or more; and the beginning of one with the end of the other. */
void change_end(struct file *input);
void splice(struct file *input, const struct file *other);

/* Another word: near it in some way, a special one, or any. */
uint64_t changed(uint64_t word);

#endif
