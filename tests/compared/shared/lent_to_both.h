/*
**  What is lent to the library and to the second program for one call, what they give, and how the
**  two are compared.
*/
#ifndef LENT_TO_BOTH_H
#define LENT_TO_BOTH_H

#include "sections.h"

#define LENT UINT64_C(0x5EED5EED5EED5EED)
#define READ 8     /* words of an answer */
#define WRITTEN 2
#define EDGE 16     /* bytes before and behind what is lent */
#define TAIL 24     /* room beyond what is needed */
#define MOST_TOLD (8 * 19 * 1500)     /* bytes that are told of two result files: the longest of what is lent */
#define MOST_ROOM (MOST_TOLD + TAIL + 2 * EDGE)

/* What one call gave: its status, its answer with a word before and behind, and its room, lent as bytes or as words. */
struct given {
    uint64_t status;
    uint64_t answer[READ + 2];
    uint64_t room[MOST_ROOM / 8];
    size_t room_length;     /* in bytes */
};

extern struct given library, second;

/* The input that a disagreement is told of: a file, sections, or two files. */
void lent_for(const char *family, const struct file *file, const struct sections *sections);
void lent_for_pair(const char *family, const struct file *left, const struct file *right);

/* Words and bytes unlike their neighbours; another mark in the answer for each program. */
void lend(struct given *given, uint64_t mark, size_t room_length);
void lend_both(size_t room_length);

/* The file, or two, in a copy for each program. Behind it stand other bytes in each, so that one that reads on finds something else. */
void lend_file(const struct file *file);
void lend_pair(const struct file *left, const struct file *right);

/* Null where the length is 0. Of a pair the left one, and the right one. */
const uint8_t *library_file(void);
const uint8_t *second_file(void);
const uint8_t *library_right(void);
const uint8_t *second_right(void);
uint8_t *room_of(struct given *given);
uint64_t *words_of(struct given *given);     /* the room as words */
uint64_t *answer_of(struct given *given, size_t count);

/* Any count of an answer but the right one. */
size_t wrong_count(size_t right);

/* The first words of the answers alike, no word around them written, and the rooms alike from edge to edge. */
void compare(const char *what, size_t words);

/* The library's status is 60, and nothing is written. */
void expect_sixty(const char *what);

/* Neither program wrote to its copy of the file, or of either, or behind it. */
void expect_file_kept(void);

/* Whether the library left the bytes around its room, and those of the room from this one on. */
int room_kept(size_t from);

/* Ends the program with the input and with what both gave. */
void differs(const char *what);

#endif
