/*
**  Element files to compare readers and writers with: the three sections as runs of words, the bytes
**  of the file that they are, and the ways in which both are damaged.
**
**  Files are laid out here and not by a writer, so that they may hold what no writer writes.
*/
#ifndef SECTIONS_H
#define SECTIONS_H

#include "drive.h"

#include <stddef.h>
#include <stdint.h>

/* One record more than each limit. */
#define MOST_CENTRES 17
#define MOST_STATES 501
#define MOST_REQUESTS 1501
#define STATE 8
#define REQUEST 2
#define MOST_BEHIND 65600     /* bytes behind a file */
#define MOST_RESULTS (16 + 88 * MOST_REQUESTS)     /* bytes of a result file, which has a row for each request */
#define MOST_BYTES (2 * MOST_RESULTS + MOST_BEHIND)     /* two result files in one are the longest (see packed.h) */

struct sections {
    uint64_t centres[MOST_CENTRES], states[STATE * MOST_STATES + 8], requests[REQUEST * MOST_REQUESTS + 2];
    size_t centre_words, state_words, request_words;
};

struct file {
    uint8_t bytes[MOST_BYTES];
    size_t length;
};

/* A family makes sections, for the writer, or a file, for the reader and the results; the turn counts
   its inputs, so that a list is gone through in order. */
struct file_family {
    struct family its;
    void (*sections)(struct sections *sections, uint64_t turn);
    void (*file)(struct file *file, uint64_t turn);
};

/* The family of an input and its turn, which go by the input's number. */
const struct file_family *file_family(uint64_t number, uint64_t *turn);

/* Prints how many inputs each was asked for. */
void file_families_tell(void);

uint64_t word_at(const struct file *file, size_t place);
void put_word(struct file *file, size_t place, uint64_t word);
void add_word(struct file *file, uint64_t word);     /* at the end */
void lay_out(struct file *file, const struct sections *sections);

/* Sound sections of these counts; one request in so many takes a search. */
void any_sections(struct sections *sections, size_t centres, size_t states, size_t requests, uint64_t searches);

void sound(struct sections *sections, uint64_t turn);
void limits(struct sections *sections, uint64_t turn);
void odd_runs(struct sections *sections, uint64_t turn);
void wrong_numbers(struct sections *sections, uint64_t turn);

#endif
