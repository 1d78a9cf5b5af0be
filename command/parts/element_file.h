/*
**  An element file as it was read, judged by the library before anything in it is believed.
*/
#ifndef ELEMENT_FILE_H
#define ELEMENT_FILE_H

#include "place.h"

struct element_file {
    const char *name;
    size_t length;
    const struct layout *layout;                /* that of its edition */
    uint64_t answer[KELUBASHI_READ_ANSWER];     /* kelubashi1_read's */
    uint8_t bytes[KELUBASHI_MOST_FILE + 1];     /* one more than any file that is accepted can have */
};

/* Reads and judges a file. False where it cannot be read, which is then said; the answer has the refusal. */
int take_elements(const char *name, struct element_file *elements);

/* Judges the bytes that are there. */
void judge_elements(struct element_file *elements);

/* The refusal of the file, or 0. */
uint64_t elements_refusal(const struct element_file *elements);

/* Says the refusal of the file: its number, byte, and what stands there. */
void say_refused_elements(const struct element_file *elements);

/* What stands at a byte of the file: "at byte 48, x of state 0", in PLACE_TEXT bytes at most. */
void describe_place(const struct element_file *elements, uint64_t place, char *text, size_t size);

/* How many records a section has, CENTRES and so on, and a word of one of them; for a file that is accepted. */
size_t record_count(const struct element_file *elements, size_t section);
uint64_t record_word(const struct element_file *elements, size_t section, size_t record, enum column column);

/* The byte at which this word stands. */
size_t record_place(const struct element_file *elements, size_t section, size_t record, enum column column);

/* A line with the file and how many there are. */
void show_counts(const struct element_file *elements);

/* All states, as the first of a run of KELUBASHI_STATE_RUN words; the words behind them are left. */
void copy_states(const struct element_file *elements, uint64_t *run);

/* The centre of a state; the state of a request, and the word of how long after its epoch the request's time is, in s. */
size_t centre_of(const struct element_file *elements, size_t state);
size_t state_of(const struct element_file *elements, size_t request);
uint64_t interval_of(const struct element_file *elements, size_t request);

/* The eight words of a request that the library's call takes: mu, x, y, z, vx, vy, vz, tau. */
void request_input(const struct element_file *elements, size_t request, uint64_t *words);

#endif
