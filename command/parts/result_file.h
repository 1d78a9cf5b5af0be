/*
**  A result file, and whether it is that of an element file.
*/
#ifndef RESULT_FILE_H
#define RESULT_FILE_H

#include "element_file.h"

struct result_file {
    const char *name;
    size_t length;
    uint8_t bytes[KELUBASHI_MOST_RESULTS + 1];
};

/* The results of an element file, as the library answers them. False where it does not, which is then said. */
int make_results(const struct element_file *elements, struct result_file *results);

/* Reads a result file. False where it cannot, which is then said. */
int take_results(const char *name, struct result_file *results);

/* Whether it is the result file of this element file, word for word; if not, it is said why. */
int are_results_of(const struct result_file *results, const struct element_file *elements);

/* Says why the library refuses it, by a number that has a place: the byte, and what stands there. */
void say_refused_results(const struct result_file *results, uint64_t refusal, uint64_t place);

/* How many rows it counts, a word of one of them, and the word's column; for a file that is whole. */
uint64_t result_rows(const struct result_file *results);
uint64_t row_word(const struct result_file *results, size_t row, size_t word);
enum column result_column(size_t word);

/* How many rows of a sound result file are refused. */
size_t refused_count(const struct result_file *results, size_t rows);

#endif
