/*
**  A file of rows, as stations send them to one another: see kelubashi-rows(5).
*/
#ifndef ROW_FILE_H
#define ROW_FILE_H

#include "formats.h"

struct row_file {
    const char *name;
    size_t length;
    uint64_t verdicts[KELUBASHI_MOST_CHECK_ROWS];       /* of kelubashi1_check, for a file that was read */
    uint8_t bytes[KELUBASHI_MOST_CHECK_FILE + 1];       /* one more than any file that is accepted can have */
};

/* Reads a file and has the library judge its rows. False where it cannot, or where the file is refused, which is then said. */
int take_rows(const char *name, struct row_file *rows);

/* How many there are, the words of one, and whether it is accepted; for a file that is whole. */
size_t row_count(const struct row_file *rows);
void copy_row(const struct row_file *rows, size_t row, uint64_t *words);
int is_accepted(const struct row_file *rows, size_t row);

/* A file without rows, and a row more, of KELUBASHI_MOST_CHECK_ROWS at most. */
void begin_rows(struct row_file *rows);
void add_row(struct row_file *rows, const uint64_t *words);

/* Puts the library's own anomaly and figures behind the input words of a row. Its refusal, or 0. */
uint64_t answer_row(uint64_t *words);

/* The column of a word of a row. */
enum column row_column(size_t word);

#endif
