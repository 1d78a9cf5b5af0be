/*
**  What the calls that take files are asked with, and what is expected of them: the status, the answer, and
**  every byte that was lent, also where nothing is to be written. A call that gives anything else
**  ends the test and says where.
*/
#ifndef EXPECTED_H
#define EXPECTED_H

#include "kelubashi.h"

#define TAIL 24     /* bytes of a room beyond what is written */
#define MOST_ROOM (KELUBASHI_MOST_RESULTS + TAIL)

struct file {
    uint8_t bytes[KELUBASHI_MOST_RESULTS + 8 * KELUBASHI_ROW + 8];     /* a row and a word more than the longest */
    size_t length;
};

/* Runs of words to write, up to one record more than each limit. */
struct runs {
    uint64_t centres[KELUBASHI_MOST_CENTRES + 1];
    uint64_t states[KELUBASHI_STATE * (KELUBASHI_MOST_STATES + 1)];
    uint64_t requests[KELUBASHI_REQUEST * (KELUBASHI_MOST_REQUESTS + 1)];
    size_t centre_words, state_words, request_words;
};

/* The test's own name, which it has to give. */
extern const char *const test_name;

/* What the calls are asked with, two files where they are compared; and how many there were. */
extern struct file file, right_file;
extern struct runs runs;
extern unsigned calls;

void put_word(struct file *file, size_t place, uint64_t word);
void words_of(struct file *file, const uint64_t *words, size_t count);

/* Runs of so many words, all 0; and the file of the runs as they are. */
void runs_of(size_t centre_words, size_t state_words, size_t request_words);
void file_of_runs(void);

/* The file is read with this answer, of 8 words. */
void reads(const char *name, const uint64_t *answer);

/* The runs are written as the file, to a room of this size, whose tail keeps its bytes. */
void writes_file(const char *name, size_t size);

/* The runs are refused in a room of this size, which keeps its bytes. */
void refuses_runs(const char *name, size_t size, uint64_t number, uint64_t place);

/* The file's results are these words: refused in no room and in one a byte short, written to others. */
void writes_results(const char *name, const uint64_t *words, size_t count);

/* The file's results do not fit in a room of this size, which keeps its bytes. */
void needs_room(const char *name, size_t size, uint64_t length);

/* The file is a file of rows with these verdicts: not judged in a run a word short or in none, judged in others, whose tails stay. */
void judges(const char *name, const uint64_t *verdicts, size_t rows);

/* It is refused, whatever run is lent, which stays. */
void refuses_rows(const char *name, uint64_t number, uint64_t place);

/* The file and the right one are compared as this tells, KELUBASHI_COMPARED words of each row, with this row, word and distance for the largest: not
   told in a run a word short or in none, told in others, whose tails stay. */
void compares(const char *name, const uint64_t *told, size_t rows, const uint64_t largest[3]);

/* They are refused, whatever run is lent, which stays. */
void refuses_pair(const char *name, uint64_t number, uint64_t side, uint64_t place);

/* An answer run of this count, where it is another than the call's, is 60, and nothing is written. */
void refuses_count(const char *name, size_t n);

#endif
