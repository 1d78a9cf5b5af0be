/* What the self-test of two result files shares (T-07). */
#ifndef COMPARE_H
#define COMPARE_H

#include "selftest.h"

#define MOST_ROWS 1500u
#define HEAD_BYTES 16u
#define ROW_WORDS 11u
#define ROW_BYTES (8 * ROW_WORDS)
#define FIGURE 2u  /* the word of a row's first figure */
#define FIGURES 9u
#define TOLD 19u   /* words told of a row */
#define NO_WORD 11u
#define P52 ((uint64_t)1 << 52)
#define P63 ((uint64_t)1 << 63)
#define MINUS(word) ((word) | MINUS_ZERO) /* of a double that is above zero */
#define MOST_TOLD (TOLD * (MOST_ROWS + 1))

enum { LEFT, RIGHT };
enum { BOTH_ANSWERED, LEFT_ALONE, RIGHT_ALONE, ONE_NUMBER, TWO_NUMBERS };
enum { BY_DISTANCE, EQUAL_BITS, UNEQUAL_BITS, BY_NOTHING };

extern uint8_t *const files[2]; /* room for 1501 rows and 64 bytes behind */
/* What was lent to the last call, with words behind each. */
extern uint64_t told[MOST_TOLD + 8], answer7[8];

size_t length_of(size_t rows);
/* So many rows, all of them answered, with any points and each figure 1.0. */
void put_file(int side, size_t rows);
void put_files(size_t rows);
void put_word(int side, size_t row, size_t word, uint64_t value);
/* A word of the left file and the same word of the right one. */
void put_both(size_t row, size_t word, uint64_t left, uint64_t right);

/* The call; a length of 0 comes with a null pointer.  What stands behind the
 * runs has to stay. */
uint64_t compare(size_t left_length, size_t right_length, size_t k,
                 const char *what);
/* It answers, and this is where the first largest distance is. */
void expect_largest(size_t rows, uint64_t row, uint64_t word,
                    uint64_t distance, const char *what);
void expect_refused(size_t left_length, size_t right_length, size_t k,
                    uint64_t number, uint64_t side, uint64_t place,
                    const char *what);

/* What the last call told: the kind of a row, and of a figure, 0 to 8, its
 * kind with its distance. */
int row_is(size_t row, uint64_t kind);
int figure_is(size_t row, size_t figure, uint64_t kind, uint64_t distance);
/* That kind of row, and no figure with anything of its own. */
int row_is_refused(size_t row, uint64_t kind);

#endif
