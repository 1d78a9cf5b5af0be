/*
**  A reference result file and another, compared by the library, figure by figure.
*/
#ifndef COMPARISON_H
#define COMPARISON_H

#include "result_file.h"

struct comparison {
    struct result_file reference, results;
    uint64_t answer[KELUBASHI_COMPARE_ANSWER];  /* kelubashi1_compare's, the reference on the left */
    uint64_t told[KELUBASHI_MOST_COMPARED];     /* and what it tells of each row */
};

/* What became of a row. */
enum sort {
    MOVED,          /* answered on both sides, and a figure of it moved */
    NOT_MOVED,      /* answered on both sides */
    ONE_SIDE,       /* refused on one side alone */
    TWO_NUMBERS,    /* refused on both sides, with two numbers */
    ONE_NUMBER,     /* refused on both sides, with one number */

    SORTS
};

/* How many rows there are of each sort; and how many of those that moved have a figure that did, and has no distance. */
struct tally {
    size_t rows[SORTS];
    size_t not_finite;
};

/* Reads the reference and has the library judge it. False where it cannot, or where it is refused, which is then said. */
int take_reference(const char *name, struct comparison *comparison);

/* Reads another file and has the library compare it with the reference. False where it cannot, which is then said. */
int compare_with(const char *name, struct comparison *comparison);

/* How many rows each of the two has; what the library tells of one, KELUBASHI_ROW_ANSWERED and so on, and what became of it. */
size_t compared_rows(const struct comparison *comparison);
uint64_t row_kind(const struct comparison *comparison, size_t row);
enum sort sort_of(const struct comparison *comparison, size_t row);

/* What the library tells of a figure, KELUBASHI_FIGURE_DISTANCE and so on, and its distance; by its word, KELUBASHI_X and on. */
uint64_t figure_kind(const struct comparison *comparison, size_t row, size_t word);
uint64_t figure_distance(const struct comparison *comparison, size_t row, size_t word);

/* Whether a figure moved: by its distance or, where a side is not finite and so it has none, by its bits. */
int figure_moved(const struct comparison *comparison, size_t row, size_t word);

/* The first largest distance, and whether any figure has one; 0 is a distance. Its row and word are those of a figure then. */
int has_distance(const struct comparison *comparison);
uint64_t largest_distance(const struct comparison *comparison);
size_t largest_row(const struct comparison *comparison);
size_t largest_word(const struct comparison *comparison);

/* All rows, and whether something moved: a refusal that came, went or changed is of that too. */
struct tally tally_of(const struct comparison *comparison);
int something_moved(const struct tally *tally);

#endif
