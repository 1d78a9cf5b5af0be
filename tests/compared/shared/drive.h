/*
**  What the comparisons with the second program share: their inputs in order, the words of their
**  commands, progress, and how the first disagreement is told.
**
**     PROGRAM [N [SEED [FIRST]]]        N inputs of the seed, from number FIRST on
**
**  An input follows from the seed and its own number alone, so one is repeated without those
**  before it. A program whose inputs do not has a line of its own that repeats one.
*/
#ifndef DRIVE_H
#define DRIVE_H

#include <stddef.h>
#include <stdint.h>

/*
**  Before the start, for a program with a line of its own and no FIRST: what it adds to a line of progress on
**  stderr, and how it prints the line that repeats the input.
*/
void drive_own(void (*progress)(void), void (*repeat)(void));

/* Takes the words of the command; ends the program where they are no such words. */
void drive_start(const char *name, uint64_t usual_count, int count, char **words);

/*
**  All inputs, each by its number with the sequence of words set to it; then tell prints what was met
**  and answers how much was not, which is a fault of a whole usual run, and the hint says what to do.
**  Answers how the program ends.
*/
int drive_all(void (*compare)(uint64_t number), int (*tell)(void), const char *hint);

/* Inputs that this run takes, and their seed. */
uint64_t drive_count(void);
uint64_t drive_seed(void);

/* The line that begins a disagreement. */
void drive_found(const char *what, const char *family);

/* After the lines that tell what differs: the command that repeats it; ends the program. */
void drive_differs(void);

/* A family of inputs. Each row of a table of families begins with one. */
struct family {
    const char *name;
    unsigned share;     /* of every hundred inputs or so */
};

struct families {
    const void *rows;
    size_t width, count;     /* bytes of a row, and rows */
    uint64_t *seen;     /* inputs that each was asked for */
};

/* The row of an input, which goes by the input's number, so that every run of some length has all families; and the
   input's turn among those of its family, so that a list is gone through in order. */
size_t family_of(const struct families *families, uint64_t number, uint64_t *turn);

/* Prints how many inputs each was asked for. */
void families_tell(const struct families *families);

/* Prints how often each number was met, of the numbers that a call may give; answers how many never were. */
int numbers_tell(const char *what, const uint64_t *met, const int *numbers, size_t count);

/* Prints how often each aim of the families was hit; answers how many never were. */
int aims_tell_all(const char *const *names, const uint64_t *hit, size_t count);

/* The least of some counts, for an aim that stands for several. */
uint64_t rarest(const uint64_t *counts, size_t count);

/* Prints a run of words, in full. */
void words_tell(const char *name, const uint64_t *run, size_t words);

/* Begins the sequence of words anew, from this one. */
void draw_from(uint64_t word);

/* The next word of the input's own sequence (splitmix64), and others made of it. */
uint64_t any_word(void);
uint64_t any_below(uint64_t limit);
int any_from(int low, int high);     /* both ends included */
int one_in(uint64_t limit);

#endif
