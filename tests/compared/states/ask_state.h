/*
**  One state asked of the library and of the second program: kelubashi1_propagate and kelubashi1_partials,
**  compared word by word.
**
**  Both calls are asked: the status, the fifteen words, and the lent runs of 35, 36 and 37 words with the
**  words around them. The rules let no NaN out, so bits are compared everywhere.
*/
#ifndef ASK_STATE_H
#define ASK_STATE_H

#include <stdint.h>

/* What both answered: the refusals of the two calls, and the points. */
struct asked {
    uint64_t propagated, with_partials, points;
};

/* Ends the program where the two differ. Wrong counts and lengths are asked too, by the number each in its turn. */
struct asked ask_state(const char *family, const uint64_t *words, uint64_t number);

/* Prints the refusals met; answers how many never were. */
int ask_state_tell(void);

#endif
