/*
**  The words of a call: options and operands, in any order.
*/
#ifndef WORDS_H
#define WORDS_H

#include "../command.h"

enum words { WORDS_GOOD, WORDS_ASK_FOR_HELP, WORDS_NOT_UNDERSTOOD };

/* Takes the words of a call apart, the first of them the subcommand's name; what it cannot it says. */
enum words take_words(const struct subcommand *subcommand, int count, char **words, struct call *call);

#endif
