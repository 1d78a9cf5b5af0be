/*
**  What an operator reads on standard error: one line, with who says it.
*/
#ifndef SAY_H
#define SAY_H

#include <stdint.h>
#include <stdio.h>

/* From now on lines start with this subcommand's name too. */
void speak_as(const char *subcommand);

/* One line, in the form of printf. */
void say(const char *format, ...);

/* A file that cannot be read, or written: the system's reason, and what to do about it. */
void say_unread(const char *name, int reason);
void say_unwritten(const char *name, int reason);

/* "refused (NUMBER): in words". */
void put_refusal(FILE *stream, uint64_t number);

/* "refused (NUMBER): in words; what to do", to the end of a line. */
void put_refused(FILE *stream, uint64_t number);

/* The same as a line, behind where it is refused. */
void say_refused(uint64_t number, const char *format, ...);

/* A word of a file or a call as it can be shown: what no terminal should get is a question mark. */
const char *shown(const char *word);

#endif
