/*
**  Files that are written whole or not at all, and standard output.
*/
#ifndef OUTPUT_H
#define OUTPUT_H

#include "../command.h"

#include <stddef.h>
#include <stdint.h>

/*
**  Writes a file: to this name, or to standard output where there is none.
**
**  A named file is written beside its place and put there when all of it is on the disk, so that who
**  opens it finds the old one whole or the new one. Only a regular file is replaced, a symbolic link is
**  followed, and the file that was read (source) is never written over.
*/
enum status write_output(const char *name, const char *source, const uint8_t *bytes, size_t length);

/* Where that is, in words. */
const char *output_name(const struct call *call);

/* Text for standard output is gathered from now on, and written when it ends: so the reason of a failure is known. */
void gather_output(void);

/* Ends standard output: NOT_DONE, and said, where anything put there before could not be written. */
enum status finish_output(void);

#endif
