/*
**  One file, or the sections of one, asked of the library and of the second program: kelubashi1_read,
**  kelubashi1_write and kelubashi1_results, compared byte by byte.
**
**  Rooms are one byte short, exact and larger, and the bytes behind and before them are looked at. Sizes of
**  rooms and wrong counts are drawn. Where the two differ, the program ends.
*/
#ifndef ASK_FILE_H
#define ASK_FILE_H

#include "compared/shared/sections.h"

/* Read, turned into results, and, where it is accepted, written again: the same bytes. */
void ask_file(const char *family, const struct file *file);

/* Written, which gives the file that the sections lay out, and read again. */
void ask_sections(const char *family, const struct sections *sections);

/* Prints the numbers met; answers how many never were. */
int ask_file_tell(void);

#endif
