/*
**  Requests that are refused, and where in an element file the figure at fault came from.
*/
#ifndef ORIGIN_H
#define ORIGIN_H

#include "element_file.h"

enum { ORIGIN_TEXT = 2 * PLACE_TEXT + 32 };     /* bytes that describe_origin needs at most */

/* Of a request that is refused by 31 to 38, what is at fault: "at byte 16, mu of centre 0". False for any other number. */
int describe_origin(const struct element_file *elements, size_t request, uint64_t refusal, char *text, size_t size);

/* Says that a request is refused, with what is at fault in the file where that is one figure. */
void say_refused_request(const struct element_file *elements, size_t request, uint64_t refusal);

#endif
