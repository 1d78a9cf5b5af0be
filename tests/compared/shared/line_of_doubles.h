/*
**  The line of finite doubles, "where both zeros are one place": each double by its number on it, which is 0 for both zeros, one
**  more for the next double above and one less for the next below. Infinities and NaNs stand beyond its ends.
*/
#ifndef LINE_OF_DOUBLES_H
#define LINE_OF_DOUBLES_H

#include <stdint.h>

#define SIGN (UINT64_C(1) << 63)
#define UNIT (UINT64_C(1) << 52)     /* places from a power of two to the next */
#define INFINITE (2047 * UNIT)

int64_t number_on_line(uint64_t word);
uint64_t word_on_line(int64_t number);     /* +0 for 0 */

/* So many steps from a finite double, up or down, and not more than UNIT. */
uint64_t moved_on_line(uint64_t word, int64_t steps);

/* Steps from the one to the other. */
uint64_t distance_on_line(uint64_t a, uint64_t b);

int on_line(uint64_t word);     /* whether it is finite */

#endif
