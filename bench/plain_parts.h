/*
**  plain_parts.h: what the files of the plain C share.
*/
#ifndef PLAIN_PARTS_H
#define PLAIN_PARTS_H

#include "orbit.h"

#include <stdint.h>

/* How a search ends: refusal 0, 5 or 6, the trial points used, and the anomaly where there is one. */
struct found {
    uint64_t refusal, points;
    double psi;
};

struct found plain_search(const struct orbit *o);

#endif
