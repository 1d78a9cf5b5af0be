/*
**  The element file: the states in turn, so that each orbit of the set comes about as often; a state's requests have other intervals.
*/
#include "elements.h"
#include "kelubashi.h"
#include "orbits.h"

#include <string.h>

static uint8_t *put(uint8_t *place, uint64_t word)
{
    memcpy(place, &word, 8);
    return place + 8;
}

size_t elements_fill(uint8_t *file, uint64_t requests)
{
    uint8_t *end = file;
    uint64_t i;
    size_t k;

    orbits_fill();
    end = put(end, 1);
    end = put(end, KELUBASHI_MOST_CENTRES);
    for (i = 0; i < KELUBASHI_MOST_CENTRES; i++)
        end = put(end, orbits[0][0]);
    end = put(end, KELUBASHI_MOST_STATES);
    for (i = 0; i < KELUBASHI_MOST_STATES; i++) {
        end = put(end, i % KELUBASHI_MOST_CENTRES);
        end = put(end, 0);     /* epoch +0 */
        for (k = 1; k < 7; k++)
            end = put(end, orbits[i % ORBITS][k]);
    }
    end = put(end, requests);
    for (i = 0; i < requests; i++) {
        end = put(end, i % KELUBASHI_MOST_STATES);
        end = put(end, orbits[(i + i / KELUBASHI_MOST_STATES) % 8][7]);
    }
    return (size_t)(end - file);
}
