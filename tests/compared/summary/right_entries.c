#include "right_entries.h"

#include "compared/shared/orbits.h"
#include "compared/shared/sections.h"

#define MINUS_ZERO (UINT64_C(1) << 63)

/*
**  Every epoch lies between the two shown, which are epochs themselves, and shown as zero where they are one; so
**  there is no second entry of which this holds.
*/
int entry_right(const uint64_t *entry, uint64_t centre, const uint64_t *states, uint64_t count)
{
    double earliest = figure_at(entry, 2), latest = figure_at(entry, 3);
    uint64_t numbers = 0, nans = 0, at_earliest = 0, at_latest = 0, i;

    for (i = 0; i < count; i++) {
        double epoch = figure_at(states + STATE * i, 1);

        if (states[STATE * i] != centre)
            continue;
        if (epoch < earliest || epoch > latest)
            return 0;
        numbers += epoch == epoch;
        nans += epoch != epoch;
        at_earliest += epoch == earliest;
        at_latest += epoch == latest;
    }
    if (entry[0] != numbers || entry[1] != nans || entry[2] == MINUS_ZERO || entry[3] == MINUS_ZERO)
        return 0;
    return numbers ? at_earliest && at_latest : entry[2] == 0 && entry[3] == 0;
}

int list_right(const uint64_t *list, uint64_t centres, const uint64_t *states, uint64_t count)
{
    uint64_t i;

    for (i = 0; i < centres; i++)
        if (!entry_right(list + 4 * i, i, states, count))
            return 0;
    return 1;
}
