#include "place.h"

#include "input.h"

#include <inttypes.h>
#include <stdio.h>

/* A byte behind the edition. A count that is not whole is where the file ends, and nothing stands behind it. */
static void describe_section(const struct layout *layout, const uint8_t *bytes, size_t length, uint64_t place, char *text, size_t size)
{
    uint64_t at = layout->edition != 0 ? 8 : 0;
    size_t i;

    for (i = 0; i < layout->sections; i++) {
        const struct section *section = &layout->section[i];
        uint64_t end;

        if (place < at + 8 || at + 8 > length) {
            snprintf(text, size, "the count of %ss", section->name);
            return;
        }
        end = at + 8 + 8 * section->width * word_from(bytes + at);
        if (place < end) {
            uint64_t word = (place - at - 8) / 8;
            const struct about *about = &ABOUT[section->columns[word % section->width]];

            snprintf(text, size, "%s%s of %s %" PRIu64, about->article, about->name, section->name, word / section->width);
            return;
        }
        at = end;
    }
    snprintf(text, size, "behind the last %s", layout->sections == 1 ? layout->section[0].name : "section");
}

void describe_byte(const struct layout *layout, const uint8_t *bytes, size_t length, uint64_t place, char *text, size_t size)
{
    char what[64];

    if (layout->edition != 0 && place < 8)
        snprintf(what, sizeof what, "the edition");
    else
        describe_section(layout, bytes, length, place, what, sizeof what);
    snprintf(text, size, "at byte %" PRIu64 ", %s", place, what);
}
