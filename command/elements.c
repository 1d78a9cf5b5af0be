/*
**  kelubashi elements: an element file of a listing that a person can read and write.
*/
#include "command.h"
#include "parts/input.h"
#include "parts/listing.h"
#include "parts/output.h"
#include "parts/say.h"

enum { LONGEST = 1 << 22 };     /* bytes of the longest listing: the fullest takes half of it, with lines of 500 bytes a quarter */

static void say_done(const struct call *call, const struct listing *listing, size_t length)
{
    say("%s: centres %lu, states %lu, requests %lu: the element file, %lu bytes, is written to %s", listing->name,
        (unsigned long)listing->records[CENTRES].count, (unsigned long)listing->records[STATES].count,
        (unsigned long)listing->records[REQUESTS].count, (unsigned long)length, output_name(call));
}

static enum status run(const struct call *call)
{
    static uint8_t bytes[LONGEST + 1], file[KELUBASHI_MOST_FILE];
    static struct listing listing;
    const char *name = call->operands[0];
    size_t length;

    if (!read_whole(name, bytes, sizeof bytes, &length))
        return NOT_DONE;
    if (length > LONGEST) {
        say("%s: is no listing: it is longer than %d bytes", name, LONGEST);
        return NOT_DONE;
    }
    if (!take_listing(name, bytes, length, call->any_bits, &listing) ||
        !make_elements(&listing, file, sizeof file, &length) ||
        write_output(call->output, name, file, length) != ALL_WELL)
        return NOT_DONE;
    if (!call->quiet)
        say_done(call, &listing, length);
    return ALL_WELL;
}

const struct subcommand elements_subcommand = {
    "elements", "LISTING [-o ELEMENTS]", "an element file of a listing",
    "Makes an element file of LISTING and writes it to ELEMENTS, or to standard output. A line is a record;\n"
    "'#' starts a comment:\n\n"
    "  centre MU                            km^3/s^2\n"
    "  state CENTRE EPOCH X Y Z VX VY VZ    a number, then s, km and km/s\n"
    "  request STATE TIME                   a number, then s\n\n"
    "Centres and states are numbered from 0, in the order of their lines. A line that is not good is told with\n"
    "its number, and nothing is written then.\n"
    "  --any-bits   take figures that are infinite or NaNs (inf, nan), for files that are to be refused\n",
    1, "qo:", TAKES_ANY_BITS, run
};
