/*
**  kelubashi selfcheck: the self-check alone. Every call makes it first, so that here it has passed.
*/
#include "command.h"

#include "kelubashi.h"

#include <stdio.h>

static enum status run(const struct call *call)
{
    if (!call->quiet)
        printf("the processor rounds to nearest and keeps subnormal numbers; the library answers as edition %d does\n",
               KELUBASHI_EDITION);
    return ALL_WELL;
}

const struct subcommand selfcheck_subcommand = {
    "selfcheck", "", "the processor and the library, tried by known cases",
    "Tries the processor's rounding and subnormal numbers, then the library's twelve calls by known cases.\n"
    "Every other subcommand does so too, before its work.\n",
    0, "q", 0, run
};
