#include "origin.h"

#include "say.h"

#include <math.h>
#include <stdio.h>

enum { MU = 31, X = 32, VZ = 37, TAU = 38 };    /* refusals, by the figure that is not finite */

static int is_finite(uint64_t word)
{
    return isfinite(kelubashi_figure(word)) != 0;
}

/* tau is the time less the epoch: one of them is at fault, or both are, or they are finite and too far apart. */
static void describe_interval(const struct element_file *elements, size_t request, char *text, size_t size)
{
    size_t state = state_of(elements, request);
    int epoch = is_finite(record_word(elements, STATES, state, COLUMN_EPOCH));
    int time = is_finite(record_word(elements, REQUESTS, request, COLUMN_TIME));
    char first[PLACE_TEXT], second[PLACE_TEXT];

    describe_place(elements, record_place(elements, STATES, state, COLUMN_EPOCH), first, sizeof first);
    describe_place(elements, record_place(elements, REQUESTS, request, COLUMN_TIME), second, sizeof second);
    if (epoch != time)
        snprintf(text, size, "%s", epoch ? second : first);
    else
        snprintf(text, size, "%s, and %s%s", first, second, epoch ? ", too far apart" : "");
}

int describe_origin(const struct element_file *elements, size_t request, uint64_t refusal, char *text, size_t size)
{
    size_t state = state_of(elements, request);

    if (refusal == MU)
        describe_place(elements, record_place(elements, CENTRES, centre_of(elements, state), COLUMN_MU), text, size);
    else if (refusal >= X && refusal <= VZ)
        describe_place(elements, record_place(elements, STATES, state, COLUMN_X + (enum column)(refusal - X)), text, size);
    else if (refusal == TAU)
        describe_interval(elements, request, text, size);
    else
        return 0;
    return 1;
}

void say_refused_request(const struct element_file *elements, size_t request, uint64_t refusal)
{
    unsigned long state = (unsigned long)state_of(elements, request);
    char origin[ORIGIN_TEXT];

    if (describe_origin(elements, request, refusal, origin, sizeof origin))
        say_refused(refusal, "%s: request %lu, of state %lu: %s:", elements->name, (unsigned long)request, state, origin);
    else
        say_refused(refusal, "%s: request %lu, of state %lu:", elements->name, (unsigned long)request, state);
}
