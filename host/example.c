/*
**  One state of an orbit, followed for an interval, with its partials: how a station's program calls
**  the library. It meets doubles only; nothing here needs to know of words.
**
**     example
**
**  The exit status is 0 where the library answers, so that a script can tell an answer from a refusal,
**  and from a processor or a library that the self-check finds wrong.
*/
#include "kelubashi.h"
#include "kelubashi_selfcheck.h"

#include <inttypes.h>
#include <stdio.h>
#include <stdlib.h>

/* A low Earth orbit in km^3/s^2, km and km/s, and an interval in s. */
static const double MU = 398600.4418;
static const double POSITION[3] = { 1131.340, -2282.343, 6672.423 };
static const double VELOCITY[3] = { -5.64305, 4.30333, 2.42879 };
static const double INTERVAL = 600;

static void tell_three(const char *name, const char *unit, const double *three)
{
    printf("  %-21s %-7s %22.15g %22.15g %22.15g\n", name, unit, three[0], three[1], three[2]);
}

static void tell_answer(const struct kelubashi_answer *answer)
{
    printf("An orbit about a centre of mu %.15g km^3/s^2, followed for %.15g s\n\n", MU, INTERVAL);
    printf("  %-21s %-7s %22s %22s %22s\n", "", "", "x", "y", "z");
    tell_three("position", "km", answer->position);
    tell_three("velocity", "km/s", answer->velocity);
    tell_three("acceleration", "km/s^2", answer->end_acceleration);
    tell_three("acceleration at start", "km/s^2", answer->start_acceleration);
    printf("\n  anomaly psi %.17g s/km, found with %" PRIu64 " trial points\n", answer->psi, answer->points);
}

/* The upper left of the partials: where the end goes when the start is moved. */
static void tell_moved(double partials[6][6])
{
    int row;

    printf("\n  kilometres that the end moves for a kilometre at the start\n");
    for (row = 0; row < 3; row++)
        printf("  %22.15g %22.15g %22.15g\n", partials[row][0], partials[row][1], partials[row][2]);
}

int main(void)
{
    const char *wrong = kelubashi_selfcheck();
    struct kelubashi_answer answer;
    double partials[6][6];
    uint64_t refusal;

    /* Once, before all else: a processor that is set otherwise spoils a host's own figures too. */
    if (wrong != NULL) {
        fprintf(stderr, "example: %s\n", wrong);
        return EXIT_FAILURE;
    }

    /* Under a refusal the figures are zeros and no state: no program may go on with them. */
    refusal = kelubashi_partials(MU, POSITION, VELOCITY, INTERVAL, &answer, partials);
    if (refusal != 0) {
        fprintf(stderr, "example: refused (%" PRIu64 "): %s; %s\n", refusal,
                kelubashi_refusal_text(refusal), kelubashi_refusal_advice(refusal));
        return EXIT_FAILURE;
    }
    tell_answer(&answer);
    tell_moved(partials);
    return EXIT_SUCCESS;
}
