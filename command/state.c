/*
**  kelubashi state: one state of an orbit, followed for an interval.
*/
#include "command.h"
#include "kelubashi.h"
#include "parts/figures.h"
#include "parts/say.h"

#include <inttypes.h>
#include <stdio.h>

/* The operands, in the order of the library's arguments. */
enum { MU, X, Y, Z, VX, VY, VZ, TAU, FIGURES };

/* Reads all eight; false where a word is no figure, which is then said. What is not finite the library refuses. */
static int take_figures(char **words, double *figures)
{
    int i;

    for (i = 0; i < FIGURES; i++) {
        uint64_t word = 0;
        const char *wrong = take_figure(words[i], 1, &word);

        if (wrong != NULL) {
            say("'%s' %s: see kelubashi state --help", shown(words[i]), wrong);
            return 0;
        }
        figures[i] = kelubashi_figure(word);
    }
    return 1;
}

static void show_heading(const char *time)
{
    printf("\n  %-13s %-6s %22s %22s %22s\n", time, "unit", "x", "y", "z");
}

static void show_three(const char *name, const char *unit, const double *three)
{
    printf("  %-13s %-6s %22.15g %22.15g %22.15g\n", name, unit, three[0], three[1], three[2]);
}

static void show_answer(const double *given, const struct kelubashi_answer *answer)
{
    printf("An orbit about a centre of mu %.15g km^3/s^2, followed for %.15g s\n", given[MU], given[TAU]);

    show_heading("start");
    show_three("position", "km", given + X);
    show_three("velocity", "km/s", given + VX);
    show_three("acceleration", "km/s^2", answer->start_acceleration);

    show_heading("end");
    show_three("position", "km", answer->position);
    show_three("velocity", "km/s", answer->velocity);
    show_three("acceleration", "km/s^2", answer->end_acceleration);

    printf("\n  anomaly psi %.17g s/km, found with %" PRIu64 " trial points\n", answer->psi, answer->points);
}

static enum status run(const struct call *call)
{
    struct kelubashi_answer answer;
    double given[FIGURES];
    uint64_t refusal;

    if (!take_figures(call->operands, given))
        return NOT_DONE;
    refusal = kelubashi_propagate(given[MU], given + X, given + VX, given[TAU], &answer);
    if (refusal != 0) {
        say_refused(refusal, "the state is");
        return SOMETHING_AMISS;
    }
    if (!call->quiet)
        show_answer(given, &answer);
    return ALL_WELL;
}

const struct subcommand state_subcommand = {
    "state", "MU X Y Z VX VY VZ TAU", "one state, followed for an interval",
    "Follows the state at X Y Z (km, seen from the centre) with the velocity VX VY VZ (km/s) about a centre of\n"
    "MU (km^3/s^2) for TAU seconds, or back where TAU is below zero.\n"
    "With -q only a refusal is told.\n",
    FIGURES, "q", 0, run
};
