/* The bytes of a file, and sections to lay out: sound ones, and such as no file has. */
#include "sections.h"

#include "drive.h"
#include "orbits.h"

#include <string.h>

uint64_t word_at(const struct file *file, size_t place)
{
    uint64_t word = 0;
    int i;

    for (i = 7; i >= 0; i--)
        word = word << 8 | file->bytes[place + (size_t)i];
    return word;
}

void put_word(struct file *file, size_t place, uint64_t word)
{
    int i;

    for (i = 0; i < 8; i++)
        file->bytes[place + (size_t)i] = (uint8_t)(word >> 8 * i);
}

void add_word(struct file *file, uint64_t word)
{
    put_word(file, file->length, word);
    file->length += 8;
}

static void add_section(struct file *file, const uint64_t *run, size_t words, size_t width)
{
    size_t i;

    add_word(file, words / width);
    for (i = 0; i < words; i++)
        add_word(file, run[i]);
}

void lay_out(struct file *file, const struct sections *s)
{
    file->length = 0;
    add_word(file, 1);
    add_section(file, s->centres, s->centre_words, 1);
    add_section(file, s->states, s->state_words, STATE);
    add_section(file, s->requests, s->request_words, REQUEST);
}

/* ---- sound sections ---- */

/* A number of a section with a count, which 0 is where there is none. */
static uint64_t number_below(size_t count)
{
    return count ? any_below(count) : 0;
}

/* A plain orbit, with its mu for its centre, or any bits. */
static void any_state(struct sections *s, uint64_t *state, double *tau)
{
    uint64_t words[EIGHT];
    int i;

    state[0] = number_below(s->centre_words);
    *tau = 0;
    if (one_in(5)) {
        for (i = 1; i < STATE; i++)
            state[i] = any_word();
        return;
    }
    plain(words);
    if (s->centre_words)
        s->centres[state[0]] = words[MU];
    put_at(state, 1, one_in(3) ? 0.0 : between(-1000, 1000));
    memcpy(state + 2, words + X, 6 * sizeof *state);
    *tau = figure_at(words, TAU);
}

/* One request in so many has an interval that takes a search; the others are at the epoch, or any bits. */
void any_sections(struct sections *s, size_t centres, size_t states, size_t requests, uint64_t searches)
{
    double taus[MOST_STATES];
    size_t i;

    s->centre_words = centres;
    s->state_words = STATE * states;
    s->request_words = REQUEST * requests;
    for (i = 0; i < centres; i++)
        s->centres[i] = any_word();
    for (i = 0; i < states; i++)
        any_state(s, s->states + STATE * i, taus + i);
    for (i = 0; i < requests; i++) {
        uint64_t *request = s->requests + REQUEST * i;
        uint64_t state = request[0] = number_below(states);

        if (states && one_in(searches))
            put_at(request, 1, figure_at(s->states + STATE * state, 1) + taus[state]);
        else
            request[1] = states && !one_in(9) ? s->states[STATE * state + 1] : any_word();
    }
}

void sound(struct sections *s, uint64_t turn)
{
    size_t centres = any_below(4), states = centres ? any_below(5) : 0, requests = states ? any_below(6) : 0;

    (void)turn;
    any_sections(s, centres, states, requests, 1);
}

/* Counts at the limits, one below and one above, and none: all 125 of them in turn. */
void limits(struct sections *s, uint64_t turn)
{
    static const size_t centres[] = { 16, 17, 15, 1, 0 }, states[] = { 500, 501, 499, 1, 0 };
    static const size_t requests[] = { 1500, 1501, 1499, 1, 0 };

    any_sections(s, centres[turn % 5], states[turn / 5 % 5], requests[turn / 25 % 5], 40);
}

/* ---- sections that no file has ---- */

/* Runs of any length: 27 in the states, in the requests or in both. */
void odd_runs(struct sections *s, uint64_t turn)
{
    any_sections(s, 3, 3, 5, 9);
    s->state_words = turn % 26;
    s->request_words = turn / 26 % 12;
    if (one_in(4))
        s->centre_words = 17;     /* 27 comes before 23 */
    if (one_in(4))
        s->states[0] = 3;     /* and before 24 */
}

static uint64_t wrong_number(size_t count)
{
    switch (any_below(4)) {
    case 0:
        return count;
    case 1:
        return count + 1;
    case 2:     /* right in its lower half */
        return (1 + any_below(9)) << 32;
    default:
        return any_word() | UINT64_C(1) << 63;
    }
}

/* 24 in the states, in the requests or in both, at any record. */
void wrong_numbers(struct sections *s, uint64_t turn)
{
    size_t centres = any_below(4), states = 1 + any_below(6), requests = 1 + any_below(6), record;

    any_sections(s, centres, states, requests, 3);
    record = any_below(states);
    if (turn % 3 != 1)
        s->states[STATE * record] = wrong_number(centres);
    record = any_below(requests);
    if (turn % 3 != 0)
        s->requests[REQUEST * record] = wrong_number(states);
}
