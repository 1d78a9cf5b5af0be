/* Element file, edition 1: reader, writer and results. */
#include "parts.h"
#include "second.h"

#define EDITION 1u
#define CENTRES_LIMIT 16u
#define STATES_LIMIT 500u
#define REQUESTS_LIMIT 1500u
#define CENTRE_WORDS 1u
#define STATE_WORDS 8u
#define REQUEST_WORDS 2u
#define ROW_WORDS 11u
#define NAN_WORD 0x7FF8000000000000u /* of an interval, whatever NaN came in */

/* One section: the byte of its count word, and the count. */
struct section {
    uint64_t place;
    uint64_t count;
};

struct contents {
    struct section centres, states, requests;
};

/* Words are little-endian, whatever the machine. */
static uint64_t put_word(uint8_t *bytes, uint64_t place, uint64_t word)
{
    int i;

    for (i = 0; i < 8; i++)
        bytes[place + (uint64_t)i] = (uint8_t)(word >> (8 * i));
    return place + 8;
}

/* ---- reader ---- */

/* A section begins at its count word. */
static int take_count(struct walk *w, uint64_t limit, struct section *section)
{
    section->place = w->place;
    return sec_take_count(w, limit, &section->count);
}

/* 24: a number not in its section; numbers start at 0. */
static int take_number(struct walk *w, uint64_t count)
{
    uint64_t place = w->place, number;

    if (!sec_take_word(w, &number))
        return 0;
    return number < count || sec_refuse(w, 24, place);
}

static int take_centres(struct walk *w, struct contents *c)
{
    return take_count(w, CENTRES_LIMIT, &c->centres)
        && sec_take_floats(w, c->centres.count);
}

/* A state: its centre number, then seven floats. */
static int take_states(struct walk *w, struct contents *c)
{
    uint64_t i;

    if (!take_count(w, STATES_LIMIT, &c->states))
        return 0;
    for (i = 0; i < c->states.count; i++)
        if (!take_number(w, c->centres.count)
            || !sec_take_floats(w, STATE_WORDS - 1))
            return 0;
    return 1;
}

/* A request: its state number, then one float. */
static int take_requests(struct walk *w, struct contents *c)
{
    uint64_t i;

    if (!take_count(w, REQUESTS_LIMIT, &c->requests))
        return 0;
    for (i = 0; i < c->requests.count; i++)
        if (!take_number(w, c->states.count)
            || !sec_take_floats(w, REQUEST_WORDS - 1))
            return 0;
    return 1;
}

static struct refusal read_file(const uint8_t *file, uint64_t len,
                                struct contents *c)
{
    struct walk w = sec_walk(file, len);

    (void)(sec_take_edition(&w, EDITION) && take_centres(&w, c)
           && take_states(&w, c) && take_requests(&w, c) && sec_take_end(&w));
    return w.refusal;
}

/* Number and place, then the sections, which are 0 in a refusal. */
uint64_t second_read(const uint8_t *file, size_t len,
                     uint64_t *answer, size_t n)
{
    struct contents c;
    struct refusal refusal;
    int i;

    if (n != 8)
        return WRONG_ANSWER_RUN;
    refusal = read_file(file, len, &c);
    for (i = 2; i < 8; i++)
        answer[i] = 0;
    answer[0] = refusal.number;
    answer[1] = refusal.place;
    if (refusal.number != 0)
        return refusal.number;
    answer[2] = c.centres.place;
    answer[3] = c.centres.count;
    answer[4] = c.states.place;
    answer[5] = c.states.count;
    answer[6] = c.requests.place;
    answer[7] = c.requests.count;
    return 0;
}

/* ---- writer ---- */

/* The three runs, with the counts and places they would have in the file. */
struct runs {
    const uint64_t *centres, *states, *requests;
    uint64_t centre_words, state_words, request_words;
    struct contents at;
};

/* 27: a run is not whole records; the place is the section, 0 to 2. */
static struct refusal check_whole(const struct runs *r)
{
    if (r->centre_words % CENTRE_WORDS != 0)
        return sec_say(27, 0);
    if (r->state_words % STATE_WORDS != 0)
        return sec_say(27, 1);
    if (r->request_words % REQUEST_WORDS != 0)
        return sec_say(27, 2);
    return sec_say(0, 0);
}

/* Each section begins at its count word, behind the section before it. */
static void lay_out(struct runs *r)
{
    r->at.centres.count = r->centre_words / CENTRE_WORDS;
    r->at.states.count = r->state_words / STATE_WORDS;
    r->at.requests.count = r->request_words / REQUEST_WORDS;
    r->at.centres.place = 8;
    r->at.states.place = r->at.centres.place + 8 + 8 * r->centre_words;
    r->at.requests.place = r->at.states.place + 8 + 8 * r->state_words;
}

/* 23: the first count in file order above its limit. */
static struct refusal check_counts(const struct contents *at)
{
    if (at->centres.count > CENTRES_LIMIT)
        return sec_say(23, at->centres.place);
    if (at->states.count > STATES_LIMIT)
        return sec_say(23, at->states.place);
    if (at->requests.count > REQUESTS_LIMIT)
        return sec_say(23, at->requests.place);
    return sec_say(0, 0);
}

/* The first record of a section whose number is not below the limit. */
static struct refusal check_section(const uint64_t *run, uint64_t record,
                                    const struct section *section,
                                    uint64_t limit)
{
    uint64_t i;

    for (i = 0; i < section->count; i++)
        if (run[record * i] >= limit)
            return sec_say(24, section->place + 8 + 8 * record * i);
    return sec_say(0, 0);
}

/* 24: the first number in file order that is not in its section. */
static struct refusal check_numbers(const struct runs *r)
{
    struct refusal refusal =
        check_section(r->states, STATE_WORDS, &r->at.states,
                      r->at.centres.count);

    if (refusal.number != 0)
        return refusal;
    return check_section(r->requests, REQUEST_WORDS, &r->at.requests,
                         r->at.states.count);
}

static uint64_t file_length(const struct runs *r)
{
    return r->at.requests.place + 8 + 8 * r->request_words;
}

/* The writer's refusals, in the order 27, 23, 24, 26; for 26 the place is the
 * length needed.  With number 0 the place is the length. */
static struct refusal check_runs(struct runs *r, uint64_t room_len)
{
    struct refusal refusal = check_whole(r);

    if (refusal.number != 0)
        return refusal;
    lay_out(r);
    refusal = check_counts(&r->at);
    if (refusal.number != 0)
        return refusal;
    refusal = check_numbers(r);
    if (refusal.number != 0)
        return refusal;
    return sec_say(room_len < file_length(r) ? 26 : 0, file_length(r));
}

static uint64_t put_section(uint8_t *room, uint64_t place, uint64_t count,
                            const uint64_t *run, uint64_t words)
{
    uint64_t i;

    place = put_word(room, place, count);
    for (i = 0; i < words; i++)
        place = put_word(room, place, run[i]);
    return place;
}

/* The edition, then each section after its count. */
static void put_file(const struct runs *r, uint8_t *room)
{
    uint64_t place = put_word(room, 0, EDITION);

    place = put_section(room, place, r->at.centres.count,
                        r->centres, r->centre_words);
    place = put_section(room, place, r->at.states.count,
                        r->states, r->state_words);
    (void)put_section(room, place, r->at.requests.count,
                      r->requests, r->request_words);
}

uint64_t second_write(const uint64_t *centres, size_t centre_words,
                      const uint64_t *states, size_t state_words,
                      const uint64_t *requests, size_t request_words,
                      uint8_t *room, size_t room_len,
                      uint64_t *answer, size_t n)
{
    struct runs r;
    struct refusal refusal;

    if (n != 2)
        return WRONG_ANSWER_RUN;
    r.centres = centres;
    r.centre_words = centre_words;
    r.states = states;
    r.state_words = state_words;
    r.requests = requests;
    r.request_words = request_words;
    refusal = check_runs(&r, room_len);
    if (refusal.number == 0)
        put_file(&r, room);
    answer[0] = refusal.number;
    answer[1] = refusal.place;
    return refusal.number;
}

/* ---- results ---- */

/* The first byte of record i of a section. */
static uint64_t record_place(const struct section *section, uint64_t words,
                             uint64_t i)
{
    return section->place + 8 + 8 * words * i;
}

static double float_at(const uint8_t *file, uint64_t place)
{
    return sec_double(sec_word_at(file, place));
}

/* tau is time - epoch: one rounded difference. */
static double interval(double time, double epoch)
{
    return time - epoch;
}

/* Any words may come in.  Which NaN a difference gives is the machine's
 * choice, so that its word is never answered. */
uint64_t second_interval(uint64_t time, uint64_t epoch,
                         uint64_t *answer, size_t n)
{
    double tau;

    if (n != 1)
        return WRONG_ANSWER_RUN;
    tau = interval(sec_double(time), sec_double(epoch));
    answer[0] = sec_nan(tau) ? NAN_WORD : sec_word(tau);
    return 0;
}

/* One request: its state, that state's centre, and its interval. */
static struct answer answer_request(const uint8_t *file,
                                    const struct contents *c, uint64_t i)
{
    uint64_t request = record_place(&c->requests, REQUEST_WORDS, i);
    uint64_t state = record_place(&c->states, STATE_WORDS,
                                  sec_word_at(file, request));
    uint64_t centre = record_place(&c->centres, CENTRE_WORDS,
                                   sec_word_at(file, state));
    double eight[8];
    int j;

    eight[0] = float_at(file, centre);
    for (j = 0; j < 6; j++)
        eight[1 + j] = float_at(file, state + 16 + 8 * (uint64_t)j);
    eight[7] = interval(float_at(file, request + 8),
                        float_at(file, state + 8));
    return sec_propagate(eight, NULL);
}

/* Eleven words: refusal or 0, points, position, velocity, end acceleration. */
static uint64_t put_row(uint8_t *room, uint64_t place, const struct answer *a)
{
    int i;

    place = put_word(room, place, a->refusal);
    place = put_word(room, place, a->points);
    for (i = 0; i < 3; i++)
        place = put_word(room, place, sec_word(a->position[i]));
    for (i = 0; i < 3; i++)
        place = put_word(room, place, sec_word(a->velocity[i]));
    for (i = 0; i < 3; i++)
        place = put_word(room, place, sec_word(a->end_acceleration[i]));
    return place;
}

/* Edition 1, the request count, then a row per request. */
static void put_rows(const uint8_t *file, const struct contents *c,
                     uint8_t *room)
{
    uint64_t place = put_word(room, 0, EDITION), i;

    place = put_word(room, place, c->requests.count);
    for (i = 0; i < c->requests.count; i++) {
        struct answer a = answer_request(file, c, i);

        place = put_row(room, place, &a);
    }
}

/* A refused file gives three words: 1, 0, its number. */
static void put_refused(uint8_t *room, uint64_t number)
{
    (void)put_word(room, put_word(room, put_word(room, 0, EDITION), 0),
                   number);
}

uint64_t second_results(const uint8_t *file, size_t len,
                        uint8_t *room, size_t room_len,
                        uint64_t *answer, size_t n)
{
    struct contents c;
    struct refusal refusal;

    if (n != 2)
        return WRONG_ANSWER_RUN;
    refusal = read_file(file, len, &c);
    answer[0] = 0;
    answer[1] = refusal.number != 0
        ? 24 : 16 + 8 * ROW_WORDS * c.requests.count;
    if (room_len < answer[1])
        return answer[0] = 26;
    if (refusal.number != 0)
        put_refused(room, refusal.number);
    else
        put_rows(file, &c, room);
    return 0;
}
