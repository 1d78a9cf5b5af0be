/* Bad figures in the rows of a result file (T-05): mu is the centre's, x to vz
 * are the state's, and tau is time - epoch. */
#include "selftest.h"

#include "second/parts.h"
#include "second/second.h"

#include <string.h>

#define CENTRES 2u
#define STATES 4u
#define REQUESTS 8u
#define FILE_BYTES (32 + 8 * CENTRES + 64 * STATES + 16 * REQUESTS)
#define ROWS_BYTES (16 + 88 * REQUESTS)

static const uint64_t kinds[3] = {NAN_WORD, INFINITE_WORD, MINUS_INFINITE};

/* The floats of a request: mu, x, y, z, vx, vy, vz, epoch, time. */
#define FLOATS 9
#define EPOCH 7
#define TIME 8
static const uint64_t numbers[FLOATS] = {31, 32, 33, 34, 35, 36, 37, 38, 38};

static uint64_t centres[CENTRES], states[8 * STATES], requests[2 * REQUESTS];
static uint8_t file[FILE_BYTES], rows[ROWS_BYTES + 8], sound[ROWS_BYTES + 8];

/* A centre that pulls and one that does not; a circle, P10's state, a position
 * of zero and an ellipse, all of the first but P10's; two requests for each. */
static void put_sections(void)
{
    static const double floats[STATES][7] = {
        {2, 1, 0, 0, 0, 1, 0},
        {-1, 1, 0, 0, 0, 0, 0},
        {0, 0, 0, 0, 1, 2, 3},
        {5, 1, 0.25, -0.5, 0.25, 0.5, 0.75},
    };
    static const double times[REQUESTS] = {2.5, 0, 1, 7, 2, 0.5, -1, 500};
    size_t i, j;

    centres[0] = ONE;
    centres[1] = 0;
    for (i = 0; i < STATES; i++) {
        states[8 * i] = i == 1;
        for (j = 0; j < 7; j++)
            states[8 * i + 1 + j] = sec_word(floats[i][j]);
    }
    for (i = 0; i < REQUESTS; i++) {
        requests[2 * i] = i % STATES;
        requests[2 * i + 1] = sec_word(times[i]);
    }
}

/* Where a float of a request stands; requests may have it in common. */
static uint64_t *word_of(size_t request, int what)
{
    uint64_t *state = states + 8 * requests[2 * request];

    if (what == 0)
        return centres + state[0];
    if (what == EPOCH)
        return state + 1;
    if (what == TIME)
        return requests + 2 * request + 1;
    return state + 1 + what;
}

static int shared(size_t a, size_t b, int what)
{
    return word_of(a, what) == word_of(b, what);
}

/* The file of the sections as they stand is not refused, whatever its floats
 * are, and no row has 2. */
static void put_rows(void)
{
    uint64_t a[2];
    size_t i;

    check(second_write(centres, CENTRES, states, 8 * STATES, requests,
                       2 * REQUESTS, file, FILE_BYTES, a, 2) == 0, "written");
    memset(rows, 0xA5, sizeof rows);
    check(second_results(file, FILE_BYTES, rows, sizeof rows, a, 2) == 0
              && a[0] == 0 && a[1] == ROWS_BYTES, "results");
    check(get64(rows) == 1 && get64(rows + 8) == REQUESTS, "head");
    check(kept_bytes(rows + ROWS_BYTES, 8), "room beyond");
    for (i = 0; i < REQUESTS; i++)
        check(get64(rows + 16 + 88 * i) != 2, "a row with 2");
}

static void expect_refused(size_t request, uint64_t number, uint64_t points,
                           const char *what)
{
    const uint8_t *row = rows + 16 + 88 * request;
    size_t i;

    check(get64(row) == number && get64(row + 8) == points, what);
    for (i = 2; i < 11; i++)
        check(get64(row + 8 * i) == 0, what);
}

static void expect_sound(size_t request, const char *what)
{
    size_t place = 16 + 88 * request;

    check(memcmp(rows + place, sound + place, 88) == 0, what);
}

/* By themselves the rows are 0, or 3 with the position of zero. */
static void test_sound(void)
{
    static const uint64_t p10[11] = {
        0, 21, ONE, 0, 0, 0, 0, 0, MINUS_ZERO, MINUS_ZERO, MINUS_ZERO};
    size_t i;

    put_sections();
    put_rows();
    memcpy(sound, rows, sizeof sound);
    for (i = 0; i < REQUESTS; i++)
        if (i % STATES == 2)
            expect_refused(i, 3, 0, "no bad float: 3");
        else
            check(get64(rows + 16 + 88 * i) == 0, "no bad float: answered");
    for (i = 0; i < 11; i++)
        check(get64(rows + 16 + 88 + 8 * i) == p10[i], "no bad float: P10");
    group("rows without a bad float");
}

/* ---- one and two ---- */

/* One is bad: so is each row that has it, and no other. */
static void expect_one(size_t request, int what, uint64_t word)
{
    uint64_t was = *word_of(request, what);
    size_t i;

    *word_of(request, what) = word;
    put_rows();
    for (i = 0; i < REQUESTS; i++)
        if (shared(i, request, what))
            expect_refused(i, numbers[what], 0, "one bad float");
        else
            expect_sound(i, "one bad float, another row");
    *word_of(request, what) = was;
}

static void test_one(void)
{
    static const uint64_t bad[7] = {
        NAN_WORD, INFINITE_WORD, MINUS_INFINITE, INFINITE_WORD + 1,
        MINUS_INFINITE + 1, 0x7FFFFFFFFFFFFFFFu, 0xFFFFFFFFFFFFFFFFu};
    size_t request, k;
    int what;

    for (request = 0; request < REQUESTS; request++)
        for (what = 0; what < FLOATS; what++)
            for (k = 0; k < 7; k++)
                expect_one(request, what, bad[k]);
    group("rows with a bad float");
}

/* Two are bad: the first of them that a row has is named in it.  For epoch and
 * time infinities of one sign are among these, whose difference is NaN. */
static void expect_two(size_t request, int a, int b, int kind)
{
    uint64_t was_a = *word_of(request, a), was_b = *word_of(request, b);
    size_t i;

    *word_of(request, a) = kinds[kind / 3];
    *word_of(request, b) = kinds[kind % 3];
    put_rows();
    for (i = 0; i < REQUESTS; i++)
        if (shared(i, request, a))
            expect_refused(i, numbers[a], 0, "the first bad float");
        else if (shared(i, request, b))
            expect_refused(i, numbers[b], 0, "the second, in another row");
        else
            expect_sound(i, "two bad floats, another row");
    *word_of(request, a) = was_a;
    *word_of(request, b) = was_b;
}

static void test_two(void)
{
    size_t request;
    int a, b, kind;

    for (request = 0; request < REQUESTS; request++)
        for (a = 0; a < FLOATS; a++)
            for (b = a + 1; b < FLOATS; b++)
                for (kind = 0; kind < 9; kind++)
                    expect_two(request, a, b, kind);
    group("rows with two bad floats");
}

/* From some float on all are bad. */
static void test_all(void)
{
    size_t request, i;
    int from, what;

    for (request = 0; request < REQUESTS; request++)
        for (from = 0; from < FLOATS; from++) {
            put_sections();
            for (what = from; what < FLOATS; what++)
                *word_of(request, what) = kinds[chance() % 3];
            put_rows();
            expect_refused(request, numbers[from], 0, "bad floats from one");
            for (i = 0; i < REQUESTS; i++)
                if (from > 0 && i % STATES != request % STATES)
                    expect_sound(i, "bad floats from one, another state");
        }
    put_sections();
    group("rows with all floats bad from one on");
}

/* ---- the difference ---- */

/* Request 1, for P10's state; 5 is for the same state, and has its epoch. */
static void put_interval(uint64_t time, uint64_t epoch)
{
    *word_of(1, TIME) = time;
    *word_of(1, EPOCH) = epoch;
    put_rows();
}

static void expect_infinite(double time, double epoch)
{
    size_t i;

    put_interval(sec_word(time), sec_word(epoch));
    expect_refused(1, 38, 0, "time - epoch is too large");
    for (i = 0; i < REQUESTS; i++)
        if (i % STATES != 1)
            expect_sound(i, "time - epoch is too large, another row");
    *word_of(1, 0) = NAN_WORD;
    put_rows();
    expect_refused(1, 31, 0, "bad mu before it");
    *word_of(1, 0) = 0;
    *word_of(1, 6) = NAN_WORD;
    put_rows();
    expect_refused(1, 37, 0, "bad vz before it");
    *word_of(1, 6) = 0;
    put_sections();
}

/* The largest double and half of its last place are a tie, which rounds out of
 * the doubles; less than half of it leaves the largest, with which P10 is 6 at
 * its first point. */
static void test_difference(void)
{
    double largest = sec_double(LARGEST), half = 0x1p970;
    double less = sec_double(sec_word(half) - 1), sign;

    for (sign = -1; sign <= 1; sign += 2) {
        expect_infinite(sign * largest, -sign * largest);
        expect_infinite(sign * 0x1p1023, -sign * 0x1p1023);
        expect_infinite(sign * largest, -sign * half);
        expect_infinite(sign * half, -sign * largest);
        put_interval(sec_word(sign * largest), sec_word(-sign * less));
        expect_refused(1, 6, 1, "the largest tau");
        put_interval(sec_word(sign * less), sec_word(-sign * largest));
        expect_refused(1, 6, 1, "the largest tau, by the epoch");
        put_interval(sec_word(sign * largest), sec_word(sign * largest));
        check(get64(rows + 16 + 88) == 0 && get64(rows + 24 + 88) == 0
                  && get64(rows + 32 + 88) == ONE, "no difference");
        put_sections();
    }
    group("rows with a time - epoch too large");
}

void selftest_rows(void)
{
    test_sound();
    test_one();
    test_two();
    test_all();
    test_difference();
}
