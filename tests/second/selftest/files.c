/* Element files: reader, writer and results, with P10's whole result file. */
#include "selftest.h"

#include "second/parts.h"
#include "second/second.h"

#include <string.h>

#define FILE_LIMIT 56160u

static uint8_t bytes[FILE_LIMIT + 64], again[FILE_LIMIT + 64];
static uint8_t rows[16 + 88 * 1500 + 64];
static uint64_t centres[17], states[501 * 8], requests[1501 * 2];

void put64(uint8_t *at, uint64_t word)
{
    int i;

    for (i = 0; i < 8; i++)
        at[i] = (uint8_t)(word >> (8 * i));
}

uint64_t get64(const uint8_t *at)
{
    uint64_t word = 0;
    int i;

    for (i = 0; i < 8; i++)
        word |= (uint64_t)at[i] << (8 * i);
    return word;
}

static void make_runs(size_t c, size_t s, size_t r)
{
    size_t i;

    for (i = 0; i < c; i++)
        centres[i] = chance();
    for (i = 0; i < 8 * s; i++)
        states[i] = i % 8 == 0 ? chance() % c : chance();
    for (i = 0; i < 2 * r; i++)
        requests[i] = i % 2 == 0 ? chance() % s : chance();
}

static uint64_t write_runs(size_t c, size_t s, size_t r, size_t room,
                           uint64_t answer[2])
{
    memset(bytes, 0xA5, sizeof bytes);
    return second_write(centres, c, states, 8 * s, requests, 2 * r, bytes,
                        room, answer, 2);
}

static void expect_read(const uint8_t *file, size_t len, uint64_t number,
                        uint64_t place, const char *what)
{
    uint64_t a[8], r[2];
    int i;

    fill(a, 8);
    check(second_read(file, len, a, 8) == number, what);
    check(a[0] == number && a[1] == place, what);
    for (i = 2; i < 8; i++)
        check(number == 0 || a[i] == 0, what);
    if (number == 0)
        return;
    memset(rows, 0xA5, sizeof rows);
    check(second_results(file, len, rows, 23, r, 2) == 26 && r[0] == 26
              && r[1] == 24 && kept_bytes(rows, sizeof rows), what);
    check(second_results(file, len, rows, 24, r, 2) == 0 && r[0] == 0
              && r[1] == 24, what);
    check(get64(rows) == 1 && get64(rows + 8) == 0
              && get64(rows + 16) == number
              && kept_bytes(rows + 24, sizeof rows - 24), what);
}

static void expect_write(size_t c, size_t s, size_t r, size_t room,
                         uint64_t number, uint64_t place, const char *what)
{
    uint64_t a[2];

    check(write_runs(c, s, r, room, a) == number, what);
    check(a[0] == number && a[1] == place, what);
    check(number != 0 ? kept_bytes(bytes, sizeof bytes)
                      : kept_bytes(bytes + place, sizeof bytes - place), what);
}

/* Every prefix of a good file lacks the word that it breaks off in. */
static void test_prefixes(void)
{
    size_t len = 8 + (8 + 24) + (8 + 3 * 64) + (8 + 5 * 16), i;
    uint64_t a[8];

    make_runs(3, 3, 5);
    expect_write(3, 3, 5, len, 0, len, "small file");
    expect_read(bytes, len, 0, 0, "small file");
    check(second_read(bytes, len, a, 8) == 0 && a[2] == 8 && a[3] == 3
              && a[4] == 40 && a[5] == 3 && a[6] == 240 && a[7] == 5,
          "section places");
    for (i = 0; i < len; i++)
        expect_read(bytes, i, 21, i - i % 8, "prefix");
    for (i = 1; i < 20; i++)
        expect_read(bytes, len + i, 25, len, "bytes left");
    expect_read(NULL, 0, 21, 0, "empty file");
    check(second_read(NULL, 0, a, 7) == 60, "read 60");
    group("reader: every prefix, bytes left");
}

/* Every number and count of a good file, spoilt in its turn. */
static void test_spoilt(void)
{
    size_t len = 8 + (8 + 24) + (8 + 3 * 64) + (8 + 5 * 16), i;

    make_runs(3, 3, 5);
    expect_write(3, 3, 5, len, 0, len, "small file");
    memcpy(again, bytes, sizeof again);
    put64(again, 2);
    expect_read(again, len, 22, 0, "edition 2");
    expect_read(again, 8, 22, 0, "edition 2 alone");
    put64(again, 0);
    expect_read(again, len, 22, 0, "edition 0");
    put64(again, 1);
    put64(again + 8, 17);
    expect_read(again, len, 23, 8, "17 centres");
    expect_read(again, 16, 23, 8, "17 centres, no more bytes");
    put64(again + 8, ~(uint64_t)0);
    expect_read(again, len, 23, 8, "2^64 - 1 centres");
    put64(again + 8, 3);
    put64(again + 40, 501);
    expect_read(again, len, 23, 40, "501 states");
    put64(again + 40, 3);
    put64(again + 240, 1501);
    expect_read(again, len, 23, 240, "1501 requests");
    put64(again + 240, 5);
    for (i = 0; i < 3; i++) {
        uint64_t was = get64(again + 48 + 64 * i);

        put64(again + 48 + 64 * i, 3);
        expect_read(again, len, 24, 48 + 64 * i, "centre number 3");
        expect_read(again, 56 + 64 * i, 24, 48 + 64 * i, "24 before 21");
        put64(again + 48 + 64 * i, was);
    }
    for (i = 0; i < 5; i++) {
        uint64_t was = get64(again + 248 + 16 * i);

        put64(again + 248 + 16 * i, (uint64_t)1 << 63);
        expect_read(again, len, 24, 248 + 16 * i, "state number 2^63");
        expect_read(again, len + 1, 24, 248 + 16 * i, "24 before 25");
        put64(again + 248 + 16 * i, was);
    }
    expect_read(again, len, 0, 0, "mended file");
    group("reader: every refusal");
}

/* 16 centres and 17; the largest file, one byte short and one long. */
static void test_limits(void)
{
    uint64_t a[8];

    make_runs(16, 500, 1500);
    expect_write(16, 500, 1500, FILE_LIMIT, 0, FILE_LIMIT, "largest file");
    expect_read(bytes, FILE_LIMIT, 0, 0, "largest file");
    check(second_read(bytes, FILE_LIMIT, a, 8) == 0 && a[3] == 16
              && a[5] == 500 && a[7] == 1500, "largest counts");
    expect_read(bytes, FILE_LIMIT - 1, 21, FILE_LIMIT - 8, "one byte short");
    expect_read(bytes, FILE_LIMIT + 1, 25, FILE_LIMIT, "one byte long");
    check(write_runs(16, 500, 1500, FILE_LIMIT - 1, a) == 26
              && a[1] == FILE_LIMIT && kept_bytes(bytes, sizeof bytes),
          "one byte too little room");
    expect_write(17, 500, 1500, FILE_LIMIT, 23, 8, "17 centres");
    expect_write(16, 501, 1500, FILE_LIMIT, 23, 16 + 128, "501 states");
    expect_write(16, 500, 1501, FILE_LIMIT, 23, 24 + 128 + 32000,
                 "1501 requests");
    expect_write(17, 501, 1501, 0, 23, 8, "23 in file order, before 26");
    group("16 and 17 centres, one byte short, one long");
}

/* The writer's order 27, 23, 24, 26 and its places. */
static void test_writer(void)
{
    uint64_t a[2];
    size_t k;

    make_runs(3, 3, 5);
    for (k = 0; k <= 17; k++) {
        uint64_t want = k % 8 ? 27 : 26;

        memset(bytes, 0xA5, sizeof bytes);
        check(second_write(centres, 3, states, k, NULL, 0, bytes, 0, a, 2)
                  == want, "27 before 26");
        check(a[0] == want && a[1] == (k % 8 ? 1 : 56 + 8 * k), "27 place");
    }
    check(second_write(centres, 17, states, 7, requests, 3, bytes, 999, a, 2)
              == 27 && a[1] == 1, "27 before 23, first section");
    check(second_write(centres, 17, states, 8, requests, 3, bytes, 999, a, 2)
              == 27 && a[1] == 2, "27 in the requests");
    check(kept_bytes(bytes, sizeof bytes), "27 keeps the room");
    states[16] = 3;
    requests[0] = 3;
    expect_write(3, 3, 5, 0, 24, 48 + 128, "24 in the states, before 26");
    expect_write(3, 501, 5, 0, 23, 40, "23 before 24");
    states[16] = 2;
    expect_write(3, 3, 5, 0, 24, 248, "24 in the requests");
    requests[0] = 2;
    expect_write(3, 3, 5, 327, 26, 328, "26");
    expect_write(3, 3, 5, 400, 0, 328, "room beyond the file");
    expect_write(0, 0, 0, 32, 0, 32, "empty sections");
    expect_read(bytes, 32, 0, 0, "empty sections");
    check(second_write(NULL, 0, NULL, 0, NULL, 0, NULL, 0, a, 2) == 26
              && a[1] == 32, "null runs");
    fill(a, 2);
    check(second_write(centres, 3, states, 7, requests, 3, bytes, 9, a, 1)
              == 60 && kept(a, 2), "write 60");
    group("writer: every refusal");
}

/* P10 as one request, whole. */
static void test_p10_file(void)
{
    static const uint64_t want[13] = {
        1, 1, 0, 21, ONE, 0, 0, 0, 0, 0, MINUS_ZERO, MINUS_ZERO, MINUS_ZERO};
    uint64_t c[1] = {0}, s[8] = {0, 0, ONE, 0, 0, 0, 0, 0};
    uint64_t q[2] = {0, ONE}, a[2];
    int i;

    check(second_write(c, 1, s, 8, q, 2, bytes, sizeof bytes, a, 2) == 0
              && a[1] == 120, "P10 file");
    memset(rows, 0xA5, sizeof rows);
    check(second_results(bytes, 120, rows, 103, a, 2) == 26 && a[0] == 26
              && a[1] == 104 && kept_bytes(rows, sizeof rows), "P10 room");
    check(second_results(bytes, 120, rows, 104, a, 2) == 0 && a[0] == 0
              && a[1] == 104, "P10 results");
    for (i = 0; i < 13; i++)
        check(get64(rows + 8 * i) == want[i], "P10 result words");
    check(kept_bytes(rows + 104, sizeof rows - 104), "P10 room beyond");
    fill(a, 2);
    check(second_results(bytes, 120, rows, 104, a, 3) == 60 && kept(a, 2),
          "results 60");
    group("P10's whole result file");
}

/* ---- the interval of a request ---- */

static void expect_interval(uint64_t time, uint64_t epoch, uint64_t want,
                            const char *what)
{
    uint64_t answer = KEPT;

    check(second_interval(time, epoch, &answer, 1) == 0, what);
    check(answer == want, what);
}

/* Whole numbers below 2^53 and their differences are exact; sums from 2^53 on
 * lose a last one, and an odd sum goes to the even neighbour. */
static void expect_whole(int64_t time, int64_t epoch)
{
    int64_t tau = time - epoch, size = tau < 0 ? -tau : tau;

    if (size > ((int64_t)1 << 53) && size % 2 != 0)
        size += (size + 1) / 2 % 2 == 0 ? 1 : -1;
    expect_interval(sec_word((double)time), sec_word((double)epoch),
                    sec_word(tau < 0 ? -(double)size : (double)size),
                    "interval of whole numbers");
}

/* Both zeros, the ends of the range, ties, and what has no number. */
static void test_interval(void)
{
    const uint64_t last = 0x3CA0000000000000u; /* 2^-53 */
    const uint64_t most = 0x7C90000000000000u; /* 2^970, half a last place */
    uint64_t answer, i;

    expect_interval(ONE, 0, ONE, "interval from +0");
    expect_interval(0, ONE, MINUS_ZERO | ONE, "interval below zero");
    expect_interval(0, 0, 0, "interval of +0");
    expect_interval(0, MINUS_ZERO, 0, "interval of +0 and -0");
    expect_interval(MINUS_ZERO, 0, MINUS_ZERO, "interval of -0 and +0");
    expect_interval(MINUS_ZERO, MINUS_ZERO, 0, "interval of -0");
    expect_interval(ONE, ONE, 0, "interval of one time");
    expect_interval(2, 1, 1, "interval of subnormals");
    expect_interval(1, 2, MINUS_ZERO | 1, "interval of subnormals, below zero");
    expect_interval(0x0010000000000000u, 1, 0x000FFFFFFFFFFFFFu,
                    "interval from the least normal");
    expect_interval(ONE, MINUS_ZERO | last, ONE, "interval, a tie down");
    expect_interval(ONE + 1, MINUS_ZERO | last, ONE + 2, "interval, a tie up");
    expect_interval(LARGEST, MINUS_ZERO | LARGEST, INFINITE_WORD,
                    "interval too large");
    expect_interval(LARGEST, MINUS_ZERO | most, INFINITE_WORD,
                    "interval too large by a tie");
    expect_interval(LARGEST, MINUS_ZERO | (most - 1), LARGEST,
                    "interval just not too large");
    expect_interval(INFINITE_WORD, ONE, INFINITE_WORD, "interval to infinity");
    expect_interval(ONE, INFINITE_WORD, MINUS_INFINITE,
                    "interval from infinity");
    expect_interval(INFINITE_WORD, MINUS_INFINITE, INFINITE_WORD,
                    "interval of both infinities");
    expect_interval(INFINITE_WORD, INFINITE_WORD, NAN_WORD,
                    "interval of one infinity");
    expect_interval(MINUS_INFINITE, MINUS_INFINITE, NAN_WORD,
                    "interval of the other infinity");
    for (i = 1; i < (uint64_t)1 << 52; i *= 2) {
        expect_interval(INFINITE_WORD | i, ONE, NAN_WORD, "interval to NaN");
        expect_interval(ONE, MINUS_INFINITE | i, NAN_WORD, "interval from NaN");
        expect_interval(INFINITE_WORD | i, MINUS_INFINITE | 1, NAN_WORD,
                        "interval of NaNs");
    }
    for (i = 0; i < 100000; i++)
        expect_whole((int64_t)(chance() >> 11),
                     (int64_t)(chance() >> 11) * (i % 2 ? -1 : 1));
    answer = KEPT;
    check(second_interval(ONE, 0, &answer, 0) == 60 && answer == KEPT
              && second_interval(ONE, 0, &answer, 2) == 60 && answer == KEPT
              && second_interval(ONE, 0, NULL, 0) == 60, "interval 60");
    group("intervals");
}

/* Rows are the first eleven words of the propagator, tau = time - epoch. */
static void test_rows(void)
{
    uint64_t a[2], answer[15], interval;
    size_t i, j, len;

    make_runs(16, 500, 1500);
    for (i = 0; i < 500; i++) {
        double e[8];

        if (i % 5 == 0)
            continue;
        orbit(e, (int)(i % 4), 1.0, between(0.5, 2));
        centres[states[8 * i]] = sec_word(e[0]);
        states[8 * i + 1] = sec_word(between(-3, 3));
        for (j = 0; j < 6; j++)
            states[8 * i + 2 + j] = sec_word(e[1 + j]);
    }
    for (i = 0; i < 1500; i++)
        if (i % 7)
            requests[2 * i + 1] = sec_word(between(-5, 5));
    check(write_runs(16, 500, 1500, FILE_LIMIT, a) == 0, "rows: file");
    len = 16 + 88 * 1500;
    check(second_results(bytes, FILE_LIMIT, rows, sizeof rows, a, 2) == 0
              && a[1] == len, "rows: results");
    check(get64(rows) == 1 && get64(rows + 8) == 1500, "rows: head");
    for (i = 0; i < 1500; i++) {
        const uint64_t *s = states + 8 * requests[2 * i];
        double tau = sec_double(requests[2 * i + 1]) - sec_double(s[1]);

        second_propagate(centres[s[0]], s[2], s[3], s[4], s[5], s[6], s[7],
                         sec_word(tau), answer, 15);
        check(answer[0] != 2, "row: 2 is given");
        check(second_interval(requests[2 * i + 1], s[1], &interval, 1) == 0
                  && interval == (sec_nan(tau) ? NAN_WORD : sec_word(tau)),
              "row: interval");
        for (j = 0; j < 11; j++)
            check(get64(rows + 16 + 88 * i + 8 * j) == answer[j], "row");
    }
    group("result rows");
}

void selftest_files(void)
{
    test_prefixes();
    test_spoilt();
    test_limits();
    test_writer();
    test_p10_file();
    test_interval();
    test_rows();
}
