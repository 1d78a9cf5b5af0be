#include "ask_state.h"

#include "compared/shared/drive.h"
#include "kelubashi.h"
#include "second/second.h"

#include <inttypes.h>
#include <stdio.h>
#include <string.h>

#define ANSWER 15
#define PARTIALS 36
#define ROOM 40     /* a lent run, one word before it, and some behind */
#define LENT UINT64_C(0x5EED5EED5EED5EED)
#define GIVEN(w) (w)[0], (w)[1], (w)[2], (w)[3], (w)[4], (w)[5], (w)[6], (w)[7]

/* What one call gave: its status, its answer run and its lent run with their surroundings. */
struct given {
    uint64_t status;
    uint64_t answer[ANSWER + 2];
    uint64_t run[ROOM];
};

static const char *its_family;
static uint64_t plain_seen[64], partials_seen[64];     /* by the refusal's number */

/* No two words alike, so that a word that moves is seen too; another mark for each program. */
static void lend(struct given *g, uint64_t mark)
{
    uint64_t i;

    g->status = mark;
    for (i = 0; i < ANSWER + 2; i++)
        g->answer[i] = mark + i;
    for (i = 0; i < ROOM; i++)
        g->run[i] = LENT + i;
}

static int answers_whole(const struct given *g, uint64_t mark)
{
    return g->answer[0] == mark && g->answer[ANSWER + 1] == mark + ANSWER + 1;
}

static void print_words(const char *before, const uint64_t *words, int count)
{
    int i;

    printf("%s", before);
    for (i = 0; i < count; i++)
        printf(" %016" PRIX64, words[i]);
    printf("\n");
}

static void print_given(const char *whose, const struct given *g, int with_run)
{
    printf("  %s: status %" PRIu64 ", answer\n", whose, g->status);
    print_words("   ", g->answer + 1, ANSWER);
    if (with_run)
        print_words("    run with a word before and some behind", g->run, ROOM);
}

static void print_first(const char *where, const uint64_t *library, const uint64_t *second, int count)
{
    int i;

    for (i = 0; i < count; i++)
        if (library[i] != second[i]) {
            printf("  %s %d is the first that differs\n", where, i);
            return;
        }
}

static void differs(const char *what, const uint64_t *words, const struct given *library,
                    const struct given *second, int with_run)
{
    drive_found(what, its_family);
    print_words("  the eight words\n   ", words, 8);
    print_first("word of the answer", library->answer + 1, second->answer + 1, ANSWER);
    if (with_run)
        print_first("with the word before it as 0, word of the run", library->run, second->run, ROOM);
    print_given("the library", library, with_run);
    print_given("the second program", second, with_run);
    drive_differs();
}

static void compare(const char *what, const uint64_t *words, const struct given *library,
                    const struct given *second, int with_run)
{
    if (library->status != second->status
        || memcmp(library->answer + 1, second->answer + 1, ANSWER * sizeof(uint64_t)) != 0
        || memcmp(library->run, second->run, sizeof library->run) != 0)
        differs(what, words, library, second, with_run);
    if (!answers_whole(library, LENT) || !answers_whole(second, ~LENT))
        differs("written beside the answer", words, library, second, with_run);
}

/* What the second program gives with a run of some length. */
static void ask_second(const uint64_t *words, size_t length, struct given *second)
{
    lend(second, ~LENT);
    second->status = second_partials(GIVEN(words), second->answer + 1, ANSWER,
                                     length ? second->run + 1 : NULL, length);
}

static void compare_partials(const char *what, const uint64_t *words, size_t length, const struct given *second)
{
    struct given library;

    lend(&library, LENT);
    library.status = kelubashi1_partials(GIVEN(words), library.answer + 1, ANSWER,
                                         length ? library.run + 1 : NULL, length);
    compare(what, words, &library, second, 1);
}

/*
**  The answer without partials is the one with them, by the rules, but for refusal 8, which the partials'
**  own figures may have brought: only then is the second program asked again, since the search takes time.
*/
static uint64_t compare_propagate(const uint64_t *words, struct given *second)
{
    struct given library;

    if (second->status == 8) {
        lend(second, ~LENT);
        second->status = second_propagate(GIVEN(words), second->answer + 1, ANSWER);
    }
    lend(&library, LENT);
    library.status = kelubashi1_propagate(GIVEN(words), library.answer + 1, ANSWER);
    memcpy(second->run, library.run, sizeof library.run);     /* no run is lent to this call */
    compare("propagate", words, &library, second, 0);
    return second->status;
}

/* An answer run that is not 15 long is 60 before all else, and nothing is written anywhere. */
static void refuse_count(const uint64_t *words, size_t count, size_t length)
{
    struct given library, before;

    lend(&library, LENT);
    lend(&before, LENT);
    before.status = 60;
    library.status = kelubashi1_propagate(GIVEN(words), count ? library.answer + 1 : NULL, count);
    if (memcmp(&library, &before, sizeof library) != 0)
        differs("propagate with another count than 15", words, &library, &before, 1);
    library.status = kelubashi1_partials(GIVEN(words), count ? library.answer + 1 : NULL, count,
                                         length ? library.run + 1 : NULL, length);
    if (memcmp(&library, &before, sizeof library) != 0)
        differs("partials with another count than 15", words, &library, &before, 1);
}

static void refuse_length(const char *what, const uint64_t *words, size_t length)
{
    struct given second;

    ask_second(words, length, &second);
    compare_partials(what, words, length, &second);
    partials_seen[second.status]++;
}

/* Counts and lengths that are wrong, each in its turn. */
static void refuse_lengths(const uint64_t *words, uint64_t number)
{
    static const size_t counts[] = { 0, 14, 16, 1 };
    static const size_t lengths[] = { 36, 35, 0, 37, 36 };
    static const size_t others[] = { 0, 1, 38, 34, 18 };

    refuse_length("partials, 35 words lent", words, 35);
    refuse_length("partials, 37 words lent", words, 37);
    refuse_length("partials, neither 35 nor 37 words lent", words, others[number % 5]);
    refuse_count(words, counts[number % 4], lengths[number % 5]);
}

struct asked ask_state(const char *family, const uint64_t *words, uint64_t number)
{
    struct given second;
    struct asked asked;

    its_family = family;
    refuse_lengths(words, number);

    ask_second(words, PARTIALS, &second);
    asked.with_partials = second.status;
    compare_partials("partials", words, PARTIALS, &second);
    asked.propagated = compare_propagate(words, &second);
    asked.points = second.answer[2];

    partials_seen[asked.with_partials]++;
    plain_seen[asked.propagated]++;
    return asked;
}

int ask_state_tell(void)
{
    static const int numbers[] = { 1, 0, 31, 32, 33, 34, 35, 36, 37, 38, 3, 4, 5, 6, 7, 8 };
    size_t count = sizeof numbers / sizeof numbers[0];
    int missed = numbers_tell("propagate", plain_seen, numbers + 1, count - 1);     /* which never gives 1 */

    return missed + numbers_tell("partials", partials_seen, numbers, count);
}
