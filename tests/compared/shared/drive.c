#include "drive.h"

#include <errno.h>
#include <inttypes.h>
#include <signal.h>
#include <stdio.h>
#include <stdlib.h>
#include <time.h>

#define USUAL_SEED UINT64_C(1958)
#define QUIET_SECONDS 15     /* between two lines of progress */

static const char *drive_name;
static uint64_t usual, total, seed, first, done, state;
static void (*own_progress)(void), (*own_repeat)(void);

void draw_from(uint64_t word)
{
    state = word;
}

uint64_t any_word(void)
{
    uint64_t z = state += UINT64_C(0x9E3779B97F4A7C15);
    z = (z ^ z >> 30) * UINT64_C(0xBF58476D1CE4E5B9);
    z = (z ^ z >> 27) * UINT64_C(0x94D049BB133111EB);
    return z ^ z >> 31;
}

uint64_t any_below(uint64_t limit)
{
    return any_word() % limit;
}

int any_from(int low, int high)
{
    return low + (int)any_below((uint64_t)(high - low) + 1);
}

int one_in(uint64_t limit)
{
    return any_below(limit) == 0;
}

uint64_t drive_count(void)
{
    return total;
}

uint64_t drive_seed(void)
{
    return seed;
}

void drive_own(void (*progress)(void), void (*repeat)(void))
{
    own_progress = progress;
    own_repeat = repeat;
}

static void repeat(void)
{
    if (own_repeat != NULL) {
        own_repeat();
        fflush(stdout);
        return;
    }
    printf("%s: repeat it with: make fuzz FUZZ=build/tests/compared/%s N=1 SEED=%" PRIu64 " FIRST=%" PRIu64
           "; the documents decide who is wrong\n",
           drive_name, drive_name, seed, first + done - 1);
    fflush(stdout);
}

void drive_found(const char *what, const char *family)
{
    printf("\n%s: %s, of the family %s\n", drive_name, what, family);
}

void drive_differs(void)
{
    repeat();
    exit(EXIT_FAILURE);
}

/* A call that ends the program is a disagreement too. */
static void fell(int number)
{
    printf("\n%s: ended by signal %d\n", drive_name, number);
    repeat();
    _Exit(EXIT_FAILURE);
}

static uint64_t number_of(const char *word)
{
    char *end;
    uint64_t number;

    errno = 0;
    number = strtoull(word, &end, 10);
    if (*word < '0' || *word > '9' || *end != '\0' || errno != 0) {
        fprintf(stderr, "%s: %s is no whole number: give %s [N [SEED%s]]\n", drive_name, word, drive_name,
                own_repeat == NULL ? " [FIRST]" : "");
        exit(EXIT_FAILURE);
    }
    return number;
}

void drive_start(const char *name, uint64_t usual_count, int count, char **words)
{
    drive_name = name;
    usual = usual_count;
    total = count > 1 ? number_of(words[1]) : usual;
    seed = count > 2 ? number_of(words[2]) : USUAL_SEED;
    first = count > 3 ? number_of(words[3]) : 0;
    signal(SIGABRT, fell);
    signal(SIGFPE, fell);
    signal(SIGILL, fell);
    signal(SIGSEGV, fell);
}

static void tell_progress(void)
{
    static time_t told;
    time_t now = time(NULL);

    if (told != 0 && now - told < QUIET_SECONDS)
        return;
    if (told != 0) {
        fprintf(stderr, "%s: %" PRIu64 " of %" PRIu64 ", none differs yet", drive_name, done, total);
        if (own_progress != NULL)
            own_progress();
        fprintf(stderr, "\n");
    }
    told = now;
}

/* The next input's number, with the sequence of words set to it; 0 when all are done. */
static int next(uint64_t *number)
{
    if (done == total)
        return 0;
    if (done % 256 == 0)
        tell_progress();
    *number = first + done++;
    draw_from(seed);
    draw_from(any_word() ^ *number);
    return 1;
}

int drive_all(void (*compare)(uint64_t number), int (*tell)(void), const char *hint)
{
    uint64_t number;

    while (next(&number))
        compare(number);
    if (tell() && first == 0 && total >= usual) {
        printf("%s: %s\n", drive_name, hint);
        return EXIT_FAILURE;
    }
    return EXIT_SUCCESS;
}

/* ---- families, numbers and words ---- */

static const struct family *row_of(const struct families *families, size_t i)
{
    return (const struct family *)(const void *)((const char *)families->rows + i * families->width);
}

size_t family_of(const struct families *families, uint64_t number, uint64_t *turn)
{
    uint64_t shares = 0, rest;
    size_t i;

    for (i = 0; i < families->count; i++)
        shares += row_of(families, i)->share;
    rest = number % shares;
    for (i = 0; rest >= row_of(families, i)->share; i++)
        rest -= row_of(families, i)->share;
    *turn = number / shares * row_of(families, i)->share + rest;
    families->seen[i]++;
    return i;
}

void families_tell(const struct families *families)
{
    size_t i;

    for (i = 0; i < families->count; i++)
        printf("%s %s %" PRIu64, i ? "," : " ", row_of(families, i)->name, families->seen[i]);
    printf("\n");
}

int numbers_tell(const char *what, const uint64_t *met, const int *numbers, size_t count)
{
    int missed = 0;
    size_t i;

    printf("  numbers of %s:", what);
    for (i = 0; i < count; i++) {
        printf("%s %d %" PRIu64, i ? "," : "", numbers[i], met[numbers[i]]);
        missed += met[numbers[i]] == 0;
    }
    printf("\n");
    return missed;
}

int aims_tell_all(const char *const *names, const uint64_t *hit, size_t count)
{
    int missed = 0;
    size_t i;

    printf("  aims hit:");
    for (i = 0; i < count; i++) {
        printf("%s %s %" PRIu64, i ? "," : "", names[i], hit[i]);
        missed += hit[i] == 0;
    }
    printf("\n");
    return missed;
}

uint64_t rarest(const uint64_t *counts, size_t count)
{
    uint64_t least = counts[0];

    while (--count > 0)
        if (counts[count] < least)
            least = counts[count];
    return least;
}

void words_tell(const char *name, const uint64_t *run, size_t words)
{
    size_t i;

    printf("  %s, %zu words:", name, words);
    for (i = 0; i < words; i++)
        printf(" %016" PRIX64, run[i]);
    printf("\n");
}
