/*
**  The library against the second program, on inputs that find their own way.
**
**     guided [N [SEED]]                  N inputs of the seed
**     guided state WORD..                one state again, by its eight words in hex
**     guided file NAME                   one file again
**     guided sections NAME               sections again, from a file that this program wrote
**     guided roster NAME                 a roster and its calls again, from such a file
**     guided rows NAME                   one file of rows again
**     guided pair NAME                   a pair of result files again, from a file that this program wrote
**
**  Inputs by which the second program goes a way that it never went before are kept, and changed into others.
**  They begin with the families of the other five comparisons, and each is asked and compared as there.
*/
#include "compared/compare/ask_compare.h"
#include "compared/files/ask_file.h"
#include "compared/guided/changes.h"
#include "compared/guided/corpus.h"
#include "compared/guided/edges.h"
#include "compared/rows/ask_rows.h"
#include "compared/shared/drive.h"
#include "compared/shared/orbits.h"
#include "compared/states/ask_state.h"
#include "compared/states/state_families.h"
#include "compared/summary/ask_summary.h"

#include <inttypes.h>
#include <stdio.h>
#include <stdlib.h>
#include <string.h>

#define USUAL 4000
#define BEGINNING 1000     /* inputs that are all of the families */
#ifndef FRESH
#define FRESH 2     /* one in so many is so later too; with 1 there is nothing else */
#endif

static const char *const names[KINDS] = { "state", "file", "sections", "roster", "rows", "pair" };

static const char *program;
static enum kind kind;
static struct file input, other;
static struct sections sections;
static struct roster roster;
static struct pair pair;

/* ---- one input ---- */

/* The same for the same bytes, so that an input is asked in the same way when it is repeated. */
static uint64_t sum_of_input(void)
{
    uint64_t sum = UINT64_C(0xCBF29CE484222325);
    size_t i;

    for (i = 0; i < input.length; i++)
        sum = (sum ^ input.bytes[i]) * UINT64_C(0x100000001B3);
    return sum;
}

static void ask(const char *family)
{
    uint64_t words[EIGHT];

    draw_from(sum_of_input());
    edges_begin();
    switch (kind) {
    case STATES:
        unpack_state(&input, words);
        ask_state(family, words, any_word());
        break;
    case FILES:
        ask_file(family, &input);
        break;
    case SECTIONS:
        unpack_sections(&input, &sections);
        ask_sections(family, &sections);
        break;
    case ROSTERS:
        unpack_roster(&input, &roster);
        ask_roster(family, &roster);
        break;
    case ROWS:
        ask_rows(family, &input, 0);
        break;
    default:
        unpack_pair(&input, &pair);
        ask_compare(family, &pair);
        break;
    }
}

static const char *fresh_state(void)
{
    static uint64_t number;
    const struct state_family *family = state_family(number++);
    uint64_t words[EIGHT];

    kind = STATES;
    family->make(words);
    pack_state(&input, words);
    return family->its.name;
}

static const char *fresh_file(void)
{
    static uint64_t number;
    uint64_t turn;
    const struct file_family *family = file_family(number++, &turn);

    kind = family->file != NULL ? FILES : SECTIONS;
    if (kind == FILES)
        family->file(&input, turn);
    else {
        family->sections(&sections, turn);
        pack_sections(&input, &sections);
    }
    return family->its.name;
}

static const char *fresh_roster(void)
{
    static uint64_t number;
    uint64_t turn;
    const struct roster_family *family = roster_family(number++, &turn);

    family->make(&roster, turn);
    pack_roster(&input, &roster);
    return family->its.name;
}

static const char *fresh_rows(void)
{
    static uint64_t number;
    uint64_t turn;
    const struct row_family *family = row_family(number++, &turn);

    make_rows(family, &input, turn);
    return family->its.name;
}

static const char *fresh_pair(void)
{
    static uint64_t number;
    uint64_t turn;
    const struct pair_family *family = pair_family(number++, &turn);

    make_pair(family, &pair, turn);
    pack_pair(&input, &pair);
    return family->its.name;
}

static const char *fresh(void)
{
    switch (kind) {
    case STATES:
        return fresh_state();
    case ROSTERS:
        return fresh_roster();
    case ROWS:
        return fresh_rows();
    case PAIRS:
        return fresh_pair();
    default:
        return fresh_file();
    }
}

static void compare_one(uint64_t number)
{
    const char *family = "changes";

    kind = one_in(2) ? STATES : one_in(3) ? ROWS : one_in(4) ? ROSTERS : one_in(4) ? PAIRS : one_in(3) ? SECTIONS : FILES;
    if (number < BEGINNING || one_in(FRESH) || corpus_count(kind) == 0)
        family = fresh();
    else {
        corpus_take(kind, &input);
        corpus_take(kind, &other);
        change(kind, &input, &other);
    }
    ask(family);
    if (edges_new())
        corpus_keep(kind, &input, edges_steps());
}

/* ---- what is told ---- */

static void progress(void)
{
    fprintf(stderr, ", %" PRIu64 " edges, %" PRIu64 " with their counts, a corpus of %zu", edges_met(),
            edges_counts(), corpus_size());
}

static int tell(void)
{
    printf("guided: seed %" PRIu64 ", %" PRIu64 " inputs, %" PRIu64 " edges, %" PRIu64
           " with their counts, a corpus of %zu, none differs\n",
           drive_seed(), drive_count(), edges_met(), edges_counts(), corpus_size());
    return 0;
}

/* A state by its words; other inputs by a file that is written here. */
static void repeat(void)
{
    char name[4096];
    FILE *out;
    size_t i;

    printf("guided: repeat it with: make fuzz INPUT='%s", names[kind]);
    if (kind == STATES)
        for (i = 0; i < EIGHT; i++)
            printf(" %016" PRIX64, word_at(&input, 8 * i));
    else {
        snprintf(name, sizeof name, "%s.%016" PRIX64, program, sum_of_input());
        out = fopen(name, "wb");
        if (out == NULL || fwrite(input.bytes, 1, input.length, out) != input.length || fclose(out) != 0)
            snprintf(name, sizeof name, "NAME (it could not be written: it is above)");
        printf(" %s", name);
    }
    printf("'; the documents decide who is wrong\n");
}

/* ---- one input again ---- */

static void wrong_words(void)
{
    fprintf(stderr, "guided: give guided [N [SEED]], or state and its eight words in hex of 16 digits, "
                    "or file, sections, roster, rows or pair and a name\n");
    exit(EXIT_FAILURE);
}

static void take_words(char **words)
{
    uint64_t eight[EIGHT];
    char *end;
    int i;

    for (i = 0; i < EIGHT; i++) {
        eight[i] = strtoull(words[i], &end, 16);
        if (strlen(words[i]) != 16 || *end != '\0')
            wrong_words();
    }
    pack_state(&input, eight);
}

static void take_file(const char *name)
{
    FILE *in = fopen(name, "rb");

    if (in == NULL) {
        fprintf(stderr, "guided: %s cannot be read: give the name of a file that is there\n", name);
        exit(EXIT_FAILURE);
    }
    input.length = fread(input.bytes, 1, MOST_PACKED, in);
    fclose(in);
}

/* The kind of this name, KINDS where there is none. */
static enum kind kind_of(const char *name)
{
    int i = 0;

    while (i < KINDS && strcmp(name, names[i]) != 0)
        i++;
    return (enum kind)i;
}

static int again(int count, char **words)
{
    kind = kind_of(words[1]);
    if (kind == STATES && count == 2 + EIGHT)
        take_words(words + 2);
    else if (kind != STATES && kind != KINDS && count == 3)
        take_file(words[2]);
    else
        wrong_words();
    ask("given");
    printf("guided: the %s given: none differs\n", names[kind]);
    return EXIT_SUCCESS;
}

int main(int count, char **words)
{
    int one = count > 1 && (words[1][0] < '0' || words[1][0] > '9');

    program = words[0];
    if (count > 3 && !one)
        wrong_words();
    drive_own(progress, repeat);
    drive_start("guided", USUAL, one ? 1 : count, words);
    return one ? again(count, words) : drive_all(compare_one, tell, "");
}
