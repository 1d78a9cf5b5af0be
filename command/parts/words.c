#include "words.h"

#include "say.h"

#include <stdio.h>
#include <string.h>
#include <unistd.h>

#define GIVEN_TWICE "is given twice"
#define NO_OPTION "is no option of it"

/* A word that starts with a minus and is no number. A number is an operand: kelubashi state takes some below zero. */
static int is_option(const char *word)
{
    return word[0] == '-' && word[1] != '\0' && strchr("0123456789.", word[1]) == NULL &&
           strncmp(word, "-inf", 4) != 0 && strncmp(word, "-nan", 4) != 0;
}

/* Whether it takes this besides. */
static int takes(const struct subcommand *subcommand, int what)
{
    return (subcommand->besides & what) != 0;
}

/* What is wrong with an option. */
static enum words bad_option(const struct subcommand *subcommand, const char *option, const char *wrong)
{
    say("%s %s: see kelubashi %s --help", shown(option), wrong, subcommand->name);
    return WORDS_NOT_UNDERSTOOD;
}

/* An option of one letter, or its end in a word of several: getopt knows where it is. */
static enum words take_letter(const struct subcommand *subcommand, int count, char **words, struct call *call)
{
    char letters[16], option[] = "-?";

    /* with the plus, no getopt goes on past an operand; with the colon, it tells a missing name apart */
    snprintf(letters, sizeof letters, "+:%s", subcommand->letters);
    switch (getopt(count, words, letters)) {
    case 'q':
        call->quiet = 1;
        return WORDS_GOOD;
    case 'o':
        if (call->output != NULL)
            return bad_option(subcommand, "-o", GIVEN_TWICE);
        call->output = optarg;
        return WORDS_GOOD;
    case ':':
        option[1] = (char)optopt;
        return bad_option(subcommand, option, "needs a name behind it");
    default:
        option[1] = (char)optopt;
        return bad_option(subcommand, option, NO_OPTION);
    }
}

/* The number behind --from, which the subcommand reads. */
static enum words take_from(const struct subcommand *subcommand, int count, char **words, struct call *call)
{
    if (call->from != NULL)
        return bad_option(subcommand, "--from", GIVEN_TWICE);
    if (optind == count)
        return bad_option(subcommand, "--from", "needs a number behind it");
    call->from = words[optind++];
    return WORDS_GOOD;
}

/* An option of a whole word, with what it needs behind it. */
static enum words take_long(const struct subcommand *subcommand, int count, char **words, struct call *call)
{
    const char *word = words[optind++];

    if (strcmp(word, "--help") == 0)
        return WORDS_ASK_FOR_HELP;
    if (takes(subcommand, TAKES_ANY_BITS) && strcmp(word, "--any-bits") == 0) {
        call->any_bits = 1;
        return WORDS_GOOD;
    }
    if (takes(subcommand, TAKES_ALL) && strcmp(word, "--all") == 0) {
        call->all = 1;
        return WORDS_GOOD;
    }
    if (takes(subcommand, TAKES_FROM) && strcmp(word, "--from") == 0)
        return take_from(subcommand, count, words, call);
    return bad_option(subcommand, word, NO_OPTION);
}

/* As many operands as the subcommand takes, or more where it takes more. */
static enum words count_operands(const struct subcommand *subcommand, const struct call *call)
{
    int more = call->operand_count > subcommand->operands;

    if (call->operand_count == subcommand->operands || (more && takes(subcommand, TAKES_MORE)))
        return WORDS_GOOD;
    if (more)
        say("'%s' is one word too many: usage: kelubashi %s %s", shown(call->operands[subcommand->operands]),
            subcommand->name, subcommand->takes);
    else
        say("%d of %d words are missing: usage: kelubashi %s %s", subcommand->operands - call->operand_count,
            subcommand->operands, subcommand->name, subcommand->takes);
    return WORDS_NOT_UNDERSTOOD;
}

enum words take_words(const struct subcommand *subcommand, int count, char **words, struct call *call)
{
    enum words taken = WORDS_GOOD;
    int operands_only = 0;

    memset(call, 0, sizeof *call);
    call->operands = words + 1;
    opterr = 0;
    optind = 1;
    while (taken == WORDS_GOOD && optind < count) {
        char *word = words[optind];

        if (operands_only || !is_option(word)) {
            call->operands[call->operand_count++] = word;   /* over a word that has been taken */
            optind++;
        } else if (word[1] != '-') {
            taken = take_letter(subcommand, count, words, call);
        } else if (word[2] != '\0') {
            taken = take_long(subcommand, count, words, call);
        } else {
            operands_only = 1;
            optind++;
        }
    }
    return taken == WORDS_GOOD ? count_operands(subcommand, call) : taken;
}
