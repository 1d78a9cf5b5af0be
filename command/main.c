/*
**  kelubashi: a station's own command over the library. Here are the table of its subcommands, the help,
**  and what every call goes through: its words, the self-check, the subcommand, standard output.
*/
#include "command.h"
#include "kelubashi.h"
#include "kelubashi_selfcheck.h"
#include "parts/output.h"
#include "parts/say.h"
#include "parts/words.h"

#include <errno.h>
#include <fcntl.h>
#include <signal.h>
#include <stdio.h>
#include <string.h>
#include <unistd.h>

static const struct subcommand *const SUBCOMMANDS[] = {
    &results_subcommand, &show_subcommand, &elements_subcommand, &read_subcommand, &centres_subcommand,
    &check_subcommand, &rows_subcommand, &compare_subcommand, &state_subcommand, &selfcheck_subcommand
};

enum { SUBCOMMAND_COUNT = sizeof SUBCOMMANDS / sizeof SUBCOMMANDS[0] };

static const char EXIT_STATUS[] =
    "Exit status:\n"
    "  0  all well\n"
    "  1  done, but something is refused, not accepted, moved or left over\n"
    "  2  not done: cannot read, write, or understand the call\n"
    "  3  the self-check failed\n";

static const struct subcommand *subcommand_of(const char *name)
{
    int i;

    for (i = 0; i < SUBCOMMAND_COUNT; i++)
        if (strcmp(SUBCOMMANDS[i]->name, name) == 0)
            return SUBCOMMANDS[i];
    return NULL;
}

/* The help of the whole command. */
static enum status help(void)
{
    int i;

    printf("kelubashi: two-body orbits for a tracking station\n\n");
    for (i = 0; i < SUBCOMMAND_COUNT; i++)
        printf("  kelubashi %-9s %-26s %s\n", SUBCOMMANDS[i]->name, SUBCOMMANDS[i]->takes, SUBCOMMANDS[i]->does);
    printf("\n  kelubashi --help and --version; kelubashi SUBCOMMAND --help for each\n\n"
           "  -q   say nothing but trouble; every subcommand takes it\n\n%s", EXIT_STATUS);
    return finish_output();
}

/* The help of one subcommand. */
static enum status help_of(const struct subcommand *subcommand)
{
    printf("usage: kelubashi %s%s%s [-q]\n\n%s\n%s", subcommand->name, *subcommand->takes == '\0' ? "" : " ",
           subcommand->takes, subcommand->help, EXIT_STATUS);
    return finish_output();
}

static enum status version(void)
{
    printf("kelubashi, edition %d\n", KELUBASHI_EDITION);
    return finish_output();
}

/* Words that no subcommand can be made of. */
static enum status not_understood(const char *word)
{
    if (word == NULL)
        say("a subcommand is missing: see kelubashi --help");
    else
        say("'%s' is no subcommand: see kelubashi --help", shown(word));
    return NOT_DONE;
}

/* A sound processor and library first, then the work. */
static enum status run(const struct subcommand *subcommand, const struct call *call)
{
    const char *wrong = kelubashi_selfcheck();
    enum status status, written;

    if (wrong != NULL) {
        say("the self-check failed: %s", wrong);
        return UNSOUND;
    }
    status = subcommand->run(call);
    written = finish_output();
    return written == ALL_WELL ? status : written;
}

/* The words after the subcommand's name. */
static enum status understand(const struct subcommand *subcommand, int count, char **words)
{
    struct call call;

    switch (take_words(subcommand, count, words, &call)) {
    case WORDS_ASK_FOR_HELP:
        return help_of(subcommand);
    case WORDS_GOOD:
        return run(subcommand, &call);
    default:
        return NOT_DONE;
    }
}

/*
**  A standard stream that is closed gets one that can be neither read nor written: so no file that is
**  opened later takes its number, and its use fails as it should.
*/
static void hold_standard_streams(void)
{
    int stream;

    for (stream = STDIN_FILENO; stream <= STDERR_FILENO; stream++)
        if (fcntl(stream, F_GETFD) == -1 && errno == EBADF &&
            open("/dev/null", stream == STDIN_FILENO ? O_WRONLY : O_RDONLY) == -1)
            return;
}

/* What the words of the whole call ask for. */
static enum status serve(int count, char **words)
{
    const struct subcommand *subcommand;

    if (count < 2)
        return not_understood(NULL);
    if (strcmp(words[1], "--help") == 0 && count == 2)
        return help();
    if (strcmp(words[1], "--version") == 0 && count == 2)
        return version();
    subcommand = subcommand_of(words[1]);
    if (subcommand == NULL)
        return not_understood(words[1]);
    speak_as(subcommand->name);
    return understand(subcommand, count - 1, words + 1);
}

int main(int count, char **words)
{
    hold_standard_streams();
    gather_output();
    /* what these would end without a word is told as a failed write */
    signal(SIGPIPE, SIG_IGN);
    signal(SIGXFSZ, SIG_IGN);
    return (int)serve(count, words);
}
