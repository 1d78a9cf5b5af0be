/*
**  What a subcommand of kelubashi is. To add one: a file that defines a struct subcommand, its name
**  below, and its line in the table of main.c.
*/
#ifndef COMMAND_H
#define COMMAND_H

/* The exit statuses, the same for every subcommand. */
enum status {
    ALL_WELL = 0,
    SOMETHING_AMISS = 1,    /* done, but something is refused, not accepted, moved or left over */
    NOT_DONE = 2,           /* cannot read, write, or understand the call */
    UNSOUND = 3             /* the self-check failed */
};

/* A call of a subcommand, taken apart. */
struct call {
    char **operands;
    int operand_count;
    const char *output;     /* the name after -o, or a null pointer */
    int quiet;              /* -q: say nothing but trouble */
    int any_bits;           /* --any-bits */
    int all;                /* --all */
    const char *from;       /* the word after --from, or a null pointer */
};

/* What a subcommand takes besides: options of a whole word, and any number of operands more. */
enum { TAKES_ANY_BITS = 1, TAKES_FROM = 2, TAKES_ALL = 4, TAKES_MORE = 8 };

struct subcommand {
    const char *name;
    const char *takes;      /* its operands and options, as the usage line has them */
    const char *does;       /* a line for kelubashi --help */
    const char *help;       /* the lines of its own --help, below the usage */
    int operands;           /* how many it takes; with TAKES_MORE, how many at least */
    const char *letters;    /* its options, as getopt takes them */
    int besides;            /* what it takes besides: TAKES_ANY_BITS and so on */
    enum status (*run)(const struct call *call);
};

extern const struct subcommand results_subcommand;
extern const struct subcommand show_subcommand;
extern const struct subcommand elements_subcommand;
extern const struct subcommand read_subcommand;
extern const struct subcommand centres_subcommand;
extern const struct subcommand check_subcommand;
extern const struct subcommand rows_subcommand;
extern const struct subcommand compare_subcommand;
extern const struct subcommand state_subcommand;
extern const struct subcommand selfcheck_subcommand;

#endif
