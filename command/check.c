/*
**  kelubashi check: another station's rows, a line for each that is not accepted, with what our own call makes of its input.
*/
#include "command.h"
#include "parts/row_file.h"
#include "parts/say.h"

#include <inttypes.h>
#include <math.h>
#include <stdio.h>

enum { FIGURES = KELUBASHI_CHECK_ROW - KELUBASHI_CHECK_X };

/*
**  Where our own call refuses the row's input. 31 to 38, 3 and 4 are of the input itself, and no row of it is accepted; 5 to 8 are
**  of our search and of the figures at what it finds, and another anomaly may be accepted all the same.
*/
static void show_refusal(uint64_t refusal)
{
    int of_answer = refusal >= 5 && refusal <= 8;

    printf(of_answer ? "; our own answer to its input is " : ": its input is ");
    put_refused(stdout, refusal);
}

/* Where the anomaly is another than ours. One that is finite and of our sign need not be at fault: an input may have several. */
static void show_anomaly(uint64_t theirs, uint64_t ours)
{
    double psi = kelubashi_figure(theirs), our_psi = kelubashi_figure(ours);

    if (!isfinite(psi))
        printf(": its psi is %.17g s/km, not finite, and ours %.17g s/km\n", psi, our_psi);
    else if (theirs >> 63 != ours >> 63)
        printf(": its psi is %.17g s/km, of the other sign, and ours %.17g s/km\n", psi, our_psi);
    else
        printf("; its psi is %.17g s/km, and ours %.17g s/km; places apart: %" PRIu64 "\n", psi, our_psi,
               theirs > ours ? theirs - ours : ours - theirs);
}

/* Where the anomaly is ours, and so the figures are at fault: the first that is another than ours, and how many are. */
static void show_figures(const uint64_t *theirs, const uint64_t *ours)
{
    size_t word, first = KELUBASHI_CHECK_X, differ = 0;
    const struct about *about;

    for (word = KELUBASHI_CHECK_ROW; word-- > KELUBASHI_CHECK_X;)
        if (theirs[word] != ours[word]) {
            first = word;
            differ++;
        }
    about = &ABOUT[row_column(first)];
    if (differ == 0)
        printf(", though it is our own answer word for word: the library contradicts itself: install it anew\n");
    else
        printf(": its psi is ours, but %s is %.17g %s, and ours %.17g %s; figures that differ: %lu of %d\n",
               about->name, kelubashi_figure(theirs[first]), about->unit->name, kelubashi_figure(ours[first]), about->unit->name,
               (unsigned long)differ, (int)FIGURES);
}

static void show_row(const struct row_file *rows, size_t row)
{
    uint64_t theirs[KELUBASHI_CHECK_ROW], ours[KELUBASHI_CHECK_ROW];
    uint64_t refusal;

    copy_row(rows, row, theirs);
    copy_row(rows, row, ours);
    refusal = answer_row(ours);
    printf("row %lu: not accepted", (unsigned long)row);
    if (refusal != 0)
        show_refusal(refusal);
    else if (theirs[KELUBASHI_CHECK_PSI] != ours[KELUBASHI_CHECK_PSI])
        show_anomaly(theirs[KELUBASHI_CHECK_PSI], ours[KELUBASHI_CHECK_PSI]);
    else
        show_figures(theirs, ours);
}

static enum status run(const struct call *call)
{
    static struct row_file rows;
    size_t row, accepted = 0;

    if (!take_rows(call->operands[0], &rows))
        return NOT_DONE;
    for (row = 0; row < row_count(&rows); row++)
        if (is_accepted(&rows, row))
            accepted++;
        else
            show_row(&rows, row);
    if (!call->quiet)
        printf("%s: rows %lu: accepted %lu, not accepted %lu\n", rows.name, (unsigned long)row_count(&rows),
               (unsigned long)accepted, (unsigned long)(row_count(&rows) - accepted));
    return accepted == row_count(&rows) ? ALL_WELL : SOMETHING_AMISS;
}

const struct subcommand check_subcommand = {
    "check", "ROWS", "another station's rows: which are accepted",
    "Has the library check each row of the file ROWS: whether the anomaly is one of its input, and the nine figures\n"
    "are those at that anomaly, bit for bit. A row that is not accepted gets a line: what our own call makes of its\n"
    "input, the refusal, or our anomaly where it is another, or the first figure that is another. The last line counts.\n"
    "With -q the rows that are not accepted alone are shown.\n",
    1, "q", 0, run
};
