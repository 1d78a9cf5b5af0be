/* Self-test: the document's marked cases, its "Run:" cases, every bad figure,
 * every refusal of the files and of the summary, the physics on random orbits,
 * rows to be checked, right ones and wrong ones, and files to be compared.
 * Expectations come from the documents' rules and from mechanics, never from a
 * run of this program. */
#include "selftest.h"

#include "second/parts.h"
#include "second/second.h"

#include <math.h>
#include <stdio.h>
#include <string.h>

static unsigned long checks, faults;

void check(int holds, const char *what)
{
    checks++;
    if (!holds) {
        faults++;
        if (faults <= 40)
            printf("FAULT: %s\n", what);
    }
}

void group(const char *name)
{
    static unsigned long before, before_faults;

    printf("%-46s %9lu checks, %lu faults\n", name, checks - before,
           faults - before_faults);
    before = checks;
    before_faults = faults;
}

/* ---- chance ---- */

static uint64_t seed = 88172645463325252u;

uint64_t chance(void)
{
    seed ^= seed << 13;
    seed ^= seed >> 7;
    seed ^= seed << 17;
    return seed;
}

double between(double low, double high)
{
    return low + (high - low) * ((double)(chance() >> 11) * ldexp(1.0, -53));
}

/* ---- calls on doubles ---- */

/* T-05: 2 is given no more, whatever comes in. */
static uint64_t never_two(uint64_t number, const uint64_t answer[15])
{
    check(number != 2 && answer[0] != 2, "2 is given");
    return number;
}

uint64_t propagate(const double e[8], uint64_t answer[15])
{
    uint64_t number =
        second_propagate(sec_word(e[0]), sec_word(e[1]), sec_word(e[2]),
                         sec_word(e[3]), sec_word(e[4]), sec_word(e[5]),
                         sec_word(e[6]), sec_word(e[7]), answer, 15);

    return never_two(number, answer);
}

uint64_t partials(const double e[8], uint64_t answer[15],
                         uint64_t *run, size_t k)
{
    uint64_t number =
        second_partials(sec_word(e[0]), sec_word(e[1]), sec_word(e[2]),
                        sec_word(e[3]), sec_word(e[4]), sec_word(e[5]),
                        sec_word(e[6]), sec_word(e[7]), answer, 15, run, k);

    return never_two(number, answer);
}

void fill(uint64_t *run, size_t count)
{
    size_t i;

    for (i = 0; i < count; i++)
        run[i] = KEPT;
}

int kept(const uint64_t *run, size_t count)
{
    size_t i;

    for (i = 0; i < count; i++)
        if (run[i] != KEPT)
            return 0;
    return 1;
}

int kept_bytes(const uint8_t *run, size_t count)
{
    size_t i;

    for (i = 0; i < count; i++)
        if (run[i] != 0xA5)
            return 0;
    return 1;
}

/* A refusal in both calls: number, points, all else +0, lent run kept. */
void expect_refusal(const double e[8], uint64_t number,
                           uint64_t points, const char *what)
{
    uint64_t a[15], b[15], run[36];
    int i, zeros = 1;

    fill(a, 15);
    fill(run, 36);
    check(propagate(e, a) == number, what);
    check(a[0] == number && a[1] == points, what);
    for (i = 2; i < 15; i++)
        zeros = zeros && a[i] == 0;
    check(zeros, what);
    check(partials(e, b, run, 36) == number, what);
    check(memcmp(a, b, sizeof a) == 0 && kept(run, 36), what);
}

int main(void)
{
    printf("second program, its self-test:\n");
    selftest_root();
    selftest_calls();
    selftest_search();
    selftest_revolutions();
    selftest_turns();
    selftest_orbits();
    selftest_files();
    selftest_summary();
    selftest_changes();
    selftest_refused();
    selftest_bad();
    selftest_rows();
    selftest_checked();
    selftest_anomaly();
    selftest_edges();
    selftest_row_file();
    selftest_steps();
    selftest_compare();
    selftest_two_files();
    printf("second program: %lu checks, %lu faults\n", checks, faults);
    return faults != 0;
}
