/* What the parts of the self-test share. */
#ifndef SELFTEST_H
#define SELFTEST_H

#include <stddef.h>
#include <stdint.h>

#define ONE 0x3FF0000000000000u
#define MINUS_ZERO 0x8000000000000000u
#define NAN_WORD 0x7FF8000000000000u
#define INFINITE_WORD 0x7FF0000000000000u
#define MINUS_INFINITE 0xFFF0000000000000u
#define LARGEST 0x7FEFFFFFFFFFFFFFu /* of the finite doubles */
#define KEPT 0xA5A5A5A5A5A5A5A5u /* what lent words hold before a call */

/* Counts a check, and tells of it when it does not hold. */
void check(int holds, const char *what);
/* Ends a group of checks with a line that counts them. */
void group(const char *name);

uint64_t chance(void);
double between(double low, double high);

uint64_t propagate(const double e[8], uint64_t answer[15]);
uint64_t partials(const double e[8], uint64_t answer[15],
                  uint64_t *run, size_t k);
void expect_refusal(const double e[8], uint64_t number, uint64_t points,
                    const char *what);

void fill(uint64_t *run, size_t count);
int kept(const uint64_t *run, size_t count);
int kept_bytes(const uint8_t *run, size_t count);
uint64_t get64(const uint8_t *at); /* a file's word */
void put64(uint8_t *at, uint64_t word);

/* A random start: kind 0 ellipse, 1 hyperbola, 2 repelling, 3 no pull. */
void orbit(double e[8], int kind, double mu, double r);
/* How far a psi, by its word, is past the searched interval: below zero where
 * it is short, and NaN where it is unreadable. */
struct start;
double beyond(const struct start *s, uint64_t psi);
/* The period of an ellipse, by Kepler's third law from its major axis. */
double turn_time(const double e[8]);

/* The groups, by what they are about. */
void selftest_root(void);
void selftest_calls(void);
void selftest_search(void);
void selftest_revolutions(void);
void selftest_turns(void);
void selftest_orbits(void);
void selftest_files(void);
void selftest_summary(void);
void selftest_changes(void);
void selftest_refused(void);
void selftest_bad(void);
void selftest_rows(void);
void selftest_checked(void);
void selftest_anomaly(void);
void selftest_edges(void);
void selftest_row_file(void);
void selftest_steps(void);
void selftest_compare(void);
void selftest_two_files(void);

#endif
