/* What the layers promise one another: bits and root; series, with the
 * revolutions that come off before them; search; states and partials; files. */
#ifndef PARTS_H
#define PARTS_H

#include <float.h>
#include <stddef.h>
#include <stdint.h>

#if defined(FLT_EVAL_METHOD)
#if FLT_EVAL_METHOD < 0 || FLT_EVAL_METHOD == 1 || FLT_EVAL_METHOD == 2
#error "every operation must round once, to binary64"
#endif
#endif

/* The number of a wrong answer run; all other numbers are the document's. */
#define WRONG_ANSWER_RUN 60u

/* ---- bits and root ---- */

double sec_double(uint64_t word);
uint64_t sec_word(double value);
double sec_flip(double value);   /* the sign bit turned round */
double sec_size(double value);   /* the sign bit cleared */
int sec_negative(double value);  /* the sign bit is set */
int sec_finite(double value);    /* exponent field below 2047 */
int sec_zero(double value);      /* either zero */
int sec_nan(double value);
unsigned sec_root(double value, double *root); /* 0, or 9 and zero */

/* ---- initial figures and series ---- */

struct start {
    double mu;
    double position[3];
    double velocity[3];
    double whole;       /* tau, the interval that came in */
    double searched;    /* what is left of it, or all where nothing came off */
    double revolutions; /* n, those that came off, or a zero */
    double r0;
    double sigma0;
    double alpha;
    double h; /* of the searched interval */
};

struct coefficients {
    double c0, c1, c2, c3, c4, c5;
};

struct figures {
    struct coefficients c;
    double s1, s2, s3;
    double error;  /* R, the time error, of the searched interval */
    double radius; /* r */
};

/* The eight doubles in: mu, x, y, z, vx, vy, vz, tau; 0, or refusal 31 to 38,
 * 3 or 4.  Where 4 is given by H alone, all of the start is there. */
unsigned sec_start(const double eight[8], struct start *s);
double sec_length(const struct start *s, double psi); /* L, before reducing */
struct coefficients sec_coefficients(double length);  /* for a finite L */
struct figures sec_figures(const struct start *s, double psi);

/* ---- whole revolutions ---- */

double sec_floor(double value);
double sec_period(double mu, double alpha); /* P, for an alpha below zero */
double sec_turn(double alpha);              /* Q, likewise */
/* From mu, alpha and the whole interval, what came off and what is searched. */
void sec_unwind(struct start *s);
int sec_unwound(const struct start *s); /* some came off */
/* The whole anomaly of the psi found, where some came off. */
double sec_whole_psi(const struct start *s, double psi);

/* The figures of the whole anomaly. */
struct whole {
    double psi;
    double s3, s4, s5;
    double u; /* U */
};

/* They, from those at the psi found. */
struct whole sec_wound(const struct start *s, const struct figures *at,
                       double psi);

/* ---- search ---- */

enum sort { SHORT, PAST, EXACT, UNREADABLE };

/* A trial point; psi, error and radius are of no use where it is unreadable. */
struct point {
    enum sort sort;
    uint64_t place;
    double psi;
    double error;
    double radius;
};

uint64_t sec_place(double psi); /* the bits of its size */
/* The point at a place; its psi has the sign of the searched interval, which
 * is no zero. */
struct point sec_sorted(const struct start *s, uint64_t place);
/* T-01: the one of the two that is answered, low short and high past. */
const struct point *sec_nearer(const struct point *low,
                               const struct point *high);

struct found {
    unsigned refusal; /* 0, 5 or 6 */
    uint64_t points;
    double psi;
};

struct found sec_search(const struct start *s);

/* ---- states and partials ---- */

struct answer {
    unsigned refusal;
    uint64_t points;
    double position[3];
    double velocity[3];
    double end_acceleration[3];
    double start_acceleration[3];
    double psi;
};

/* What is answered at a readable anomaly, without partials and with points 0;
 * the refusal is 0, 7 or 8. */
struct answer sec_results(const struct start *s, double psi);
/* The fifteen words of an answer; the first eleven are a result row. */
void sec_put(const struct answer *a, uint64_t words[15]);

/* partials is null when they are not asked for; else room for 36, filled
 * only when nothing is refused. */
struct answer sec_propagate(const double eight[8], double *partials);

/* ---- files ---- */

/* A refusal's number, or 0, with its place. */
struct refusal {
    uint64_t number;
    uint64_t place;
};

/* The reader's way through the bytes; place never passes len. */
struct walk {
    const uint8_t *file;
    uint64_t len;
    uint64_t place;
    struct refusal refusal;
};

uint64_t sec_word_at(const uint8_t *bytes, uint64_t place);
struct refusal sec_say(uint64_t number, uint64_t place);
struct walk sec_walk(const uint8_t *file, uint64_t len); /* at its first byte */
int sec_refuse(struct walk *w, uint64_t number, uint64_t place); /* 0 */
/* Each of these answers 1 and the walk goes on, or 0 with the refusal noted. */
int sec_take_word(struct walk *w, uint64_t *word);
int sec_take_edition(struct walk *w, uint64_t edition);
int sec_take_count(struct walk *w, uint64_t limit, uint64_t *count);
int sec_take_floats(struct walk *w, uint64_t count);
int sec_take_end(struct walk *w);

#endif
