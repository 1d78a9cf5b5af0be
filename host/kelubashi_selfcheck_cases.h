/*
**  The cases of the self-check: what is asked, and what is right. kelubashi_selfcheck.c, which alone includes this, asks them.
**
**  What is expected is the documents', or the second program's (tests/second) where a case has a name
**  instead of a number. It never was the library's own answer.
*/
#ifndef KELUBASHI_SELFCHECK_CASES_H
#define KELUBASHI_SELFCHECK_CASES_H

#include "kelubashi.h"

#define W(digits) UINT64_C(0x##digits)

#define LENT W(5EED5EED5EED5EED)    /* what a lent word holds before a call */

/* ---- roots ---- */

static const struct root {
    const char *name;
    uint64_t given;
    uint64_t status;
    uint64_t right;
} ROOTS[] = {
    { "P1", W(4010000000000000), 0, W(4000000000000000) },
    { "P2", W(4002000000000000), 0, W(3FF8000000000000) },
    { "P3", W(0000000000000001), 0, W(1E60000000000000) },
    { "P4", W(BFF0000000000000), 9, 0 },
    { "the root of 2", W(4000000000000000), 0, W(3FF6A09E667F3BCD) },
    { "the root of the largest subnormal", W(000FFFFFFFFFFFFF), 0, W(1FFFFFFFFFFFFFFF) }
};

/* ---- orbits ---- */

#define MINUS_ZERO W(8000000000000000)

/* mu 398600.4418, at 1131.340 -2282.343 6672.423 with -5.64305 4.30333 2.42879 */
#define LOW_EARTH W(41185421C467381D), W(4091AD5C28F5C28F), W(C0A1D4AF9DB22D0E), W(40BA106C49BA5E35), \
                  W(C016927BB2FEC56D), W(4011369C23B7952D), W(40036E297396D091)

static const struct orbit {
    const char *name;
    uint64_t given[8];                  /* mu, x y z, vx vy vz, tau */
    uint64_t right[KELUBASHI_ANSWER];   /* the first is the status too */
} ORBITS[] = {
    { "P6", { 0, 0, 0, 0, 0, 0, 0, 0 }, { 3, 0, 0, 0, 0, 0, 0, 0, 0, 0, 0, 0, 0, 0, 0 } },
    { "P7", { 0, W(7FF8000000000000), 0, 0, 0, 0, 0, 0 }, { 32, 0, 0, 0, 0, 0, 0, 0, 0, 0, 0, 0, 0, 0, 0 } },
    { "P8", { 0, W(1A70000000000000), 0, 0, 0, 0, 0, 0 }, { 3, 0, 0, 0, 0, 0, 0, 0, 0, 0, 0, 0, 0, 0, 0 } },
    { "P9", { 0, W(6570000000000000), 0, 0, 0, 0, 0, 0 }, { 4, 0, 0, 0, 0, 0, 0, 0, 0, 0, 0, 0, 0, 0, 0 } },
    { "P10", { 0, W(3FF0000000000000), 0, 0, 0, 0, 0, W(3FF0000000000000) },
      { 0, 21, W(3FF0000000000000), 0, 0, 0, 0, 0, MINUS_ZERO, MINUS_ZERO, MINUS_ZERO,
        MINUS_ZERO, MINUS_ZERO, MINUS_ZERO, W(3FF0000000000000) } },
    { "P11", { 0, W(3FF0000000000000), 0, 0, 0, 0, 0, W(BFF0000000000000) },
      { 0, 21, W(3FF0000000000000), 0, 0, 0, 0, 0, MINUS_ZERO, MINUS_ZERO, MINUS_ZERO,
        MINUS_ZERO, MINUS_ZERO, MINUS_ZERO, W(BFF0000000000000) } },
    { "P12", { 0, W(3FF0000000000000), 0, 0, 0, W(5F30000000000000), 0, W(4270000000000000) },
      { 6, 1, 0, 0, 0, 0, 0, 0, 0, 0, 0, 0, 0, 0, 0 } },

    /* for 600 s */
    { "the low Earth orbit",
      { LOW_EARTH, W(4082C00000000000) },
      { 0, 32, W(C0A1989379B31134), W(4081C24D8E74FC38), W(40BA6D805027B3D1),
        W(C0150E62B9ED9113), W(40138A3372492FDB), W(C001008399837D4E),
        W(3F6417F40ABC4A15), W(BF44479A5505B8A2), W(BF7E2DCB015D1E5D),
        W(BF5447A4212919BD), W(3F6474C1D838DE06), W(BF7DE6D274723B3D), W(3FB57EB46E0E62BE) } },

    /* the same for 960 s: the outer of the last two neighbours has the smaller error, and is psi */
    { "the nearer end",
      { LOW_EARTH, W(408E000000000000) },
      { 0, 54, W(C0AED4E220B3B4BA), W(40A18CBB3B99CF0E), W(40B5AB4DEB3629CD),
        W(C01027950F66FB50), W(401150A2A52DD539), W(C0123DBF4759A2F4),
        W(3F717CFBF77CC45F), W(BF63E8B6FD30B6D4), W(BF78950F5E86CEB5),
        W(BF5447A4212919BD), W(3F6474C1D838DE06), W(BF7DE6D274723B3D), W(3FC12EC66FFED0D2) } },

    /* the same for a year, 31557600 s: 5,190 whole revolutions come off, and psi lies in what is left */
    { "whole revolutions",
      { LOW_EARTH, W(417E187E00000000) },
      { 0, 54, W(40B53F7605B2862A), W(C0B242116163E17A), W(407378AAD78947C8),
        W(BFF0367DC5C724FF), W(BFE343A5660F92F8), W(401D7A24D6345A51),
        W(BF7801D8FE091B5A), W(3F74A10ED7E8DF21), W(BF35FFFE305FE263),
        W(BF5447A4212919BD), W(3F6474C1D838DE06), W(BF7DE6D274723B3D), W(BFC4661E9275651D) } },

    /* mu 368 * 2^-1074, at 3 4 12 with vy 2^-1030, for 1 s: velocity and accelerations are subnormal */
    { "the subnormal orbit",
      { W(0000000000000170), W(4008000000000000), W(4010000000000000), W(4028000000000000),
        0, W(0000100000000000), 0, W(3FF0000000000000) },
      { 0, 21, W(4008000000000000), W(4010000000000000), W(4028000000000000), 0, W(0000100000000000), 0,
        W(8000000000000001), W(8000000000000001), W(8000000000000002),
        W(8000000000000001), W(8000000000000001), W(8000000000000002), W(3FB3B13B13B13B14) } },

    /* at rest at x = 1.5 without a force, for 2^-1074 s: at +0 s/km the time is as much short as it is past at 2^-1074 s/km */
    { "the tie", { 0, W(3FF8000000000000), 0, 0, 0, 0, 0, 1 },
      { 0, 3, W(3FF8000000000000), 0, 0, 0, 0, 0, MINUS_ZERO, MINUS_ZERO, MINUS_ZERO, MINUS_ZERO, MINUS_ZERO, MINUS_ZERO, 0 } }
};

/* Their numbers, where another case takes one up. */
enum { P7 = 1, P10 = 4, P11 = 5, LOW = 7, NEARER = 8, REVOLUTIONS = 9, SUBNORMAL = 10, TIE = 11 };

static const struct orbit *const LOW_ORBIT = &ORBITS[LOW];

/* ---- the low Earth orbit with NaNs from one of the eight on: that one is told ---- */

#define NAN_WORD W(7FF8000000000000)

static const char *const NANS[8] = {
    "NaNs from mu on", "NaNs from x on", "NaNs from y on", "NaNs from z on",
    "NaNs from vx on", "NaNs from vy on", "NaNs from vz on", "a NaN for tau"
};

/* ---- the partials of the low Earth orbit ---- */

static const uint64_t PARTIALS[KELUBASHI_PARTIALS] = {
    W(3FEA1E0A265B5CAE), W(BF70E20D50E051D8), W(BF7E24326AD10E00), W(40819BFE59373DDD), W(3FD0B964DE170850), W(C0244AEDF96F6A9E),
    W(BF79571FB16B916A), W(3FEAC1795129AA25), W(BFBB7B7A4A131451), W(3FAAA269434F49C0), W(4081A1B2758C2997), W(C02C75A48402C772),
    W(3F69058CE6914014), W(BFBDBE230B9FA328), W(3FF61E8DDE4E41AC), W(C0222E80228B0EC5), W(C02E3FE3C9FFD17E), W(408524B3F7585B25),
    W(BF42C1FA53B68FB6), W(3EDA68585A64D420), W(BF2B120F746BDD2C), W(3FEA9D4110B3BB0B), W(3F52EBDD7E9BD0D0), W(BFB9602A97BF66B1),
    W(BEE6034973FB8408), W(BF4268F63302C8AF), W(BF2C25F47AD9E55B), W(BF4DAD741BEE7D40), W(3FEA21F52ABCD73E), W(BF9EFAD0F271B66A),
    W(BF1FF0BB7A90D09A), W(BF32C7C26822B604), W(3F562AA64E17BCCF), W(BFB6B7200084A64A), W(BFA4005C9FBF77A0), W(3FF62E725EE51BB2)
};

/* ---- P10 as an element file, and its result file ---- */

enum { FILE_WORDS = 15, FILE_BYTES = 120, RESULT_WORDS = 13, REFUSED_WORDS = 3, ROOM = 128 };

static const uint64_t ELEMENTS[FILE_WORDS] = {
    1, 1, 0, 1, 0, 0, W(3FF0000000000000), 0, 0, 0, 0, 0, 1, 0, W(3FF0000000000000)
};

static const uint64_t RESULTS[RESULT_WORDS] = {
    1, 1, 0, 21, W(3FF0000000000000), 0, 0, 0, 0, 0, MINUS_ZERO, MINUS_ZERO, MINUS_ZERO
};

static const uint64_t REFUSED[REFUSED_WORDS] = { 1, 0, 21 };

/* ---- intervals, time less epoch ---- */

static const struct interval {
    const char *name;
    uint64_t time, epoch;
    uint64_t right;
} INTERVALS[] = {
    { "the interval from 5 s to 3 s", W(4008000000000000), W(4014000000000000), W(C000000000000000) },
    { "the interval from +0 s to -0 s", MINUS_ZERO, 0, MINUS_ZERO },
    /* 1 + 2^-52 and 2^-53 more: in the middle, and the double above is the even one */
    { "an interval in the middle of two doubles", W(3FF0000000000001), W(BCA0000000000000), W(3FF0000000000002) },
    { "a subnormal interval", W(0010000000000000), W(0000000000000001), W(000FFFFFFFFFFFFF) },
    { "an interval too large for a double", W(7FEFFFFFFFFFFFFF), W(FFEFFFFFFFFFFFFF), W(7FF0000000000000) },
    { "the interval of two infinite times", W(7FF0000000000000), W(7FF0000000000000), NAN_WORD },
    { "the interval from a NaN", W(3FF0000000000000), W(FFF0000000000005), NAN_WORD }
};

/* ---- rows of those orbits, as another station would send them, and such with one bit changed ---- */

static const struct checked {
    const char *name;
    int orbit;              /* of ORBITS */
    int word;               /* of the row */
    uint64_t bits;          /* of that word that are changed */
    uint64_t verdict;
} CHECKED[] = {
    { "P10's row", P10, 0, 0, 1 },
    { "P10's row with another bit of psi", P10, KELUBASHI_CHECK_PSI, 1, 0 },
    { "P10's row with another bit of x", P10, KELUBASHI_CHECK_X, 1, 0 },
    { "P10's row with +0 for -0", P10, KELUBASHI_CHECK_ROW - 1, MINUS_ZERO, 0 },
    { "P11's row", P11, 0, 0, 1 },
    { "P11's row with P10's psi", P11, KELUBASHI_CHECK_PSI, MINUS_ZERO, 0 },
    { "P7's row", P7, 0, 0, 0 },
    { "the tie's row", TIE, 0, 0, 1 },
    { "the tie's row with the past end", TIE, KELUBASHI_CHECK_PSI, 1, 0 },
    { "the low Earth orbit's row", LOW, 0, 0, 1 },
    { "the low Earth orbit's row with another bit of tau", LOW, 7, 1, 0 },
    { "the row of the nearer end", NEARER, 0, 0, 1 },
    { "the row of whole revolutions", REVOLUTIONS, 0, 0, 1 },
    { "the subnormal orbit's row", SUBNORMAL, 0, 0, 1 }
};

enum { CHECKED_ROWS = sizeof CHECKED / sizeof CHECKED[0], CHECKED_BYTES = 8 + 8 * KELUBASHI_CHECK_ROW * CHECKED_ROWS };

/* ---- result files of P10's row again and again, with one word of each row other on either side ---- */

#define LARGEST W(7FEFFFFFFFFFFFFF)
#define INFINITY_WORD W(7FF0000000000000)

#define ANSWERED(kind) KELUBASHI_ROW_ANSWERED, KELUBASHI_FIGURE_##kind

static const struct compared {
    const char *name;
    int word;                       /* of the row */
    uint64_t left, right;           /* what stands there */
    uint64_t row, figure, distance; /* what is told of the row and, where it is answered, of that word */
} COMPARED[] = {
    { "equal rows", KELUBASHI_X, W(3FF0000000000000), W(3FF0000000000000), ANSWERED(DISTANCE), 0 },
    { "rows with other points", KELUBASHI_POINTS, 21, 22, ANSWERED(DISTANCE), 0 },
    { "a figure by a place", KELUBASHI_X, W(3FF0000000000000), W(3FEFFFFFFFFFFFFF), ANSWERED(DISTANCE), 1 },
    { "both zeros", KELUBASHI_Y, 0, MINUS_ZERO, ANSWERED(DISTANCE), 0 },
    { "the figures beside zero", KELUBASHI_END_AZ, 1, MINUS_ZERO | 1, ANSWERED(DISTANCE), 2 },
    { "figures from end to end", KELUBASHI_VZ, MINUS_ZERO | LARGEST, LARGEST, ANSWERED(DISTANCE), 2 * LARGEST },
    { "figures from end to end again", KELUBASHI_Y, LARGEST, MINUS_ZERO | LARGEST, ANSWERED(DISTANCE), 2 * LARGEST },
    { "the largest figure and infinity", KELUBASHI_VX, LARGEST, INFINITY_WORD, ANSWERED(UNEQUAL), 0 },
    { "a NaN and itself", KELUBASHI_Z, NAN_WORD, NAN_WORD, ANSWERED(EQUAL), 0 },
    { "a row refused on the left", KELUBASHI_REFUSAL, 3, 0, KELUBASHI_ROW_LEFT_REFUSED, 0, 0 },
    { "a row refused on the right", KELUBASHI_REFUSAL, 0, W(100000000), KELUBASHI_ROW_RIGHT_REFUSED, 0, 0 },
    { "a row refused alike", KELUBASHI_REFUSAL, 32, 32, KELUBASHI_ROW_REFUSED_ALIKE, 0, 0 },
    { "a row refused with two numbers", KELUBASHI_REFUSAL, 3, 4, KELUBASHI_ROW_REFUSED_UNLIKE, 0, 0 }
};

enum { COMPARED_ROWS = sizeof COMPARED / sizeof COMPARED[0], COMPARED_BYTES = 16 + 8 * KELUBASHI_ROW * COMPARED_ROWS,
       TOLD_WORDS = KELUBASHI_COMPARED * COMPARED_ROWS, FIRST_LARGEST = 5 };

/* ---- a list kept beside the states of two centres: appended, refused, withdrawn, and worked out anew ---- */

enum { CENTRES = 2, LISTED = CENTRES * KELUBASHI_ENTRY, LOOKED_AT = 4 };    /* records that are looked at */

#define MINUS_INFINITY W(FFF0000000000000)

enum { AT_ZERO, AT_NAN, AT_MINUS_INFINITY, NO_CENTRE };

static const uint64_t RECORDS[][KELUBASHI_STATE] = {
    { 0, MINUS_ZERO, 11, 12, 13, 14, 15, 16 },
    { 1, NAN_WORD, 21, 22, 23, 24, 25, 26 },
    { 0, MINUS_INFINITY, 31, 32, 33, 34, 35, 36 },
    { CENTRES, 0, 41, 42, 43, 44, 45, 46 }
};

enum asked { APPEND, WITHDRAW, SUMMARY };

static const struct change {
    const char *name;
    enum asked asked;
    uint64_t which;                                 /* of RECORDS, or of the states in use */
    size_t words, listed;                           /* of the run, and of the list */
    uint64_t right[KELUBASHI_CHANGE_ANSWER];        /* the first is the status too */
    uint64_t entries[LISTED];
    int records[LOOKED_AT];                         /* of RECORDS, or -1 where the words are those lent */
} CHANGES[] = {
    { "a state at -0 s appended", APPEND, AT_ZERO, 4000, LISTED, { 0, 1 }, { 1, 0, 0, 0, LENT, LENT, LENT, LENT }, { AT_ZERO, -1, -1, -1 } },
    { "a state at a NaN appended", APPEND, AT_NAN, 4000, LISTED, { 0, 2 }, { 1, 0, 0, 0, 0, 1, 0, 0 }, { AT_ZERO, AT_NAN, -1, -1 } },
    { "an infinite epoch appended", APPEND, AT_MINUS_INFINITY, 4000, LISTED, { 0, 3 },
      { 2, 0, MINUS_INFINITY, 0, 0, 1, 0, 0 }, { AT_ZERO, AT_NAN, AT_MINUS_INFINITY, -1 } },
    { "a state of no centre", APPEND, NO_CENTRE, 4000, LISTED, { 24, 3 },
      { 2, 0, MINUS_INFINITY, 0, 0, 1, 0, 0 }, { AT_ZERO, AT_NAN, AT_MINUS_INFINITY, -1 } },
    { "the first state withdrawn", WITHDRAW, 0, 4000, LISTED, { 0, 2 },
      { 1, 0, MINUS_INFINITY, MINUS_INFINITY, 0, 1, 0, 0 }, { AT_NAN, AT_MINUS_INFINITY, AT_MINUS_INFINITY, -1 } },
    { "a state that is not there withdrawn", WITHDRAW, 2, 4000, LISTED, { 42, 2 },
      { 1, 0, MINUS_INFINITY, MINUS_INFINITY, 0, 1, 0, 0 }, { AT_NAN, AT_MINUS_INFINITY, AT_MINUS_INFINITY, -1 } },
    { "a summary of a run a word short", SUMMARY, 0, 3999, LISTED, { 27, 2 },
      { LENT, LENT, LENT, LENT, LENT, LENT, LENT, LENT }, { AT_NAN, AT_MINUS_INFINITY, AT_MINUS_INFINITY, -1 } },
    { "a summary to a list a word short", SUMMARY, 0, 4000, LISTED - 1, { 41, 2 },
      { LENT, LENT, LENT, LENT, LENT, LENT, LENT, LENT }, { AT_NAN, AT_MINUS_INFINITY, AT_MINUS_INFINITY, -1 } },
    { "a summary", SUMMARY, 0, 4000, LISTED, { 0, 2 },
      { 1, 0, MINUS_INFINITY, MINUS_INFINITY, 0, 1, 0, 0 }, { AT_NAN, AT_MINUS_INFINITY, AT_MINUS_INFINITY, -1 } }
};

#endif
