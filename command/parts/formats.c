#include "formats.h"

/* ---- columns ---- */

static const struct unit
    S = { "s", 15, 3 },
    KM = { "km", 15, 6 },
    KM_S = { "km/s", 13, 9 },
    KM3_S2 = { "km^3/s^2", 15, 4 },
    KM_S2 = { "km/s^2", 0, 0 },     /* no table has these two */
    S_KM = { "s/km", 0, 0 };

const struct about ABOUT[COLUMNS] = {
    [COLUMN_CENTRE] = { NUMBER, "the ", "centre", NULL },
    [COLUMN_STATE] = { NUMBER, "the ", "state", NULL },
    [COLUMN_MU] = { FIGURE, "", "mu", &KM3_S2 },
    [COLUMN_EPOCH] = { FIGURE, "the ", "epoch", &S },
    [COLUMN_TIME] = { FIGURE, "the ", "time", &S },
    [COLUMN_X] = { FIGURE, "", "x", &KM },
    [COLUMN_Y] = { FIGURE, "", "y", &KM },
    [COLUMN_Z] = { FIGURE, "", "z", &KM },
    [COLUMN_VX] = { FIGURE, "", "vx", &KM_S },
    [COLUMN_VY] = { FIGURE, "", "vy", &KM_S },
    [COLUMN_VZ] = { FIGURE, "", "vz", &KM_S },

    [COLUMN_REFUSAL] = { WHOLE, "the ", "refusal", NULL },
    [COLUMN_POINTS] = { WHOLE, "the ", "count of points", NULL },
    [COLUMN_AX] = { FIGURE, "", "ax", &KM_S2 },
    [COLUMN_AY] = { FIGURE, "", "ay", &KM_S2 },
    [COLUMN_AZ] = { FIGURE, "", "az", &KM_S2 },

    [COLUMN_TAU] = { FIGURE, "", "tau", &S },
    [COLUMN_PSI] = { FIGURE, "", "psi", &S_KM },
    [COLUMN_END_X] = { FIGURE, "", "end x", &KM },
    [COLUMN_END_Y] = { FIGURE, "", "end y", &KM },
    [COLUMN_END_Z] = { FIGURE, "", "end z", &KM },
    [COLUMN_END_VX] = { FIGURE, "", "end vx", &KM_S },
    [COLUMN_END_VY] = { FIGURE, "", "end vy", &KM_S },
    [COLUMN_END_VZ] = { FIGURE, "", "end vz", &KM_S },
    [COLUMN_END_AX] = { FIGURE, "", "end ax", &KM_S2 },
    [COLUMN_END_AY] = { FIGURE, "", "end ay", &KM_S2 },
    [COLUMN_END_AZ] = { FIGURE, "", "end az", &KM_S2 }
};

size_t word_number(const struct section *section, enum column column)
{
    size_t word = 0;

    while (word < section->width && section->columns[word] != column)
        word++;
    return word;
}

/* ---- records ---- */

#define POSITION_AND_VELOCITY COLUMN_X, COLUMN_Y, COLUMN_Z, COLUMN_VX, COLUMN_VY, COLUMN_VZ

static const enum column CENTRE[] = { COLUMN_MU };
static const enum column STATE_1[KELUBASHI_STATE] = { COLUMN_CENTRE, COLUMN_EPOCH, POSITION_AND_VELOCITY };
static const enum column REQUEST_1[KELUBASHI_REQUEST] = { COLUMN_STATE, COLUMN_TIME };

static const enum column RESULT_ROW[KELUBASHI_ROW] = {
    COLUMN_REFUSAL, COLUMN_POINTS, POSITION_AND_VELOCITY, COLUMN_AX, COLUMN_AY, COLUMN_AZ
};

static const enum column ROW[KELUBASHI_CHECK_ROW] = {
    COLUMN_MU, POSITION_AND_VELOCITY, COLUMN_TAU, COLUMN_PSI, COLUMN_END_X, COLUMN_END_Y, COLUMN_END_Z,
    COLUMN_END_VX, COLUMN_END_VY, COLUMN_END_VZ, COLUMN_END_AX, COLUMN_END_AY, COLUMN_END_AZ
};

/* ---- files ---- */

/* The width and the columns of a record. */
#define RECORD(columns) sizeof columns / sizeof columns[0], columns

static const struct layout ELEMENTS[] = {
    { 1, SECTIONS, {
        { "centre", KELUBASHI_MOST_CENTRES, RECORD(CENTRE) },
        { "state", KELUBASHI_MOST_STATES, RECORD(STATE_1) },
        { "request", KELUBASHI_MOST_REQUESTS, RECORD(REQUEST_1) }
    } }
};

const struct layout RESULTS_LAYOUT = { 1, 1, { { "row", KELUBASHI_MOST_REQUESTS, RECORD(RESULT_ROW) } } };
const struct layout ROWS_LAYOUT = { 0, 1, { { "row", KELUBASHI_MOST_CHECK_ROWS, RECORD(ROW) } } };

const struct layout *elements_layout(uint64_t edition)
{
    size_t i = sizeof ELEMENTS / sizeof ELEMENTS[0] - 1;

    while (i > 0 && ELEMENTS[i].edition != edition)
        i--;
    return &ELEMENTS[i];
}
