/*
**  The formats of files, as tables: an element file's by its edition, a result file's, and that of a file of rows. Who reads or
**  makes a record walks its columns here, and so an edition more is a table more.
*/
#ifndef FORMATS_H
#define FORMATS_H

#include "kelubashi.h"

/* What a word of a record is. */
enum kind {
    NUMBER,     /* the number of a record of another section, from 0 */
    WHOLE,      /* another whole number */
    FIGURE      /* the word of a double */
};

/* A unit, and the column that its figures have where they are shown in a table: the width, and the digits behind the point. */
struct unit {
    const char *name;
    int width, digits;
};

/* The columns that there are; those from x to vz stand together in every record that has them. */
enum column {
    COLUMN_CENTRE, COLUMN_STATE, COLUMN_MU, COLUMN_EPOCH, COLUMN_TIME,
    COLUMN_X, COLUMN_Y, COLUMN_Z, COLUMN_VX, COLUMN_VY, COLUMN_VZ,
    COLUMN_REFUSAL, COLUMN_POINTS, COLUMN_AX, COLUMN_AY, COLUMN_AZ,
    COLUMN_TAU, COLUMN_PSI, COLUMN_END_X, COLUMN_END_Y, COLUMN_END_Z, COLUMN_END_VX, COLUMN_END_VY, COLUMN_END_VZ,
    COLUMN_END_AX, COLUMN_END_AY, COLUMN_END_AZ,

    COLUMNS
};

struct about {
    enum kind kind;
    const char *article;        /* before its name in a sentence: "the ", or none */
    const char *name;
    const struct unit *unit;    /* a null pointer where it has none */
};

/* All that is to be said of a column, by its name above. */
extern const struct about ABOUT[COLUMNS];

/* A section: a count, then so many records of these columns. */
struct section {
    const char *name;           /* of one record */
    size_t limit;               /* of the count */
    size_t width;               /* columns, and so words of a record */
    const enum column *columns;
};

/* The sections of an element file. */
enum { CENTRES, STATES, REQUESTS, SECTIONS };

/* A file: its edition, or 0 where it has no word for one, then its sections. */
struct layout {
    uint64_t edition;
    size_t sections;
    struct section section[SECTIONS];
};

/* Room that is enough for any edition of an element file. */
enum {
    MOST_RECORDS = KELUBASHI_MOST_REQUESTS + 1,                         /* of a section, and one beyond the limit */
    MOST_WIDTH = KELUBASHI_STATE,                                       /* words of a record */
    MOST_WORDS = (KELUBASHI_MOST_STATES + 1) * KELUBASHI_STATE          /* of a section, and one record beyond the limit */
};

/* The layout of element files of an edition; the first's for one that there is none of, in which nothing is read behind the edition. */
const struct layout *elements_layout(uint64_t edition);

extern const struct layout RESULTS_LAYOUT, ROWS_LAYOUT;

/* Which of the words of a record this column is, from 0; the width where it is none of them. */
size_t word_number(const struct section *section, enum column column);

#endif
