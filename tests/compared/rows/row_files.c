#include "row_files.h"

#include "compared/shared/drive.h"

/* The limit and numbers beside it, and words that a careless width or sign takes for others. */
static const uint64_t specials[] = {
    401, 0, 1, 2, 3, 4, 399, 400, 402, 255, 256, 657, 65536 + 2, UINT64_C(0x0000000100000002), UINT64_C(0x8000000000000002),
    UINT64_C(0xFFFFFFFFFFFFFFFF), UINT64_C(0x7FFFFFFFFFFFFFFF), UINT64_C(0x4000000000000000), UINT64_C(0x0200000000000000),
    UINT64_C(0x01C71C71C71C71C9), UINT64_C(0x0E38E38E38E38E39), UINT64_C(0x1C71C71C71C71C72), UINT64_C(0x4010000000000000),
};
#define SPECIALS (sizeof specials / sizeof specials[0])

static size_t place_of(uint64_t which)
{
    return 8 + ROW_BYTES * (size_t)which;
}

void take_row(const struct file *f, uint64_t which, uint64_t *row)
{
    size_t i;

    for (i = 0; i < ROW_WORDS; i++)
        row[i] = word_at(f, place_of(which) + 8 * i);
}

void set_row(struct file *f, uint64_t which, const uint64_t *row)
{
    size_t i;

    for (i = 0; i < ROW_WORDS; i++)
        put_word(f, place_of(which) + 8 * i, row[i]);
}

/* ---- files ---- */

/* A file of so many rows, which are two at the most, again and again: accepted ones, and changed ones between them. */
static void rows_of(struct file *f, uint64_t count)
{
    uint64_t rows[2][ROW_WORDS], i;

    own_row(rows[0], 0);
    one_bit_row(rows[1], any_word());
    put_word(f, 0, count);
    f->length = place_of(count);
    for (i = 0; i < count; i++)
        set_row(f, i, rows[one_in(3)]);
}

/* Counts at the limits, those beside them, and small ones. */
static void counts(struct file *f, uint64_t turn)
{
    static const uint64_t counts[] = { 0, 400, 1, 399, 2, 401, 3, 8 };

    rows_of(f, counts[turn % 8]);
}

/* Every cut of two rows, the empty one among them. */
static void cut(struct file *f, uint64_t turn)
{
    rows_of(f, 2);
    f->length = turn % (f->length + 1);
}

/* Near the end of 400 rows, or at any word's edge and beside it. */
static void long_cut(struct file *f, uint64_t turn)
{
    size_t edge;

    rows_of(f, 400);
    edge = 8 * any_below(f->length / 8);
    f->length = turn % 2 ? f->length - 1 - turn / 2 % 20 : edge + turn / 2 % 3;
}

/* From 1 to 17 bytes behind the rows, and behind few of them at times so many that 16 bits would take the length for that of a cut. */
static void longer(struct file *f, uint64_t turn)
{
    static const uint64_t counts[] = { 400, 0, 1, 2, 2, 2, 2, 2 };
    size_t end;

    rows_of(f, counts[turn % 8]);
    end = turn % 8 != 0 && one_in(9) ? 65536 + any_below(f->length + 1) : f->length + 1 + turn / 8 % 17;
    for (; f->length < end; f->length++)
        f->bytes[f->length] = (uint8_t)any_word();
}

/* Another count before two rows, and then at times broken off or longer. */
static void counted(struct file *f, uint64_t turn)
{
    rows_of(f, 2);
    put_word(f, 0, specials[turn % SPECIALS]);
    if (one_in(3))
        f->length = any_below(f->length + 9);
}

/* Any bytes, behind a small count and a sound beginning of any length. */
static void any_bytes(struct file *f, uint64_t turn)
{
    size_t i;

    rows_of(f, turn % 4);
    for (i = 8 * any_below(f->length / 8 + 1); i < f->length; i++)
        f->bytes[i] = (uint8_t)any_word();
    if (one_in(4))
        f->length = any_below(f->length + 1);
}

/* ---- the families ---- */

static const struct row_family rows[] = {
    { { "own rows", 14 }, 1, own_row, NULL },
    { { "other searches", 8 }, 1, other_search_row, NULL },
    { { "5 or 6 for us", 2 }, 1, unsearchable_row, NULL },
    { { "a word by a place", 10 }, 0, one_place_row, NULL },
    { { "a word by a bit", 12 }, 0, one_bit_row, NULL },
    { { "an input by a place", 4 }, 0, moved_input_row, NULL },
    { { "psi moved", 12 }, 0, moved_psi_row, NULL },
    { { "psi turned", 4 }, 0, turned_psi_row, NULL },
    { { "psi beside noise", 8 }, 0, near_psi_row, NULL },
    { { "psi far out", 4 }, 0, far_psi_row, NULL },
    { { "psi beyond a NaN", 1 }, 0, beyond_nan_row, NULL },
    { { "psi of the whole interval", 2 }, 0, whole_psi_row, NULL },
    { { "zeros turned", 6 }, 0, zero_row, NULL },
    { { "tau zero", 4 }, 0, no_interval_row, NULL },
    { { "nothing left", 4 }, 0, nothing_left_row, NULL },
    { { "refused inputs", 8 }, 0, refused_row, NULL },
    { { "large H", 2 }, 0, large_h_row, NULL },
    { { "no results", 4 }, 0, no_results_row, NULL },
    { { "any bits", 4 }, 0, any_bits_row, NULL },
    { { "counts", 1 }, 0, NULL, counts },
    { { "cuts", 8 }, 0, NULL, cut },
    { { "long cuts", 1 }, 0, NULL, long_cut },
    { { "bytes behind", 4 }, 0, NULL, longer },
    { { "counts replaced", 4 }, 0, NULL, counted },
    { { "any bytes", 3 }, 0, NULL, any_bytes },
};

#define FAMILIES (sizeof rows / sizeof rows[0])

static uint64_t seen[FAMILIES];
static const struct families families = { rows, sizeof rows[0], FAMILIES, seen };

const struct row_family *row_family(uint64_t number, uint64_t *turn)
{
    return &rows[family_of(&families, number, turn)];
}

/* Two rows of a family in a file, so that a program that goes on from the one to the other is seen. */
void make_rows(const struct row_family *family, struct file *f, uint64_t turn)
{
    uint64_t row[ROW_WORDS], i;

    if (family->file != NULL) {
        family->file(f, turn);
        return;
    }
    put_word(f, 0, 2);
    f->length = place_of(2);
    for (i = 0; i < 2; i++) {
        family->row(row, 2 * turn + i);
        set_row(f, i, row);
    }
}

void row_families_tell(void)
{
    families_tell(&families);
}
