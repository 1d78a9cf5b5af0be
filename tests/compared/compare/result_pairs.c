#include "result_pairs.h"

#include <string.h>

#define SMALL_ROWS 3
#define SMALL_WORDS (2 + RESULT_ROW * SMALL_ROWS)

/* Limits and numbers beside them, and words that a careless width or sign takes for others. The bytes or words of so many rows, or of what is told of
   them, wrap around to those of few or none for the four rows of 2^64 parts; the last row is of doubles. */
static const uint64_t specials[] = {
    0, 1, 2, 3, 4, 255, 256, 257, 1499, 1500, 1501, 1502, 2048, 3000, 28500, 65536, 65536 + 3,
    UINT64_C(0x00000000FFFFFFFF), UINT64_C(0x0000000100000000), UINT64_C(0x0000000100000001), UINT64_C(0x0000000100000003),
    UINT64_C(0x0100000000000000), UINT64_C(0x8000000000000000), UINT64_C(0x7FFFFFFFFFFFFFFF), UINT64_C(0xFFFFFFFFFFFFFFFF), UINT64_C(0xFFFFFFFFFFFFFFFE),
    UINT64_C(0x2000000000000000), UINT64_C(0x2000000000000003), UINT64_C(0x4000000000000003), UINT64_C(0x6000000000000003), UINT64_C(0x8000000000000003),
    (UINT64_MAX - 15) / 88 - 1, (UINT64_MAX - 15) / 88, (UINT64_MAX - 15) / 88 + 1, (UINT64_MAX - 15) / 88 + 2, UINT64_MAX / 88, UINT64_MAX / 88 + 1,
    UINT64_MAX / 88 + 4, UINT64_MAX / 11, UINT64_MAX / 11 + 1, UINT64_MAX / 11 + 4, UINT64_MAX / 19, UINT64_MAX / 19 + 1, UINT64_MAX / 19 + 4,
    UINT64_MAX / 152, UINT64_MAX / 152 + 1, UINT64_MAX / 152 + 4,
    UINT64_C(0x3FF0000000000000), UINT64_C(0x7FF0000000000000), UINT64_C(0x7FF0000000000001), UINT64_C(0xFFF8000000000000),
};
#define SPECIALS (sizeof specials / sizeof specials[0])

/* ---- a word changed ---- */

/* Every bit of every word, the edition and the count among them. */
static void one_bit(struct pair *p, uint64_t turn)
{
    size_t place = 8 * (turn % SMALL_WORDS);

    own_pair(p, SMALL_ROWS);
    put_word(&p->right, place, word_at(&p->right, place) ^ UINT64_C(1) << turn / SMALL_WORDS % 64);
}

/* Every word by every special. */
static void replaced(struct pair *p, uint64_t turn)
{
    own_pair(p, SMALL_ROWS);
    put_word(&p->right, 8 * (turn % SMALL_WORDS), specials[turn / SMALL_WORDS % SPECIALS]);
}

/* ---- files at fault, by one damage on a side, on the other, or on both ---- */

typedef void (*damage)(struct file *file, uint64_t turn);

static void on_sides(struct pair *p, uint64_t turn, damage spoil)
{
    if (turn % 3 != 1)
        spoil(&p->right, turn / 3);
    if (turn % 3 != 0)
        spoil(&p->left, turn / 3);
}

static void add_bytes(struct file *f, size_t count)
{
    for (; count > 0; count--)
        f->bytes[f->length++] = (uint8_t)any_word();
}

/* Every cut, the empty one among them. */
static void cut(struct file *f, uint64_t turn)
{
    f->length = turn % (f->length + 1);
}

static void cuts(struct pair *p, uint64_t turn)
{
    own_pair(p, 2);
    on_sides(p, turn, cut);
}

/* Near the end, or at any word's edge and beside it. */
static void cut_late(struct file *f, uint64_t turn)
{
    size_t edge = 8 * any_below(f->length / 8);

    f->length = turn % 2 ? f->length - 1 - turn / 2 % 20 : edge + turn / 2 % 3;
}

static void long_cuts(struct pair *p, uint64_t turn)
{
    own_pair(p, MOST_RESULT_ROWS);
    on_sides(p, turn, cut_late);
}

/* By 1 to 17 bytes, by a row, or to a length that 16 bits take for a cut or for no fault. */
static void lengthen(struct file *f, uint64_t turn)
{
    size_t bytes = 1 + turn % 19;

    if (bytes == 18)
        bytes = 8 * RESULT_ROW;
    if (bytes == 19)
        bytes = 65536 - any_below(9);
    add_bytes(f, bytes);
}

static void longer(struct pair *p, uint64_t turn)
{
    own_pair(p, turn % (FEW_ROWS + 1));
    on_sides(p, turn, lengthen);
}

static void longer_long(struct pair *p, uint64_t turn)
{
    own_pair(p, MOST_RESULT_ROWS);
    on_sides(p, turn % (3 * 18), lengthen);     /* but for the longest, which the others have */
}

static void other_edition(struct file *f, uint64_t turn)
{
    put_word(f, 0, turn % 4 ? specials[turn / 4 % SPECIALS] : any_word());
}

static void editions(struct pair *p, uint64_t turn)
{
    own_pair(p, turn % (FEW_ROWS + 1));
    on_sides(p, turn, other_edition);
}

/* And then at times broken off or longer. */
static void other_count(struct file *f, uint64_t turn)
{
    put_word(f, 8, specials[turn % SPECIALS]);
    if (one_in(4))
        f->length = any_below(f->length + 1);
    else if (one_in(4))
        add_bytes(f, 1 + any_below(9));
}

static void counts(struct pair *p, uint64_t turn)
{
    own_pair(p, 1 + turn % 3);
    on_sides(p, turn, other_count);
}

/* "The three words of a refused file". */
static void three_words(struct file *f, uint64_t turn)
{
    f->length = 0;
    add_word(f, 1);
    add_word(f, 0);
    add_word(f, 21 + turn % 5);
}

static void refused_files(struct pair *p, uint64_t turn)
{
    own_pair(p, turn % 2 * (1 + turn % FEW_ROWS));
    on_sides(p, turn, three_words);
}

/* From a word on, and then at times broken off. */
static void any_bytes(struct file *f, uint64_t turn)
{
    size_t i;

    (void)turn;
    for (i = 8 * any_below(f->length / 8 + 1); i < f->length; i++)
        f->bytes[i] = (uint8_t)any_word();
    if (one_in(4))
        f->length = any_below(f->length + 1);
}

static void bytes(struct pair *p, uint64_t turn)
{
    own_pair(p, turn % (FEW_ROWS + 1));
    on_sides(p, turn, any_bytes);
}

/* Each side by a damage of its own, and of row counts that differ or do not: the left one is to be told. */
static void both_at_fault(struct pair *p, uint64_t turn)
{
    static const damage damages[] = { cut, lengthen, other_edition, other_count, three_words, any_bytes };
    uint64_t left = any_word() >> 8, right = any_word() >> 8;

    own_rows(&p->left, turn % FEW_ROWS);
    own_rows(&p->right, one_in(2) ? turn % FEW_ROWS : any_below(FEW_ROWS));
    damages[turn % 6](&p->left, left);
    damages[turn / 6 % 6](&p->right, right);
}

/* ---- row counts ---- */

/* "51 row counts differ", of whole files; of a part of them one is damaged, and then that is to be told. */
static void counts_apart(struct pair *p, uint64_t turn)
{
    own_rows(&p->left, turn % (FEW_ROWS + 1));
    own_rows(&p->right, turn / (FEW_ROWS + 1) % (FEW_ROWS + 1));
    if (one_in(3))
        cut(&p->right, any_word() >> 8);
    else if (one_in(3))
        lengthen(&p->right, any_below(18));
}

static void limits_apart(struct pair *p, uint64_t turn)
{
    static const uint64_t rows[] = { 1500, 1499, 1501, 0, 1 };

    own_rows(&p->left, rows[turn % 5]);
    own_rows(&p->right, rows[turn / 5 % 5]);
}

/* At the limits and beside them, with some rows moved, and the largest distance in the last row, the first or any, there in the last word at times. */
static void at_limits(struct pair *p, uint64_t turn)
{
    static const uint64_t counts[] = { 1500, 1499, 1, 2, 0, 1501 };
    uint64_t rows = counts[turn % 6], most = turn / 6 % 3, row, i;

    own_pair(p, rows);
    for (i = 0; rows > 0 && i <= 20; i++) {
        size_t figure = any_below(RESULT_FIGURES);

        row = any_below(rows);
        if (i == 20)
            row = most == 0 ? rows - 1 : most == 1 ? 0 : row;
        answer_both(p, row);
        move_figure(p, row, i == 20 && turn / 18 % 2 ? RESULT_FIGURES - 1 : figure, i < 20 ? i / 4 : 5);
    }
}

/* ---- the families ---- */

static const struct pair_family rows[] = {
    { { "a file and itself", 6 }, same_pair },
    { { "a figure by a place", 12 }, one_place_pair },
    { { "figures by some places", 12 }, some_places_pair },
    { { "a figure turned", 6 }, turned_pair },
    { { "beside zero", 12 }, beside_zero_pair },
    { { "beside a power of two", 8 }, beside_power_pair },
    { { "ends of the line", 20 }, end_pair },
    { { "many ends", 8 }, many_ends_pair },
    { { "refused rows", 16 }, refused_pair },
    { { "points apart", 4 }, points_pair },
    { { "ties", 14 }, tied_pair },
    { { "largest at each word", 12 }, largest_pair },
    { { "any bits", 10 }, any_bits_pair },
    { { "a word by a bit", 22 }, one_bit },
    { { "a word replaced", 22 }, replaced },
    { { "cuts", 16 }, cuts },
    { { "bytes behind", 8 }, longer },
    { { "editions", 6 }, editions },
    { { "counts replaced", 14 }, counts },
    { { "refused files", 4 }, refused_files },
    { { "any bytes", 6 }, bytes },
    { { "both at fault", 12 }, both_at_fault },
    { { "row counts apart", 8 }, counts_apart },
    { { "limits", 1 }, at_limits },
    { { "limits apart", 1 }, limits_apart },
    { { "long cuts", 1 }, long_cuts },
    { { "bytes behind 1,500 rows", 1 }, longer_long },
};

#define FAMILIES (sizeof rows / sizeof rows[0])

static uint64_t seen[FAMILIES];
static const struct families families = { rows, sizeof rows[0], FAMILIES, seen };

const struct pair_family *pair_family(uint64_t number, uint64_t *turn)
{
    return &rows[family_of(&families, number, turn)];
}

void make_pair(const struct pair_family *family, struct pair *p, uint64_t turn)
{
    static struct file kept;

    family->make(p, turn);
    if (one_in(2)) {
        copy_file(&kept, &p->left);
        copy_file(&p->left, &p->right);
        copy_file(&p->right, &kept);
    }
}

void pair_families_tell(void)
{
    families_tell(&families);
}
