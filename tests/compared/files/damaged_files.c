/* Files damaged in every way, and the families of files and sections. */
#include "compared/shared/drive.h"
#include "compared/shared/sections.h"

/* The small file of the lists: 2 centres, 2 states and 3 requests. */
#define SMALL_WORDS (4 + 2 + 2 * STATE + 3 * REQUEST)

/* Limits and numbers beside them, and words that a careless width or sign takes for others. */
static const uint64_t specials[] = {
    0, 1, 2, 3, 15, 16, 17, 255, 256, 499, 500, 501, 1499, 1500, 1501,
    UINT64_C(0x00000000FFFFFFFF), UINT64_C(0x0000000100000000), UINT64_C(0x0000000100000001),
    UINT64_C(0x0100000000000000), UINT64_C(0x7FFFFFFFFFFFFFFF), UINT64_C(0x8000000000000000),
    UINT64_C(0xFFFFFFFFFFFFFFFF), UINT64_C(0x3FF0000000000000), UINT64_C(0x7FF0000000000000),
    UINT64_C(0x7FF0000000000001), UINT64_C(0x1FFFFFFFFFFFFFFF), UINT64_C(0x2000000000000001),
};
#define SPECIALS (sizeof specials / sizeof specials[0])

static void small(struct file *f)
{
    struct sections s;

    any_sections(&s, 2, 2, 3, 3);
    lay_out(f, &s);
}

static void sound_file(struct file *f, uint64_t turn)
{
    struct sections s;

    sound(&s, turn);
    lay_out(f, &s);
}

/* Every cut of a small file, the empty one among them. */
static void cut(struct file *f, uint64_t turn)
{
    small(f);
    f->length = turn % (f->length + 1);
}

/* From 1 to 17 bytes behind a file, and at times so many that 16 bits would take the length for that of a cut. */
static void longer(struct file *f, uint64_t turn)
{
    size_t end;

    sound_file(f, turn);
    end = one_in(40) ? 65536 + any_below(f->length + 1) : f->length + 1 + turn % 17;
    for (; f->length < end; f->length++)
        f->bytes[f->length] = (uint8_t)any_word();
}

/* Every word of a small file by every special, and then at times broken off or longer. */
static void replaced(struct file *f, uint64_t turn)
{
    size_t place = 8 * (turn / SPECIALS % SMALL_WORDS);

    small(f);
    put_word(f, place, specials[turn % SPECIALS]);
    if (one_in(5))
        f->length = place + any_below(f->length + 9 - place);
}

static void replaced_twice(struct file *f, uint64_t turn)
{
    int i;

    (void)turn;
    small(f);
    for (i = 0; i < 2; i++) {
        size_t place = 8 * any_below(SMALL_WORDS);
        put_word(f, place, specials[any_below(SPECIALS)]);
    }
}

/* Small counts that do not fit what follows them, so that a section runs into the next. */
static void wrong_counts(struct file *f, uint64_t turn)
{
    static const size_t counts[] = { 8, 8 * 4, 8 * (5 + 2 * STATE) };
    size_t place = counts[turn % 3];

    small(f);
    put_word(f, place, any_below(6));
}

static void wrong_file_numbers(struct file *f, uint64_t turn)
{
    struct sections s;

    wrong_numbers(&s, turn);
    lay_out(f, &s);
    if (one_in(4))
        f->length -= any_below(9);     /* 24 before 21 */
    else if (one_in(4))
        f->length += 1;     /* 24 before 25 */
}

static void limits_file(struct file *f, uint64_t turn)
{
    struct sections s;
    size_t place;

    limits(&s, turn);
    lay_out(f, &s);
    place = 8 * any_below(f->length / 8);
    if (one_in(6))
        f->length -= 1;
    else if (one_in(5))
        f->length += 1;
    else if (one_in(4))
        put_word(f, place, any_word());
}

/* Any bytes, behind a sound beginning of any length. */
static void any_bytes(struct file *f, uint64_t turn)
{
    size_t i;

    (void)turn;
    small(f);
    for (i = one_in(3) ? 0 : any_below(f->length); i < f->length; i++)
        f->bytes[i] = (uint8_t)any_word();
    f->length = any_below(f->length + 1);
}

/* Words of 0 to 3 behind the edition: counts and numbers wherever the walk takes them to be. */
static void small_words(struct file *f, uint64_t turn)
{
    size_t words = turn % 48;

    f->length = 0;
    add_word(f, 1);
    while (words-- > 0)
        add_word(f, any_below(4));
}

static const struct file_family rows[] = {
    { { "sound files", 16 }, NULL, sound_file },
    { { "cuts", 10 }, NULL, cut },
    { { "bytes behind", 6 }, NULL, longer },
    { { "one word replaced", 16 }, NULL, replaced },
    { { "two words replaced", 8 }, NULL, replaced_twice },
    { { "counts replaced", 6 }, NULL, wrong_counts },
    { { "numbers out of range", 8 }, NULL, wrong_file_numbers },
    { { "counts at the limits", 1 }, NULL, limits_file },
    { { "any bytes", 6 }, NULL, any_bytes },
    { { "small words", 6 }, NULL, small_words },
    { { "sound sections", 10 }, sound, NULL },
    { { "runs of odd lengths", 6 }, odd_runs, NULL },
    { { "numbers to write out of range", 6 }, wrong_numbers, NULL },
    { { "counts to write at the limits", 1 }, limits, NULL },
};

#define FAMILIES (sizeof rows / sizeof rows[0])

static uint64_t seen[FAMILIES];
static const struct families families = { rows, sizeof rows[0], FAMILIES, seen };

const struct file_family *file_family(uint64_t number, uint64_t *turn)
{
    return &rows[family_of(&families, number, turn)];
}

void file_families_tell(void)
{
    families_tell(&families);
}
