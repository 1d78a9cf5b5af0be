/*
**  Two result files compared in plain C (document 02, T-07). A figure's distance is worked out from its two words, and no double is made of them. Words are copied
**  as they lie: x86-64 has the lowest byte first, as the files have.
*/
#include "plain.h"
#include "series.h"

enum { EDITION = 1, MOST_ROWS = 1500, HEAD = 16, ROW = 11, FIGURE = 2, TOLD = 19 };
enum { ANSWERED, LEFT_REFUSED, RIGHT_REFUSED, REFUSED_ALIKE, REFUSED_UNLIKE };
enum { DISTANCE, EQUAL_BITS, UNEQUAL_BITS, UNTOLD };

/* The first largest distance so far, by its row and word, and the least one that takes its place: one more, or 0 while there is none. */
struct largest {
    uint64_t row, word, next;
};

static uint64_t word_at(const uint8_t *place)
{
    uint64_t word;

    memcpy(&word, place, 8);
    return word;
}

/* By the bits below the sign, which doubling takes off. */
static int is_finite(uint64_t word)
{
    return word << 1 < INFINITE << 1;
}

/* Where just one has a sign, the steps from zero to either are added: the words, with the sign taken off. */
static uint64_t distance_of(uint64_t left, uint64_t right)
{
    if ((left ^ right) & SIGN)
        return left + right - SIGN;
    return left < right ? right - left : left - right;
}

static uint64_t kind_of_rows(uint64_t left, uint64_t right)
{
    if (left == 0)
        return right == 0 ? ANSWERED : RIGHT_REFUSED;
    return right == 0 ? LEFT_REFUSED : left == right ? REFUSED_ALIKE : REFUSED_UNLIKE;
}

/* The figures of two rows that are answered. */
static void tell_figures(const uint8_t *left, const uint8_t *right, uint64_t row, uint64_t *told, struct largest *largest)
{
    uint64_t one, other, distance;
    size_t i;

    for (i = FIGURE; i < ROW; i++, told += 2) {
        one = word_at(left + 8 * i);
        other = word_at(right + 8 * i);
        if (!is_finite(one) || !is_finite(other)) {
            told[0] = one == other ? EQUAL_BITS : UNEQUAL_BITS;
            told[1] = 0;
            continue;
        }
        distance = distance_of(one, other);
        told[0] = DISTANCE;
        told[1] = distance;
        if (distance >= largest->next) {
            largest->row = row;
            largest->word = i;
            largest->next = distance + 1;
        }
    }
}

static void tell_none(uint64_t *told)
{
    size_t i;

    for (i = 0; i < TOLD - 1; i += 2) {
        told[i] = UNTOLD;
        told[i + 1] = 0;
    }
}

static struct largest tell_rows(const uint8_t *left, const uint8_t *right, uint64_t rows, uint64_t *told)
{
    struct largest largest = { rows, ROW, 0 };
    uint64_t row;

    left += HEAD;
    right += HEAD;
    for (row = 0; row < rows; row++) {
        told[0] = kind_of_rows(word_at(left), word_at(right));
        if (told[0] == ANSWERED)
            tell_figures(left, right, row, told + 1, &largest);
        else
            tell_none(told + 1);
        left += 8 * ROW;
        right += 8 * ROW;
        told += TOLD;
    }
    return largest;
}

/* The refusal of a file, with its place, or 0 with the rows. */
static uint64_t count_rows(const uint8_t *file, size_t length, uint64_t *place_or_rows)
{
    uint64_t rows;
    size_t end;

    *place_or_rows = 0;
    if (length < 8)
        return 21;
    if (word_at(file) != EDITION)
        return 22;
    *place_or_rows = 8;
    if (length < HEAD)
        return 21;
    rows = word_at(file + 8);
    if (rows > MOST_ROWS)
        return 23;
    end = HEAD + 8 * ROW * rows;
    *place_or_rows = length < end ? length / 8 * 8 : length > end ? end : rows;
    return length < end ? 21 : length > end ? 25 : 0;
}

static uint64_t refused(uint64_t *answer, uint64_t number, uint64_t side, uint64_t place)
{
    memset(answer, 0, 7 * sizeof *answer);
    answer[0] = number;
    answer[1] = side;
    answer[2] = place;
    return number;
}

uint64_t plain_compare(const uint8_t *left, size_t left_length, const uint8_t *right, size_t right_length,
                       uint64_t *rows, size_t k, uint64_t *answer, size_t n)
{
    uint64_t number, count, other;
    struct largest largest;

    if (n != 7)
        return 60;
    number = count_rows(left, left_length, &count);
    if (number != 0)
        return refused(answer, number, 0, count);
    number = count_rows(right, right_length, &other);
    if (number != 0)
        return refused(answer, number, 1, other);
    if (count != other)
        return refused(answer, 51, 0, 0);
    if (k < TOLD * count)
        return refused(answer, 26, 0, TOLD * count);
    largest = tell_rows(left, right, count, rows);
    memset(answer, 0, 3 * sizeof *answer);
    answer[3] = count;
    answer[4] = largest.row;
    answer[5] = largest.word;
    answer[6] = largest.next == 0 ? 0 : largest.next - 1;
    return 0;
}
