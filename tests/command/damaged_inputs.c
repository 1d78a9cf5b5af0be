/*
**  The command's subcommands on sound and damaged listings, element files, result files and files of rows, one after
**  another in one program, for sanitizers to look on. The library is the second program.
**
**     damaged_inputs FOLDER [N [SEED [FIRST]]]
**
**  Each exit status, and each file that is written, is held to what follows from the bytes that were given.
*/
#include "../../command/command.h"
#include "compared/shared/answered_rows.h"
#include "compared/shared/drive.h"
#include "compared/shared/sections.h"
#include "kelubashi.h"
#include "second/second.h"

#include <inttypes.h>
#include <math.h>
#include <stdio.h>
#include <stdlib.h>
#include <string.h>
#include <sys/stat.h>

enum { USUAL = 7500, NAME = 200, TEXT = 1 << 20 };

int __wrap_fsync(int file);

/* A disk would make of each input some milliseconds. */
int __wrap_fsync(int file)
{
    return file < 0 ? -1 : 0;
}

static FILE *report, *nowhere;
static char given_name[NAME], other_name[NAME], third_name[NAME], written_name[NAME];
static uint64_t number_now;
static uint64_t well, refused, not_done;

/* ---- files ---- */

/* A new file: to empty an old one may wait for the disk. */
static void put_file(const char *name, const void *bytes, size_t length)
{
    FILE *file;

    remove(name);
    file = fopen(name, "wb");
    if (file == NULL || fwrite(bytes, 1, length, file) != length || fclose(file) != 0) {
        fprintf(report, "damaged_inputs: %s cannot be written\n", name);
        exit(EXIT_FAILURE);
    }
}

/* The bytes of the file that a subcommand wrote; nothing where there is none. */
static size_t take_written(uint8_t *bytes, size_t size)
{
    FILE *file = fopen(written_name, "rb");
    size_t length = 0;

    if (file != NULL) {
        length = fread(bytes, 1, size, file);
        fclose(file);
        remove(written_name);
    }
    return length;
}

/* ---- a call, and what becomes of it ---- */

/* A call with so many of the given files. */
static struct call call_with(int count)
{
    static char *operands[3];
    struct call call;

    operands[0] = given_name;
    operands[1] = other_name;
    operands[2] = third_name;
    memset(&call, 0, sizeof call);
    call.operands = operands;
    call.operand_count = count;
    return call;
}

/* Runs a subcommand, with what it prints and says going nowhere. */
static enum status run_call(const struct subcommand *subcommand, const struct call *call)
{
    enum status status;
    FILE *output = stdout, *error = stderr;

    stdout = nowhere;
    stderr = nowhere;
    status = subcommand->run(call);
    stdout = output;
    stderr = error;
    well += status == ALL_WELL;
    refused += status == SOMETHING_AMISS;
    not_done += status == NOT_DONE;
    return status;
}

static enum status run(const struct subcommand *subcommand, int writes, int any_bits)
{
    struct call call = call_with(subcommand->operands);

    call.output = writes ? written_name : NULL;
    call.any_bits = any_bits;
    remove(written_name);
    return run_call(subcommand, &call);
}

static void hold(int good, const char *what)
{
    if (!good) {
        fprintf(report, "\ndamaged_inputs: %s\n", what);
        drive_differs();
    }
}

static void repeat(void)
{
    fprintf(report, "damaged_inputs: repeat it with: sh tests/command/sanitized.sh fuzz 1 %" PRIu64 " %" PRIu64 "\n", drive_seed(), number_now);
    fflush(report);
}

static void progress(void)
{
}

/* ---- element files and result files ---- */

static struct file file;
static uint8_t right[KELUBASHI_MOST_RESULTS], wrote[KELUBASHI_MOST_RESULTS + 1];
static size_t right_length;

/* The status that follows from a result file: whether the file or a row in it is refused. */
static enum status status_of(const uint8_t *results, size_t length)
{
    size_t i;

    if (length == 24)
        return SOMETHING_AMISS;
    for (i = 16; i < length; i += 88)
        if (results[i] != 0)
            return SOMETHING_AMISS;
    return ALL_WELL;
}

/* Puts an element file there, and works out what has to come of it. */
static void give_elements(uint64_t number)
{
    uint64_t turn, answer[2];
    const struct file_family *family = file_family(number, &turn);

    if (family->file != NULL)
        family->file(&file, turn);
    else {
        static struct sections sections;

        sound(&sections, turn);
        lay_out(&file, &sections);
    }
    hold(second_results(file.bytes, file.length, right, sizeof right, answer, 2) == 0, "the second program gives no results");
    right_length = (size_t)answer[1];
    put_file(given_name, file.bytes, file.length);
}

static void try_elements(uint64_t number)
{
    enum status status, wanted;
    uint64_t answer[8];
    size_t length;

    give_elements(number);
    wanted = second_read(file.bytes, file.length, answer, 8) == 0 ? ALL_WELL : SOMETHING_AMISS;
    status = run(&read_subcommand, 0, 0);
    hold(status == wanted, "read ends otherwise");
    status = run(&centres_subcommand, 0, 0);
    hold(status == wanted, "centres ends otherwise");
    status = run(&results_subcommand, 1, 0);
    hold(status == status_of(right, right_length), "results ends otherwise");
    length = take_written(wrote, sizeof wrote);
    hold(length == right_length && memcmp(wrote, right, length) == 0, "results writes other bytes");
}

/* Damages a result file: a byte, a word, its length, or not at all. */
static size_t damage(uint8_t *bytes, size_t length)
{
    switch (any_below(6)) {
    case 0:
        bytes[any_below(length)] ^= (uint8_t)(1 << any_below(8));
        return length;
    case 1:
        memset(bytes + any_below(length - 7), any_from(0, 1) * 255, 8);
        return length;
    case 2:
        return any_below(length);
    case 3:
        memset(bytes + length, 0, 8);
        return length + 1 + any_below(8);
    case 4:
        bytes[8] = (uint8_t)any_word();
        return length;
    default:
        return length;
    }
}

static void try_show(uint64_t number)
{
    static uint8_t results[KELUBASHI_MOST_RESULTS + 8];
    enum status status, wanted;
    size_t length;

    give_elements(number);
    memcpy(results, right, right_length);
    length = damage(results, right_length);
    put_file(other_name, results, length);
    wanted = length == right_length && memcmp(results, right, length) == 0 ? status_of(right, right_length) : NOT_DONE;
    status = run(&show_subcommand, 0, 0);
    hold(status == wanted, "show ends otherwise");
}

/* ---- result files compared ---- */

/* What compare has to answer to a reference and another file: the second program's comparison, row by row. */
static enum status moved_since(const uint8_t *reference, size_t reference_length, const uint8_t *results, size_t length)
{
    static uint64_t told[KELUBASHI_MOST_COMPARED];
    uint64_t answer[KELUBASHI_COMPARE_ANSWER];
    size_t row, i;

    if (second_compare(reference, reference_length, results, length, told, KELUBASHI_MOST_COMPARED, answer, KELUBASHI_COMPARE_ANSWER) != 0)
        return NOT_DONE;
    for (row = 0; row < answer[KELUBASHI_COMPARE_ROWS]; row++) {
        const uint64_t *of_row = told + row * KELUBASHI_COMPARED;

        if (of_row[0] != KELUBASHI_ROW_ANSWERED && of_row[0] != KELUBASHI_ROW_REFUSED_ALIKE)
            return SOMETHING_AMISS;
        for (i = 1; i < KELUBASHI_COMPARED; i += 2)
            if (of_row[i] == KELUBASHI_FIGURE_UNEQUAL || of_row[i + 1] != 0)
                return SOMETHING_AMISS;
    }
    return ALL_WELL;
}

/* Changes some words of the rows: a place on, another sign, no number, infinite, or in the place of the first a refusal. */
static void move_words(uint8_t *bytes, size_t length)
{
    int many;

    for (many = any_from(0, 5); many > 0 && length >= 16 + 88; many--) {
        uint8_t *row = bytes + 16 + 88 * any_below((length - 16) / 88), *word = row + 8 * any_below(11);

        switch (any_below(5)) {
        case 0:
            word[0] ^= 1;
            break;
        case 1:
            word[7] ^= 128;
            break;
        case 2:
            word[7] |= 127;
            word[6] |= 240;
            break;
        case 3:
            memset(word, 0, 8);
            word[7] = (uint8_t)(128 * any_below(2));
            break;
        default:
            memset(row, 0, 8);
            row[0] = (uint8_t)any_below(9);
            break;
        }
    }
}

/* A result file beside the right one: the same, changed in some words, or damaged. */
static size_t give_results(const char *name, uint8_t *bytes)
{
    size_t length = right_length;

    memcpy(bytes, right, right_length);
    if (!one_in(3))
        move_words(bytes, length);
    if (one_in(4))
        length = damage(bytes, length);
    put_file(name, bytes, length);
    return length;
}

/* One file or two against a reference, with the options that there are. */
static void try_compare(uint64_t number)
{
    static uint8_t reference[KELUBASHI_MOST_RESULTS + 8], results[KELUBASHI_MOST_RESULTS + 8], third[KELUBASHI_MOST_RESULTS + 8];
    struct call call = call_with(2 + (int)any_below(2));
    size_t reference_length, length, third_length;
    enum status wanted, other, status;

    give_elements(number);
    reference_length = give_results(given_name, reference);
    length = give_results(other_name, results);
    third_length = give_results(third_name, third);
    call.quiet = one_in(4);
    call.all = call.operand_count == 2 && one_in(3);
    wanted = moved_since(reference, reference_length, results, length);
    other = moved_since(reference, reference_length, third, third_length);
    if (call.operand_count == 3 && other > wanted)
        wanted = other;     /* the statuses grow with the trouble */
    status = run_call(&compare_subcommand, &call);
    hold(status == wanted, "compare ends otherwise");
}

/* ---- files of rows ---- */

static uint8_t rows[MOST_ROW_BYTES + 8];

/* What check has to answer to these bytes. */
static enum status verdict_of(size_t length)
{
    uint64_t verdicts[MOST_ROWS], answer[2];
    size_t i;

    if (second_check(rows, length, verdicts, MOST_ROWS, answer, 2) != 0)
        return NOT_DONE;
    for (i = 0; i < answer[1]; i++)
        if (verdicts[i] != 1)
            return SOMETHING_AMISS;
    return ALL_WELL;
}

/* Damages a file of rows: its count, a word by its last place or its sign, or as any file. */
static size_t damage_rows(size_t length)
{
    size_t word = 8 * any_below(length / 8);

    switch (any_below(5)) {
    case 0:
        rows[any_below(2)] = (uint8_t)any_word();
        return length;
    case 1:
        rows[word] ^= 1;
        return length;
    case 2:
        rows[word + 7] ^= 128;
        return length;
    default:
        return damage(rows, length);
    }
}

/* The rows of an element file, held to the second program's; then these, whole or damaged, checked. */
static void try_rows(uint64_t number)
{
    enum status status, wanted = NOT_DONE;
    size_t length, written;

    give_elements(number);
    length = answered_rows(file.bytes, file.length, 0, rows);
    if (length != 0)
        wanted = right_length == 16 + (length - 8) / (8 * ROW_WORDS) * 88 ? ALL_WELL : SOMETHING_AMISS;
    status = run(&rows_subcommand, 1, 0);
    hold(status == wanted, "rows ends otherwise");
    written = take_written(wrote, sizeof wrote);
    hold(written == length && memcmp(wrote, rows, length) == 0, "rows writes other bytes");
    if (length == 0) {
        memset(rows, 0, 16);
        length = 16;
    }
    length = damage_rows(length);
    put_file(given_name, rows, length);
    wanted = verdict_of(length);
    status = run(&check_subcommand, 0, 0);
    hold(status == wanted, "check ends otherwise");
}

/* ---- listings ---- */

static char text[TEXT];
static size_t length;

static void add(const char *form, double figure)
{
    length += (size_t)snprintf(text + length, TEXT - length, form, figure);
}

static double figure_of(uint64_t word)
{
    double figure = kelubashi_figure(word);

    return isfinite(figure) ? figure : 1;
}

/* A record's line, with its number and its figures as C writes them so that they are read back the same. */
static void add_line(const char *name, uint64_t *words, size_t width, size_t numbers)
{
    size_t i;

    length += (size_t)snprintf(text + length, TEXT - length, "%s%s", one_in(3) ? "  " : "", name);
    for (i = 0; i < width; i++) {
        add(one_in(4) ? "\t" : " ", 0);
        if (i < numbers) {
            length += (size_t)snprintf(text + length, TEXT - length, "%" PRIu64, words[i]);
        } else {
            words[i] = kelubashi_word(figure_of(words[i]));
            add(one_in(2) ? "%.17g" : one_in(2) ? "%.17e" : "%a", kelubashi_figure(words[i]));
        }
    }
    add(one_in(5) ? "   # 7 \r\n" : one_in(3) ? "\r\n" : "\n", 0);
}

/* A sound listing, and the bytes of its element file. */
static void sound_listing(void)
{
    static struct sections sections;
    size_t i;

    any_sections(&sections, 1 + any_below(3), 1 + any_below(4), any_below(6), 3);
    length = 0;
    for (i = 0; i < sections.request_words; i += REQUEST)
        add_line("request", sections.requests + i, REQUEST, 1);
    for (i = 0; i < sections.centre_words; i++)
        add_line("centre", sections.centres + i, 1, 0);
    for (i = 0; i < sections.state_words; i += STATE)
        add_line("state", sections.states + i, STATE, 1);
    file.length = 0;
    lay_out(&file, &sections);
}

/* Some bytes, or words, that a listing's reader may stumble over, in the place of others. */
static void damage_text(void)
{
    static const char *const PIECES[] = {
        "-", "+", "#", "\n", "\r", "\t", " ", "0x", "1e999", "1e-999", "-1e400", "inf", "nan", "nan(12)", "infinity", "centre ", "state ",
        "request ", "18446744073709551615", "18446744073709551616", "99999999999999999999999999", "\xff\xfe", "\033[2J", ".", "e", "1e", "%s%n",
        "centre 1\n", "\n\n", "17", "0", "state 0 0 1 1 1 1 1 1\n"
    };
    size_t pieces = sizeof PIECES / sizeof PIECES[0], place, many;
    const char *piece;

    place = any_below(length + 1);
    switch (any_below(6)) {
    case 0:     /* a NUL */
        text[place] = '\0';
        length += place == length;
        break;
    case 1:     /* the rest is lost */
        length = place;
        break;
    case 2:     /* a long run of one byte */
        many = any_below(700);
        memmove(text + place + many, text + place, length - place);
        memset(text + place, (int)any_below(256), many);
        length += many;
        break;
    case 3:     /* a byte */
        text[place] = (char)any_below(256);
        length += place == length;
        break;
    default:
        piece = PIECES[any_below(pieces)];
        many = strlen(piece);
        memmove(text + place + many, text + place, length - place);
        memcpy(text + place, piece, many);
        length += many;
        break;
    }
}

static void try_listing(uint64_t number)
{
    int damages = one_in(4) ? 0 : any_from(1, 3), any_bits = number % 2 == 0, i;
    enum status status;
    uint64_t answer[8];
    size_t written;

    sound_listing();
    for (i = 0; i < damages; i++)
        damage_text();
    put_file(given_name, text, length);
    status = run(&elements_subcommand, 1, any_bits);
    written = take_written(wrote, sizeof wrote);
    hold(status == ALL_WELL || status == NOT_DONE, "elements ends otherwise");
    hold((status == ALL_WELL) == (written != 0), "elements writes and fails, or does neither");
    hold(written == 0 || second_read(wrote, written, answer, 8) == 0, "elements writes a file that is refused");
    if (damages == 0)
        hold(written == file.length && memcmp(wrote, file.bytes, written) == 0, "elements writes other words than the listing has");
}

/* ---- all of it ---- */

static void try_one(uint64_t number)
{
    number_now = number;
    switch (number % 5) {
    case 0:
        try_listing(number / 5);
        break;
    case 1:
        try_elements(number / 5);
        break;
    case 2:
        try_show(number / 5);
        break;
    case 3:
        try_compare(number / 5);
        break;
    default:
        try_rows(number / 5);
        break;
    }
}

static int tell(void)
{
    fprintf(report, "damaged_inputs: seed %" PRIu64 ", %" PRIu64 " inputs: %" PRIu64 " calls with status 0, %" PRIu64 " with 1, %" PRIu64
            " with 2\n", drive_seed(), drive_count(), well, refused, not_done);
    return well == 0 || refused == 0 || not_done == 0;
}

int main(int count, char **words)
{
    report = stdout;
    nowhere = fopen("/dev/null", "w");
    if (count < 2 || nowhere == NULL) {
        fprintf(stderr, "usage: damaged_inputs FOLDER [N [SEED [FIRST]]]\n");
        return EXIT_FAILURE;
    }
    snprintf(given_name, NAME, "%s/given", words[1]);
    snprintf(other_name, NAME, "%s/other", words[1]);
    snprintf(third_name, NAME, "%s/third", words[1]);
    snprintf(written_name, NAME, "%s/written", words[1]);
    drive_own(progress, repeat);
    drive_start("damaged_inputs", USUAL, count - 1, words + 1);
    return drive_all(try_one, tell, "a status above was never met");
}
