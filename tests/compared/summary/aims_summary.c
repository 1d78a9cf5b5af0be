#include "aims_summary.h"

#include "compared/shared/drive.h"
#include "compared/shared/orbits.h"
#include "right_entries.h"

#define SIGN (UINT64_C(1) << 63)
#define UNIT (UINT64_C(1) << 52)
#define INFINITE (2047 * UNIT)

static const char *const names[ROSTER_AIMS] = {
    "list made right", "right list stayed right", "appended and withdrawn",
    "27 by the words alone", "27 by the count alone", "27 by a count of 501", "27 by the record alone",
    "41 by the list", "41 by the centres", "41 by centres that wrap around",
    "60 before 27", "27 before 41", "27 before 24", "27 before 42", "41 before 24", "41 before 42", "24 before 42",
    "42 one beyond", "42 far beyond", "42 where a bad centre stands",
    "first state appended", "last that fits appended", "first withdrawn", "middle withdrawn", "last withdrawn",
    "only one withdrawn", "withdrawn from 500", "follower of a bad centre moved",
    "summary of 500", "summary of no centre", "more than 16 centres", "another count or other centres accepted",
    "wrong entry mended", "wrong entry left", "state in no entry", "centre right in its lower half",
    "no epoch", "NaNs alone", "NaNs beside numbers", "quiet NaN", "quiet NaN below", "signalling NaN",
    "signalling NaN below",
    "zero", "minus zero alone", "both zeros", "minus zero earliest", "minus zero latest",
    "earliest infinite", "earliest infinite below", "latest infinite", "latest infinite below",
    "earliest subnormal", "earliest subnormal below", "latest subnormal", "latest subnormal below", "all below zero",
    "earliest greatest below", "latest greatest",
    "new earliest", "new latest", "nothing new", "NaN appended", "earliest withdrawn", "latest withdrawn",
    "neither withdrawn", "NaN withdrawn",
};

static uint64_t seen[ROSTER_AIMS];

void aim_seen(enum roster_aim aim)
{
    seen[aim]++;
}

static void see(enum roster_aim aim, int hit)
{
    seen[aim] += hit != 0;
}

static const uint64_t *state_before(uint64_t number)
{
    return held_before.states + MARGIN + STATE * number;
}

/* ---- refusals ---- */

static int bad_list(const struct made *m)
{
    return m->k % ENTRY != 0 || m->k / ENTRY != m->centres;
}

/* Whether 24 would be given, were there no refusal before it. */
static int bad_number(const struct made *m)
{
    if (m->name == APPEND)
        return m->record[0] >= m->centres;
    return m->name == WITHDRAW && m->which < m->count && m->which < RECORDS
        && state_before(m->which)[0] >= m->centres;
}

/* Whether 42 would. */
static int no_place(const struct made *m)
{
    return m->name == APPEND ? m->count == RECORDS : m->name == WITHDRAW && m->which >= m->count;
}

static void see_27(const struct made *m)
{
    int words = m->words != SECTION, count = m->count > RECORDS, record = m->name == APPEND && m->r != STATE;

    see(BY_WORDS, words && !count && !record);
    see(BY_COUNT, count && !words && !record);
    see(BY_501, m->count == RECORDS + 1 && !words && !record);
    see(BY_RECORD, record && !words && !count);
    see(FIRST_27_41, bad_list(m));
    see(FIRST_27_24, bad_number(m));
    see(FIRST_27_42, no_place(m));
}

static void see_41(const struct made *m)
{
    see(BY_WRAPPED, m->k == ENTRY * m->centres);
    see(BY_LIST, m->k % ENTRY != 0);
    see(BY_CENTRES, m->k % ENTRY == 0 && m->k != ENTRY * m->centres);
    see(FIRST_41_24, bad_number(m));
    see(FIRST_41_42, no_place(m));
}

static void see_refusal(const struct made *m)
{
    switch (library_held.status) {
    case 60:
        see(FIRST_60_27, m->words != SECTION || m->count > RECORDS);
        break;
    case 27:
        see_27(m);
        break;
    case 41:
        see_41(m);
        break;
    case 24:
        see(FIRST_24_42, no_place(m));
        break;
    default:
        see(ONE_BEYOND, m->name == WITHDRAW && m->which == m->count);
        see(FAR_BEYOND, m->name == WITHDRAW && m->which > RECORDS);
        see(BAD_BEHIND, m->name == WITHDRAW && m->which < RECORDS && state_before(m->which)[0] >= m->centres);
        break;
    }
}

/* ---- epochs ---- */

static int is_nan(uint64_t word)
{
    return (word & ~SIGN) > INFINITE;
}

static int is_subnormal(uint64_t word)
{
    return (word & ~SIGN) != 0 && (word & ~SIGN) < UNIT;
}

static void see_nan(uint64_t word)
{
    int quiet = (word & UNIT / 2) != 0;

    see(quiet ? QUIET : SIGNALLING, !(word & SIGN));
    see(quiet ? MINUS_QUIET : MINUS_SIGNALLING, (word & SIGN) != 0);
}

static void see_shown(const uint64_t *entry)
{
    uint64_t earliest = entry[2], latest = entry[3];

    see(EARLIEST_INFINITE, earliest == INFINITE);
    see(EARLIEST_MINUS, earliest == (SIGN | INFINITE));
    see(LATEST_INFINITE, latest == INFINITE);
    see(LATEST_MINUS, latest == (SIGN | INFINITE));
    see(EARLIEST_SUBNORMAL, is_subnormal(earliest) && !(earliest & SIGN));
    see(EARLIEST_BELOW, is_subnormal(earliest) && (earliest & SIGN));
    see(LATEST_SUBNORMAL, is_subnormal(latest) && !(latest & SIGN));
    see(LATEST_BELOW, is_subnormal(latest) && (latest & SIGN));
    see(EARLIEST_GREATEST, earliest == (SIGN | (INFINITE - 1)));
    see(LATEST_GREATEST, latest == INFINITE - 1);
    see(BELOW_ZERO, (earliest & SIGN) && (latest & SIGN) && earliest != latest);
}

/* Where zero is shown: by which zeros. */
static void see_zeros(const uint64_t *entry, uint64_t zeros, uint64_t minus_zeros)
{
    if (zeros + minus_zeros == 0)
        return;
    see(ZERO, minus_zeros == 0);
    see(MINUS_ZERO_ALONE, zeros == 0 && minus_zeros == entry[0]);
    see(BOTH_ZEROS, zeros && minus_zeros && (entry[2] == 0 || entry[3] == 0));
    see(MINUS_ZERO_EARLIEST, zeros == 0 && entry[2] == 0 && entry[3] != 0);
    see(MINUS_ZERO_LATEST, zeros == 0 && entry[3] == 0 && entry[2] != 0);
}

/* An entry that was worked out, and the states in use that it came from. */
static void see_entry(const struct made *m, uint64_t centre)
{
    const uint64_t *entry = library_held.list + MARGIN + ENTRY * centre;
    uint64_t zeros = 0, minus_zeros = 0, i;

    for (i = 0; i < library_held.answer[MARGIN + 1]; i++) {
        const uint64_t *state = library_held.states + MARGIN + STATE * i;

        see(OUTSIDE, state[0] >= m->centres);
        see(LOWER_HALF, state[0] != centre && (uint32_t)state[0] == centre);
        if (state[0] != centre)
            continue;
        if (is_nan(state[1]))
            see_nan(state[1]);
        zeros += state[1] == 0;
        minus_zeros += state[1] == SIGN;
    }
    see(NO_EPOCH, entry[0] == 0 && entry[1] == 0);
    see(NANS_ALONE, entry[0] == 0 && entry[1] > 0);
    see(NANS_BESIDE, entry[0] > 0 && entry[1] > 0);
    see_shown(entry);
    see_zeros(entry, zeros, minus_zeros);
}

/* ---- changes ---- */

/* Of a right entry, the one before and the one after. */
static void see_difference(const struct made *m, uint64_t centre, uint64_t epoch)
{
    const uint64_t *was = held_before.list + MARGIN + ENTRY * centre;
    const uint64_t *is = library_held.list + MARGIN + ENTRY * centre;
    int earliest = was[2] != is[2], latest = was[3] != is[3], append = m->name == APPEND;

    see(append ? NAN_APPENDED : NAN_WENT, is_nan(epoch));
    if (is_nan(epoch) || was[0] == 0 || is[0] == 0)
        return;
    see(append ? NEW_EARLIEST : EARLIEST_WENT, earliest);
    see(append ? NEW_LATEST : LATEST_WENT, latest);
    see(append ? NOTHING_NEW : NEITHER_WENT, !earliest && !latest);
}

static void see_change(const struct made *m, uint64_t centre, uint64_t epoch)
{
    const uint64_t *list = held_before.list + MARGIN;
    uint64_t next = (centre + 1) % m->centres;

    if (entry_right(list + ENTRY * centre, centre, state_before(0), m->count))
        see_difference(m, centre, epoch);
    else
        aim_seen(MENDED);
    see(LEFT_WRONG, next != centre && !entry_right(list + ENTRY * next, next, state_before(0), m->count));
    see(CENTRES_ABOVE, m->centres > 16);
    see_entry(m, centre);
}

static void see_append(const struct made *m)
{
    see(FIRST_STATE, m->count == 0);
    see(FILLED, m->count == RECORDS - 1);
    see_change(m, m->record[0], m->record[1]);
}

static void see_withdraw(const struct made *m)
{
    const uint64_t *state = state_before(m->which);
    uint64_t last = m->count - 1;

    see(WENT_ONLY, last == 0);
    see(WENT_FIRST, m->which == 0 && last > 0);
    see(WENT_LAST, m->which == last && last > 0);
    see(WENT_MIDDLE, m->which > 0 && m->which < last);
    see(FROM_FULL, m->count == RECORDS && m->which < last);
    see(BAD_FOLLOWS, m->which < last && state[STATE] >= m->centres);
    see_change(m, state[0], state[1]);
}

static void see_summary(const struct made *m)
{
    see(FULL_SUMMARY, m->count == RECORDS);
    see(NO_CENTRE, m->centres == 0);
    if (m->centres > 0)
        see_entry(m, 0);
}

void aims_see_call(const struct made *m)
{
    if (library_held.status != 0)
        see_refusal(m);
    else if (m->name == SUMMARY)
        see_summary(m);
    else if (m->name == APPEND)
        see_append(m);
    else
        see_withdraw(m);
}

int aims_summary_tell(void)
{
    return aims_tell_all(names, seen, ROSTER_AIMS);
}
