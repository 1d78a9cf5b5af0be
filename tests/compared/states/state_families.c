#include "state_families.h"

#include "aimed.h"
#include "compared/shared/orbits.h"

static const struct state_family rows[] = {
    { { "ellipses", 10 }, 0, ellipse },
    { { "long ellipses", 4 }, 1, long_ellipse },
    { { "near-parabolas", 6 }, 0, near_parabola },
    { { "parabolas", 4 }, 0, parabola },
    { { "hyperbolas", 8 }, 0, hyperbola },
    { { "long hyperbolas", 4 }, 1, long_hyperbola },
    { { "radial", 6 }, 0, radial },
    { { "mu zero", 4 }, 0, no_pull },
    { { "mu below zero", 6 }, 0, push },
    { { "marked", 1 }, 1, marked },
    { { "whole numbers", 4 }, 1, whole_numbers },
    { { "tau zero", 3 }, 0, no_interval },
    { { "any words", 3 }, 0, any_words },
    { { "any scales", 6 }, 1, any_scales },
    { { "one word of any bits", 5 }, 0, one_word },
    { { "not finite", 3 }, 1, not_finite },
    { { "small sums", 2 }, 1, small_sum },
    { { "subnormal sums", 2 }, 1, subnormal_sum },
    { { "large figures", 3 }, 1, large_figures },
    { { "sigma0 alone", 1 }, 1, sigma_alone },
    { { "L at 1", 2 }, 1, length_one },
    { { "all short", 2 }, 1, all_short },
    { { "far out", 2 }, 1, far_out },
    { { "infinite R", 3 }, 1, infinite_error },
    { { "infinite r", 2 }, 1, infinite_radius },
    { { "small H", 2 }, 1, small_interval },
    { { "place 0 short", 2 }, 1, place_zero },
    { { "exact", 3 }, 1, exact },
    { { "least units", 3 }, 1, least_units },
    { { "even ends", 2 }, 1, even_ends },
    { { "infinite past end", 1 }, 1, infinite_past },
    { { "infinite short end", 1 }, 1, infinite_short },
    { { "NaN r", 2 }, 1, nan_radius },
    { { "to the centre", 3 }, 1, to_centre },
    { { "no figures", 2 }, 1, no_figures },
    { { "start alone", 2 }, 1, start_alone },
    { { "partials alone", 3 }, 1, partials_alone },
    { { "turns", 4 }, 1, turns },
    { { "2^40 turns", 3 }, 1, most_turns },
    { { "halfway", 2 }, 1, halfway },
    { { "falls", 2 }, 1, falls },
    { { "whole turns", 2 }, 1, whole_turns },
    { { "years", 3 }, 1, years },
    { { "needles", 2 }, 1, needle },
    { { "no period", 2 }, 1, no_period },
    { { "wide turns", 3 }, 1, wide_turns },
    { { "close turns", 2 }, 1, close_turns },
};

#define FAMILIES (sizeof rows / sizeof rows[0])

static uint64_t seen[FAMILIES];
static const struct families families = { rows, sizeof rows[0], FAMILIES, seen };

const struct state_family *state_family(uint64_t number)
{
    uint64_t turn;

    return &rows[family_of(&families, number, &turn)];
}

void state_families_tell(void)
{
    families_tell(&families);
}
