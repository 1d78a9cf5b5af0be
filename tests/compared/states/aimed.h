/*
**  Inputs aimed at what plain orbits seldom or never reach: each refusal, each end of the search,
**  and the edges of the doubles. Each comment gives the rule that the family is after.
*/
#ifndef AIMED_H
#define AIMED_H

#include <stdint.h>

void marked(uint64_t *words);
void whole_numbers(uint64_t *words);
void no_interval(uint64_t *words);
void any_words(uint64_t *words);
void any_scales(uint64_t *words);
void one_word(uint64_t *words);
void not_finite(uint64_t *words);
void small_sum(uint64_t *words);
void subnormal_sum(uint64_t *words);
void large_figures(uint64_t *words);
void sigma_alone(uint64_t *words);
void length_one(uint64_t *words);
void all_short(uint64_t *words);
void far_out(uint64_t *words);
void infinite_error(uint64_t *words);
void infinite_radius(uint64_t *words);
void small_interval(uint64_t *words);
void place_zero(uint64_t *words);
void exact(uint64_t *words);
void least_units(uint64_t *words);
void even_ends(uint64_t *words);
void infinite_past(uint64_t *words);
void infinite_short(uint64_t *words);
void nan_radius(uint64_t *words);
void to_centre(uint64_t *words);
void no_figures(uint64_t *words);
void start_alone(uint64_t *words);
void partials_alone(uint64_t *words);
void turns(uint64_t *words);
void most_turns(uint64_t *words);
void halfway(uint64_t *words);
void falls(uint64_t *words);
void whole_turns(uint64_t *words);
void years(uint64_t *words);
void needle(uint64_t *words);
void no_period(uint64_t *words);
void wide_turns(uint64_t *words);
void close_turns(uint64_t *words);

/* Some periods on or back, where the state has one. */
void more_turns(uint64_t *words);

#endif
