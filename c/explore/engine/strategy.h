/* How schedules are chosen. */
#ifndef NICX_STRATEGY_H
#define NICX_STRATEGY_H

#include "chance.h"
#include "engine.h"

/* Returns the index of an actor in `can`, or `count` if it isn't there. */
uint32_t nicxi_place_of(uint16_t actor, const uint16_t *can, uint32_t count);
/* Returns the index of the actor that acted longest ago; for values, the first. */
uint32_t nicxi_longest_ago(const uint16_t *can, uint32_t count);

/* --- random: each runnable actor is equally likely --- */

struct by_chance {
    struct chance chance;
};

nicx_chooser nicxi_by_chance(struct by_chance *state, uint64_t seed, uint64_t run);

/* --- priorities (probabilistic concurrency testing): the runnable actor with the highest priority acts; at depth - 1
       points, drawn from the first `length`, that actor's priority falls below all others --- */

enum { MOST_DEPTH = 16 };

struct by_priority {
    struct chance chance;
    uint32_t priority[MOST_ACTORS];
    uint32_t at[MOST_DEPTH];
    uint32_t depth, changed;
};

nicx_chooser nicxi_by_priority(struct by_priority *state, uint64_t seed, uint64_t run, uint32_t depth, uint32_t length);

/* --- a list of actors, followed exactly or as far as possible --- */

struct by_list {
    const uint16_t *list;
    uint32_t length, at;
    uint32_t cycle;           /* number of repeating points at the list's end; 0: none */
    bool is_fair;             /* after the list's end the actor that acted longest ago runs, not the last one */
    uint32_t unfit;           /* if is_unfit: the point at which the actor can't run, or the list has ended */
    bool is_unfit, is_trying; /* the step chosen last is expected to have nothing to do */
};

/* If a listed actor can't run, a strict list ends the schedule; otherwise the next listed actor is tried. After the end
   of a list that isn't strict, the actor that acted last continues, or with `is_fair`, the one that acted longest ago
   runs. */
nicx_chooser nicxi_by_list(struct by_list *state, const uint16_t *list, uint32_t length, bool is_strict);

#endif
