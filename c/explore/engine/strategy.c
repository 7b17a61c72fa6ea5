#include "strategy.h"

uint32_t nicxi_place_of(uint16_t actor, const uint16_t *can, uint32_t count)
{
    uint32_t k = 0;
    while (k < count && can[k] != actor)
        k++;
    return k;
}

uint32_t nicxi_longest_ago(const uint16_t *can, uint32_t count)
{
    uint32_t best = 0;
    for (uint32_t k = 1; k < count && !nicxi_is_value(can[0]); k++)
        if (nicxi.actors[can[k]].last < nicxi.actors[can[best]].last)
            best = k;
    return best;
}

static uint32_t choose_by_chance(void *argument, const uint16_t *can, uint32_t count)
{
    struct by_chance *state = argument;
    (void)can;
    return count == 1 ? 0 : chance_below(&state->chance, count);
}

nicx_chooser nicxi_by_chance(struct by_chance *state, uint64_t seed, uint64_t run)
{
    nicx_chooser chooser = {choose_by_chance, state};
    state->chance = chance_of(seed, run);
    return chooser;
}

/* --- by priorities --- */

static uint32_t highest(const struct by_priority *state, const uint16_t *can, uint32_t count)
{
    uint32_t best = 0;
    for (uint32_t k = 1; k < count; k++)
        if (state->priority[can[k]] > state->priority[can[best]])
            best = k;
    return best;
}

/* In the second half of the allowed points, the schedule is fair. Otherwise the actor with the highest priority could
   poll forever, and keep other actors from doing what it polls for. */
static uint32_t choose_by_priority(void *argument, const uint16_t *can, uint32_t count)
{
    struct by_priority *state = argument;
    if (nicxi_is_value(can[0]) || *nicxi.points >= nicxi.most_points / 2)
        return chance_below(&state->chance, count);
    uint32_t best = highest(state, can, count);
    for (uint32_t k = 0; k + 1 < state->depth; k++)
        if (state->at[k] == *nicxi.points && !(state->changed >> k & 1)) {
            state->changed |= 1u << k;
            state->priority[can[best]] = state->depth - k - 1;
            best = highest(state, can, count);
        }
    return best;
}

/* A schedule starts with priorities of `depth` and above; the changes use lower ones. */
nicx_chooser nicxi_by_priority(struct by_priority *state, uint64_t seed, uint64_t run, uint32_t depth, uint32_t length)
{
    nicx_chooser chooser = {choose_by_priority, state};
    struct chance chance = chance_of(seed, run);
    state->chance = chance_of(~seed, run);
    state->depth = depth;
    state->changed = 0;
    for (uint32_t k = 0; k < MOST_ACTORS && k < nicxi.count; k++)
        state->priority[k] = depth + k;
    for (uint32_t k = nicxi.count; k > 1; k--) {
        uint32_t other = chance_below(&chance, k), kept = state->priority[other];
        state->priority[other] = state->priority[k - 1];
        state->priority[k - 1] = kept;
    }
    for (uint32_t k = 0; k + 1 < depth; k++)
        state->at[k] = chance_below(&chance, length ? length : 1);
    return chooser;
}

/* --- by a list --- */

/* Whether the list covers a point, and the actor listed for it. */
static bool is_listed(const struct by_list *state, uint32_t point)
{
    return point < state->length || state->cycle;
}

static uint16_t listed(const struct by_list *state, uint32_t point)
{
    if (point >= state->length)
        point = state->length - state->cycle + (point - state->length) % state->cycle;
    return state->list[point];
}

/* Called again at the same point if the chosen device step had nothing to do. Tries device steps that may be idle in
   two cases: if the listed actor is offered only when all others are idle, and after the list's end. */
static uint32_t choose_to_the_letter(void *argument, const uint16_t *can, uint32_t count)
{
    struct by_list *state = argument;
    uint32_t point = *nicxi.points;
    bool is_first = state->at <= point;
    state->is_unfit = state->is_trying && point > state->unfit;
    if (state->is_unfit)
        return count;
    state->unfit = point;
    state->is_trying = false;
    bool is_in = is_listed(state, point);
    uint32_t k = is_in ? nicxi_place_of(listed(state, point), can, count) : count;
    if (k == count && (is_in ? nicxi_may_come(listed(state, point), can, count) : nicxi_may_be_idle(can, count))) {
        state->is_trying = true;
        return 0;
    }
    state->at = point + 1;
    state->is_unfit = k == count || !is_first;
    return is_first ? k : count;
}

/* Returns the list's next entry if it is a value, at most the largest possible; otherwise 0. */
static uint32_t value_of_list(struct by_list *state, uint32_t count)
{
    if (state->at == state->length || !nicxi_is_value(state->list[state->at]))
        return 0;
    uint32_t value = state->list[state->at++] - VALUES + 0u;
    return value < count ? value : count - 1;
}

static uint32_t choose_by_list(void *argument, const uint16_t *can, uint32_t count)
{
    struct by_list *state = argument;
    if (nicxi_is_value(can[0]))
        return value_of_list(state, count);
    while (state->at < state->length) {
        uint16_t wanted = state->list[state->at];
        uint32_t k = nicxi_place_of(wanted, can, count);
        if (k == count && nicxi_may_come(wanted, can, count))
            return 0;
        state->at++;
        if (k < count)
            return k;
    }
    return nicxi_goes_on(can) && !state->is_fair ? 0 : nicxi_longest_ago(can, count);
}

nicx_chooser nicxi_by_list(struct by_list *state, const uint16_t *list, uint32_t length, bool is_strict)
{
    nicx_chooser chooser = {is_strict ? choose_to_the_letter : choose_by_list, state};
    state->list = list;
    state->length = length;
    state->at = state->cycle = 0;
    state->is_fair = false;
    state->is_trying = state->is_unfit = false;
    return chooser;
}
