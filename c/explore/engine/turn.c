/* Finds the turning point of a failing schedule: before it, some other continuation is fine; after it, every
   continuation tried fails. */
#include "turn.h"

#include <stdio.h>
#include <string.h>

#include "limit.h"
#include "shrink.h"
#include "strategy.h"

enum { FEW = 100, MANY = 1000 };
#define UNKNOWN UINT32_MAX
#define MOST_SECONDS 5.0

/* --- schedules with a given beginning --- */

struct going {
    const struct beginning *beginning;
    struct by_chance chance;
    uint32_t first, wanted;
    double left; /* CPU seconds left */
    bool is_unfit;
};

static uint32_t choose(void *argument, const uint16_t *can, uint32_t count)
{
    struct going *going = argument;
    const struct beginning *from = going->beginning;
    uint32_t point = *nicxi.points;
    if (!from->list || point >= from->length)
        return chance_below(&going->chance.chance, count);
    uint32_t k = nicxi_place_of(from->list[point], can, count);
    if (k < count)
        return k;
    if (!nicxi_is_value(can[0]) && nicxi_may_come(from->list[point], can, count))
        return 0;
    going->is_unfit = true;
    return count;
}

static void go_on(struct post *post, void *argument)
{
    struct going *going = argument;
    nicxi_be_quiet();
    const struct limit limit = nicxi_limit(going->left);
    nicxi.omitted = *going->beginning->omitted;
    for (uint32_t k = going->first; k < going->beginning->tries && !nicxi_is_over(&limit); k++) {
        nicx_chooser chooser = {choose, going};
        post->run = k;
        nicxi_by_chance(&going->chance, 0, k);
        nicx_run(&chooser, &post->result);
        if (!going->is_unfit && post->result.outcome == NICX_FINE && ++post->fine == going->wanted) {
            post->is_found = true;
            return;
        }
    }
}

/* If a child process ends during a schedule, that schedule has failed, and the next child process continues with the
   schedule after it. */
static void count_fine(const struct options *options, struct post *post, const struct beginning *beginning,
                       uint32_t wanted, uint32_t *tried)
{
    static struct going going;
    memset(&going, 0, sizeof going);
    going.beginning = beginning;
    going.wanted = wanted;
    post->fine = 0;
    const struct limit limit = nicxi_limit(MOST_SECONDS);
    for (*tried = 0; post->fine < wanted && going.first < beginning->tries && !nicxi_is_over(&limit);) {
        going.left = nicxi_left(&limit);
        post->run = going.first;
        bool is_done = nicxi_do(post, options->hang, go_on, &going);
        *tried = (uint32_t)post->run + 1;
        if (!is_done)
            return;
        going.first = (uint32_t)post->run + 1;
    }
}

uint32_t nicxi_count_fine(const struct options *options, struct post *post, const struct beginning *beginning,
                          uint32_t wanted)
{
    uint32_t tried;
    count_fine(options, post, beginning, wanted, &tried);
    return post->fine;
}

bool nicxi_can_be_fine(const struct options *options, struct post *post, const struct beginning *beginning,
                       uint32_t *tried)
{
    count_fine(options, post, beginning, 1, tried);
    return post->fine;
}

/* --- the turning point --- */

struct turning {
    const struct options *options;
    const struct failure *failure;
    struct post *post;
    struct limit limit;
    uint32_t tried; /* schedules tried after the beginning examined last */
};

static bool can_be_fine(struct turning *it, uint32_t length, uint32_t tries)
{
    const struct beginning beginning = {&it->failure->omitted, it->failure->schedule, length, tries};
    return nicxi_can_be_fine(it->options, it->post, &beginning, &it->tried);
}

/* Returns the length in points of the shortest beginning after which no schedule was fine; 0 if all schedules fail,
   UNKNOWN if time ran out. */
static uint32_t first_lost(struct turning *it)
{
    uint32_t low = 0, high = it->failure->result.points;
    if (!can_be_fine(it, 0, MANY))
        return 0;
    while (high - low > 1) {
        if (nicxi_is_over(&it->limit))
            return UNKNOWN;
        uint32_t middle = low + (high - low) / 2;
        if (can_be_fine(it, middle, FEW))
            low = middle;
        else
            high = middle;
    }
    it->tried = 0;
    while (high < it->failure->result.points && can_be_fine(it, high, MANY)) {
        high++;
        it->tried = 0;
        if (nicxi_is_over(&it->limit))
            return UNKNOWN;
    }
    return high;
}

void nicxi_find_turn(const struct options *options, const struct failure *failure, struct turn *turn)
{
    struct turning it = {options, failure, nicxi_posts(1), nicxi_limit(2 * MOST_SECONDS), 0};
    memset(turn, 0, sizeof *turn);
    if (!it.post || failure->is_stale || failure->result.outcome == NICX_HANG) {
        if (it.post)
            nicxi_free_posts(it.post, 1);
        return;
    }
    uint32_t lost = first_lost(&it);
    turn->kind = lost == UNKNOWN                        ? TURN_UNKNOWN
                 : lost                                 ? TURN_FOUND
                 : failure->result.outcome == NICX_RACE ? TURN_RACE
                                                        : TURN_NONE;
    turn->tried = it.tried;
    if (turn->kind == TURN_FOUND && can_be_fine(&it, lost - 1, MANY)) {
        turn->point = lost - 1;
        turn->other = it.post->at >= lost ? it.post->schedule[lost - 1] : (uint16_t)NOBODY;
    } else if (turn->kind == TURN_FOUND) {
        turn->kind = TURN_UNKNOWN;
    }
    nicxi_free_posts(it.post, 1);
}

const char *nicxi_turn_other(const struct turn *turn, char room[MOST_TURN])
{
    char name[96];
    snprintf(room, MOST_TURN, "%s %s", nicx_actor_name(turn->other, name),
             nicxi_is_value(turn->other) ? "were chosen" : "acted");
    return room;
}

const char *nicxi_turn_words(const struct turn *turn, char room[MOST_TURN])
{
    char other[MOST_TURN];
    room[0] = 0;
    if (turn->kind == TURN_FOUND && turn->tried)
        snprintf(room, MOST_TURN,
                 "point of no return: if %.120s here instead, the run could still succeed; after this step all %u "
                 "tried schedules fail",
                 nicxi_turn_other(turn, other), (unsigned)turn->tried);
    else if (turn->kind == TURN_FOUND)
        snprintf(room, MOST_TURN, "point of no return: if %.120s here instead, the run could still succeed",
                 nicxi_turn_other(turn, other));
    if (turn->kind == TURN_NONE)
        snprintf(room, MOST_TURN, "all %u tried schedules fail: the order of steps doesn't matter",
                 (unsigned)turn->tried);
    if (turn->kind == TURN_RACE)
        snprintf(room, MOST_TURN, "all %u tried schedules have a race: nothing orders the two accesses in any of them",
                 (unsigned)turn->tried);
    return room;
}
