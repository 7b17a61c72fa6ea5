/* Shrinking a failure. */
#ifndef NICX_SHRINK_H
#define NICX_SHRINK_H

#include "limit.h"
#include "search.h"

struct shrinking {
    const struct options *options;
    struct failure *best;
    struct post *post;
    struct omitted omitted; /* what the attempt leaves out */
    uint16_t *list;         /* the order that the attempt follows */
    uint32_t length;
    uint32_t tries;
    uint32_t needed; /* how many schedules of the reduced scenario must be fine; 0: unknown */
    struct limit limit;
};

bool nicxi_shrinking_is_over(const struct shrinking *it);
/* Runs `list` without `omitted`. Returns whether the schedule fails like the best failure and beats it. If so, the
   schedule becomes the best failure. */
bool nicxi_attempt(struct shrinking *it);
/* Like nicxi_attempt, for random schedules without `omitted`; shrinks the first one that fails the same way. */
bool nicxi_attempt_by_chance(struct shrinking *it);

/* Leaves out tasks, handlers, frames and link changes as long as the reduced scenario fails as before, and its
   schedules are fine about as often. Returns whether anything was left out. */
bool nicxi_omit(struct shrinking *it);

/* Whether two failures have the same cause. */
bool nicxi_is_the_same(const nicx_result *a, const nicx_result *b);

/* Silences the driver's prints and a sanitizer's report of a crash, which were already shown. */
void nicxi_be_quiet(void);

/* --- the cycle at the end of an endless schedule --- */

struct cycle {
    uint32_t from, length; /* the repeating points at the end; length 0 if none repeat */
};

struct cycle nicxi_find_cycle(const uint16_t *schedule, const struct step *steps, uint32_t points);

/* --- whether a schedule with a given beginning can still pass --- */

struct beginning {
    const struct omitted *omitted;
    const uint16_t *list; /* null: any beginning */
    uint32_t length, tries;
};

/* Runs schedules that start this way and continue at random, until `wanted` were fine. Returns how many were. */
uint32_t nicxi_count_fine(const struct options *options, struct post *post, const struct beginning *beginning,
                          uint32_t wanted);
/* Runs schedules that start this way until one is fine, and leaves its result in the post. `tried` is how many ran:
   all, or as many as a few seconds allow. */
bool nicxi_can_be_fine(const struct options *options, struct post *post, const struct beginning *beginning,
                       uint32_t *tried);

#endif
