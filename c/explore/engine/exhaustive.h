/* Runs all schedules up to a bound of preemptions, depth first, each from its beginning or from a checkpoint
   (checkpoint.h). A preemption is a switch away from an actor that could have continued. */
#ifndef NICX_EXHAUSTIVE_H
#define NICX_EXHAUSTIVE_H

#include "engine.h"

/* How processes share an exhaustive search: each takes the next part when it is done with its own. All schedules in a
   part follow the first schedule up to some point, and there all make the same choice, which differs from the first
   schedule's. */
struct parts {
    uint64_t next;
    volatile uint64_t most; /* highest number of a part from which a schedule was run */
    uint64_t base;          /* added to a part's number */
    uint32_t shard, shards; /* of every `shards` parts, number `shard` is searched; if `shards` is 0, all parts are */
};

struct exhaustive;

/* Returns null if memory runs out. With `sleeps`, leaves out a schedule if its steps were already explored in another
   order: one that differs only in the order of independent steps and had at least as many preemptions left. `part`
   holds the part being searched. */
struct exhaustive *nicxi_exhaustive(uint32_t preemptions, bool sleeps, struct parts *parts, volatile uint64_t *part);
void nicxi_free_exhaustive(struct exhaustive *it);

/* Moves to the next schedule; returns false if there is none. If a part belongs to another process, only the part's
   first step runs (a glance). A glance doesn't count as a schedule. The second function recognizes a glance only while
   the glance runs. */
bool nicxi_exhaustive_next(struct exhaustive *it);
bool nicxi_exhaustive_is_glance(const struct exhaustive *it);

/* The first returns the chooser for the next schedule; the second, called after the schedule, notes what it showed. */
nicx_chooser nicxi_exhaustive_chooser(struct exhaustive *it);
void nicxi_exhaustive_made(struct exhaustive *it);
/* Returns at how many points the next schedule makes the same choices as the last one. */
uint32_t nicxi_exhaustive_prefix(const struct exhaustive *it);

/* Whether a schedule took a different course than before, because the driver behaves differently on each run. */
bool nicxi_exhaustive_is_strange(const struct exhaustive *it);

#endif
