/* Searches for a failing schedule with several processes. */
#ifndef NICX_SEARCH_H
#define NICX_SEARCH_H

#include "options.h"
#include "process.h"
#include "strategy.h"
#include "unpointed.h"

struct totals {
    uint64_t runs, points;
    double seconds;
    bool is_whole; /* an exhaustive search that is complete */
    struct notes notes;
    struct coverage coverage;
    uint64_t distinct; /* distinct schedules; not counted by the exhaustive search */
    bool is_exact;
    struct unpointed_list unpointed;
    /* the counter of distinct schedules, freed by the caller; null for the exhaustive search, or if no result is
       written */
    struct distinct *sketch;
};

/* The failure of the lowest run that failed. The caller frees the schedule. */
struct failure {
    bool is_there;
    bool is_stale; /* its schedule alone doesn't fail: it needs what earlier schedules left in the driver */
    bool is_trial; /* found before the first run, while measuring how long schedules are */
    enum strategy strategy;
    uint32_t preemptions; /* exhaustive search: the bound in force when it was found */
    uint64_t run;
    nicx_result result;
    uint16_t *schedule;
    uint32_t cycle;         /* number of repeating points at the end; 0: none */
    struct omitted omitted; /* tasks, handlers and events that the schedule leaves out */
};

/* Returns the time of the monotonic clock, in seconds. */
double nicxi_now(void);

/* Returns "random in run 36": the strategy and the run that found it. */
const char *nicxi_where(const struct failure *failure, char room[80]);

/* Returns null, or why no search is possible. */
const char *nicxi_search(const struct options *options, struct totals *totals, struct failure *failure);

/* Runs a failure's schedule again in a new process. If it doesn't fail the same way, the failure is stale, and becomes
   a failure of `begin`. */
void nicxi_confirm(const struct options *options, struct failure *failure);

/* Whether the failure happens again in a new process. */
bool nicxi_fails(const struct options *options, const struct failure *failure);

/* Shrinks a failure: replaces its schedule and its result with those of the similar failure that has the fewest
   switches. Returns how many schedules were tried. */
uint32_t nicxi_shrink(const struct options *options, struct failure *failure);

#endif
