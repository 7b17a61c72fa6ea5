/* Leaves out what a failure doesn't need: tasks, handlers, frames, link changes. Many scenarios fail just because
   something is missing: `end` may count frames that never arrive, or a task may wait for another that doesn't exist. So
   something is left out only if random schedules without it are fine at least half as often as schedules of the whole
   scenario. Then the order still causes the failure. One fine schedule isn't enough: even without the driver's poll, a
   schedule that drops the frame is fine. */
#include <string.h>

#include "shrink.h"

enum { TRIES = 64 };

static uint32_t fine_without(const struct shrinking *it, const struct omitted *omitted, uint32_t wanted)
{
    const struct beginning any = {omitted, NULL, 0, TRIES};
    return nicxi_count_fine(it->options, it->post, &any, wanted);
}

static bool can_be_fine(const struct shrinking *it, const struct omitted *omitted)
{
    return fine_without(it, omitted, it->needed) >= it->needed;
}

/* Tries to leave out these entries of a list as well. */
static bool try_without(struct shrinking *it, bool *list, uint32_t from, uint32_t to)
{
    bool any = false;
    for (uint32_t k = from; k < to; k++) {
        any |= !list[k];
        list[k] = true;
    }
    if (!any)
        return false;
    it->length = it->best->result.points;
    memcpy(it->list, it->best->schedule, it->length * sizeof *it->list);
    return !nicxi_shrinking_is_over(it) && can_be_fine(it, &it->omitted) &&
           (nicxi_attempt(it) || nicxi_attempt_by_chance(it));
}

/* Tries to leave out a whole list, then halves of it, and so on down to single entries, always starting at its end. */
static bool omit_of(struct shrinking *it, bool *list, uint32_t count)
{
    bool any = false;
    for (uint32_t size = count; size; size = size == 1 ? 0 : (size + 1) / 2)
        for (uint32_t to = count; to && !nicxi_shrinking_is_over(it);) {
            uint32_t from = to > size ? to - size : 0;
            any |= try_without(it, list, from, to);
            it->omitted = it->best->omitted;
            to = from;
        }
    return any;
}

/* Returns the number of tasks that `begin` names. They precede the tasks that the driver creates. */
static uint32_t named_tasks(void)
{
    uint32_t count = 0;
    while (count < nicxi.tasks && !nicxi.threads[count].is_made)
        count++;
    return count;
}

bool nicxi_omit(struct shrinking *it)
{
    it->omitted = it->best->omitted;
    if (it->best->result.outcome == NICX_HANG)
        return false;
    if (!it->needed)
        it->needed = (fine_without(it, &it->omitted, TRIES) + 1) / 2;
    if (!it->needed)
        return false;
    bool any = omit_of(it, it->omitted.threads, named_tasks());
    any |= omit_of(it, it->omitted.threads + NICX_TASKS, nicxi.handlers);
    any |= omit_of(it, it->omitted.links, nicxi.link_count);
    any |= omit_of(it, it->omitted.frames, nicxi.frame_count);
    return any;
}
