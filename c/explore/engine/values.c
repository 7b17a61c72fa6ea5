/* Values that the driver has the search choose: whether an allocation fails, which input arrives. Choosing one is a
   point in the schedule at which no other actor can run. In lists of actors, a value is represented by `VALUES` plus
   the value. */
#include "engine.h"

static bool refuses(uint32_t bound)
{
    if (nicxi.phase == BRINGING_UP || nicxi.phase == ENDING)
        nicxi_failed(NICX_MISUSE, "only begin, tasks and handlers may call %schoose", nicxi_calls);
    else if (!bound || bound > NICX_VALUES)
        nicxi_failed(NICX_MISUSE, "%schoose takes 1 to %d values, not %lu", nicxi_calls, NICX_VALUES,
                     (unsigned long)bound);
    else if (*nicxi.points >= nicxi.most_points)
        nicxi_failed(NICX_ENDLESS, "still running after %u points; the last to act was %schoose",
                     (unsigned)nicxi.most_points, nicxi_calls);
    else
        return false;
    nicxi_leave();
    return true;
}

static void note(uint32_t value, uint32_t bound)
{
    struct step step = {0};
    step.kind = STEP_VALUE;
    step.of = nicxi.self ? (uint16_t)(nicxi.self - nicxi.threads) : (uint16_t)NOBODY;
    step.word = value;
    step.length = bound;
    nicxi.schedule[*nicxi.points] = (uint16_t)(VALUES + value);
    *nicxi.points += 1;
    nicxi_announce(&step);
}

/* Returns 0 while a scenario is being opened, when there is no chooser. */
uint32_t nicx_choose(uint32_t bound)
{
    if (!nicxi_may_act() || refuses(bound) || bound == 1 || !nicxi.chooser)
        return 0;
    for (uint32_t k = 0; k < bound; k++)
        nicxi.can[k] = (uint16_t)(VALUES + k);
    uint32_t value = nicxi.chooser->choose(nicxi.chooser->argument, nicxi.can, bound);
    if (value >= bound) {
        nicxi.is_cut = true;
        nicxi_leave();
        return 0;
    }
    note(value, bound);
    return value;
}

uint64_t nicxi_sum_of_values(const uint16_t *schedule, uint32_t points)
{
    uint64_t sum = 0;
    for (uint32_t k = 0; k < points; k++)
        sum += nicxi_is_value(schedule[k]) ? schedule[k] - VALUES + 0u : 0;
    return sum;
}

uint32_t nicxi_switches(const uint16_t *schedule, uint32_t points)
{
    uint32_t switches = 0;
    uint16_t last = NOBODY;
    for (uint32_t k = 0; k < points; k++) {
        if (nicxi_is_value(schedule[k]))
            continue;
        switches += last != NOBODY && schedule[k] != last;
        last = schedule[k];
    }
    return switches;
}
