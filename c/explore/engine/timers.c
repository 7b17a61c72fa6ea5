/* Timers: handlers started by time. An armed timer fires once: when all is at rest, or at any point up to its
   deadline. */
#include "engine.h"
#include "left.h"

bool nicxi_fires_at_rest(const struct actor *actor)
{
    const struct thread *timer = &nicxi.threads[actor->of];
    return timer->is_timer && !timer->within && timer->pending && timer->state == OFF;
}

static bool is_due(const struct actor *actor)
{
    const struct thread *timer = &nicxi.threads[actor->of];
    return actor->kind == BY_START && timer->is_timer && timer->within && timer->pending && timer->state == OFF &&
           *nicxi.points >= timer->due;
}

uint32_t nicxi_list_due(uint16_t *can)
{
    uint32_t count = 0;
    for (uint16_t k = 0; k < nicxi.count; k++)
        if (is_due(&nicxi.actors[k]))
            can[count++] = k;
    return count;
}

/* Returns the timer with this number, after a point of the calling thread. Returns null if there is no such timer, or
   if the thread is left. */
static struct thread *timer_of(int number, enum local local)
{
    struct thread *self = nicxi.self;
    if (!nicxi_may_act())
        return NULL;
    if (number < NICX_TASKS || number >= NICX_TASKS + nicxi.handlers || !nicxi.threads[number].is_timer) {
        nicxi_failed(NICX_MISUSE, "no such timer: %d", number);
        nicxi_leave();
        return NULL;
    }
    if (!self)
        return &nicxi.threads[number];
    self->next.kind = STEP_LOCAL;
    self->next.word = (uint32_t)local;
    nicxi_next(self);
    if (nicxi_is_left())
        return NULL;
    nicxi_went_on(self);
    self->is_void = false;
    self->next.of = (uint16_t)number;
    nicxi_announce(&self->next);
    return &nicxi.threads[number];
}

void nicx_arm(int timer)
{
    struct thread *it = timer_of(timer, LOCAL_ARM);
    if (!it)
        return;
    it->pending = !nicxi.omitted.threads[timer];
    it->due = (nicxi.phase == RUNNING ? *nicxi.points : 0) + it->within;
}

bool nicx_disarm(int timer)
{
    struct thread *it = timer_of(timer, LOCAL_DISARM);
    bool was_armed = it && it->pending;
    if (it)
        it->pending = false;
    return was_armed;
}
