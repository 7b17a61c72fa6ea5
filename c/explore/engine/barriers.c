/* The driver's barriers. With strong memory they are no-ops and aren't points. */
#include "left.h"
#include "parts.h"
#include "weak.h"

static bool is_barrier_here(void)
{
    return nicxi_may_act() && nicxi.self && nicxi.is_weak;
}

static void stand_at(enum local local, bool releases, bool acquires)
{
    if (!is_barrier_here())
        return;
    struct thread *self = nicxi.self;
    self->next.kind = STEP_LOCAL;
    self->next.word = (uint32_t)local;
    nicxi_next(self);
    if (nicxi_is_left())
        return;
    nicxi_went_on(self);
    self->next.length = releases && acquires ? nicxi_released(self) : releases ? nicxi_ordered(self) : 0;
    if (acquires)
        nicxi_acquired(self);
    if (self->next.length)
        self->is_void = false;
    nicxi_announce(&self->next);
}

void nicx_wmb(void)
{
    stand_at(LOCAL_WMB, true, false);
}

void nicx_rmb(void)
{
    stand_at(LOCAL_RMB, false, true);
}

void nicx_mb(void)
{
    stand_at(LOCAL_MB, true, true);
}

/* In the middle of a point no other actor runs, so the driver's pointer stores wait for its next call. */
static bool is_order_here(void)
{
    return nicxi_may_order() && nicxi.self && nicxi.is_weak;
}

void nicxi_drain(void)
{
    if (is_order_here() && nicxi_released(nicxi.self))
        nicxi.self->is_void = false;
}

/* For operations that are points themselves: an atomic operation, another kind of lock. */
void nicx_release(void)
{
    if (is_order_here())
        nicxi_ordered(nicxi.self);
}

void nicx_acquire(void)
{
    if (is_order_here())
        nicxi_acquired(nicxi.self);
}
