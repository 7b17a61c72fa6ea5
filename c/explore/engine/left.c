/* A thread that is left may return through C frames too, so code after a point checks whether its thread is left. */
#include "left.h"

#include "engine.h"

bool nicxi_unwinds(bool it_does)
{
    struct thread *self = nicxi.self;
    if (!self)
        return false;
    bool it_did = self->unwinds;
    self->unwinds = it_does;
    return it_did;
}

bool nicxi_is_left(void)
{
    return nicxi.phase == LEAVING;
}

void nicxi_unwound(void)
{
    struct thread *self = nicxi.self;
    self->unwinds = false;
    self->stack = BUSY;
    nicxi.self = NULL;
    nicxi_fiber_switch(&self->fiber, &nicxi.main);
}

/* Unwinds a thread's stack. If the unwinding hangs, the search reports which stack it was. */
static void unwind(int number)
{
    struct thread *thread = &nicxi.threads[number];
    if (!thread->unwinds)
        return;
    nicxi.notes->leaves = (uint32_t)number + 1;
    while (thread->unwinds)
        nicxi_thread_resume(NULL, thread);
    nicxi.notes->leaves = 0;
    nicxi.self = NULL;
}

void nicxi_unwind_all(void)
{
    uint8_t phase = nicxi.phase;
    nicxi.phase = LEAVING;
    for (int k = 0; k < nicxi.tasks; k++)
        unwind(k);
    for (int k = NICX_TASKS; k < NICX_TASKS + nicxi.handlers; k++)
        unwind(k);
    nicxi.phase = phase;
}
