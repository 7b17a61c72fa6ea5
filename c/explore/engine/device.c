/* The device's state after the bring-up, restored before each schedule. */
#include <string.h>

#include "engine.h"
#include "heap.h"

/* The state after the bring-up: a copy of the explorer's piece if the library allocated from it (heap.h), otherwise a
   snapshot. */
static bool is_copied;
static nic_kept kept;

const char *nicxi_keep(void)
{
    is_copied = nicxi_heap_is_used();
    if (is_copied)
        return nicxi_heap_keep() ? NULL : "out of memory while saving the device";
    return nic_snapshot(&nicxi.device, &kept) == NIC_DONE ? NULL : "out of memory while saving the device";
}

void nicxi_drop_kept(void)
{
    nic_drop_snapshot(&kept);
}

/* Called by the library before it lends the caller's memory. A search doesn't see stores into that memory, so it would
   miss races on that memory; and restoring the device wouldn't restore its contents. If a task makes the call, the call
   doesn't return. */
bool nicxi_refuses_memory(const nic *n);
bool nicxi_refuses_memory(const nic *n)
{
    if (nicxi.phase == CLOSED || (n->device != nicxi.device.device && !nicxi_heap_has(n->device)))
        return false;
    nicxi_failed(NICX_MISUSE,
                 "%s calls nic_lend_memory, but the search can't see stores to memory lent this way: use nicx_lend",
                 nicxi.self ? nicxi.self->name : "the scenario");
    nicxi_leave();
    return true;
}

/* A schedule that changed nothing leaves nothing to restore. */
void nicxi_back(void)
{
    if (!nicxi.is_changed)
        return;
    nicxi.is_changed = false;
    if (is_copied)
        nicxi_heap_back();
    else if (nic_restore(&nicxi.device, &kept) != NIC_DONE)
        nicxi_failed(NICX_MISUSE, "out of memory while restoring the device");
}
