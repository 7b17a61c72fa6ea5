/* A driver moves a queue's ring without waiting until the queue is off. A queue that is being disabled stays on for a
   while, and keeps its old ring until then. */
#include "corpus.h"

static const char *bring_up(void)
{
    lend_blocks(7);
    bring_up_receive(7);
    return NULL;
}

static void wait_for_enable(uint32_t wanted)
{
    while ((nicx_read32(NIC_RXDCTL(0)) & ENABLE) != wanted)
        nicx_wait();
}

static void move_ring(void *unused)
{
    nicx_write32(NIC_RXDCTL(0), 0);
#ifdef FIXED
    wait_for_enable(0);
#endif
    nicx_write32(NIC_RDBAL(0), NEW_RING);
    nicx_write32(NIC_RXDCTL(0), ENABLE);
    wait_for_enable(ENABLE);
}

static void begin(void)
{
    nicx_task("move_ring", move_ring, NULL);
}

static const char *end(void)
{
    uint32_t base = 0;
    nic_peek32(nicx_device(), NIC_RDBAL(0), &base);
    return base == NEW_RING ? NULL : "the old ring is still in use";
}

DRIVER(.name = "enable_not_polled")
