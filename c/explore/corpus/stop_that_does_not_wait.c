/* A driver takes a queue's buffers back before the queue is off. Until then the queue still receives, and the device
   writes to memory that is no longer the queue's. */
#include "corpus.h"

enum { FRAMES = 2, POSTED = 2 };

static const char *bring_up(void)
{
    lend_blocks(POSTED);
    bring_up_receive(POSTED);
    return NULL;
}

static void stop(void *unused)
{
    nicx_write32(NIC_RXDCTL(0), 0);
#ifdef FIXED
    while (nicx_read32(NIC_RXDCTL(0)) & ENABLE)
        nicx_wait();
#endif
    for (unsigned k = 0; k < POSTED; k++)
        nicx_take((uint32_t)(buffer(k) / NIC_BLOCK_BYTES));
}

static void begin(void)
{
    nicx_task("stop", stop, NULL);
    frames_come(FRAMES);
}

static const char *end(void)
{
    return NULL;
}

DRIVER(.name = "stop_that_does_not_wait")
