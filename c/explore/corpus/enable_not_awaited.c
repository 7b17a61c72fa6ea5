/* A driver stops a queue only if it reads as on, but a queue that is being enabled still reads as off for a while. It
   may turn on after the stop, and then the device writes to buffers that are no longer the queue's. A correct driver
   waits for the bit. */
#include "corpus.h"

enum { FRAMES = 1, POSTED = 2 };

static const char *bring_up(void)
{
    lend_blocks(POSTED);
    bring_up_receive(POSTED);
    nicx_write32(NIC_RXDCTL(0), 0);
    nicx_settle();
    return NULL;
}

static bool is_on(void)
{
    return nicx_read32(NIC_RXDCTL(0)) & ENABLE;
}

static void start(void)
{
    nicx_write32(NIC_RXDCTL(0), ENABLE);
#ifdef FIXED
    while (!is_on())
        nicx_wait();
#endif
}

static void stop(void)
{
    if (is_on())
        nicx_write32(NIC_RXDCTL(0), 0);
    while (is_on())
        nicx_wait();
    for (unsigned k = 0; k < POSTED; k++)
        nicx_take((uint32_t)(buffer(k) / NIC_BLOCK_BYTES));
}

static void start_and_stop(void *unused)
{
    start();
    stop();
}

static void begin(void)
{
    nicx_task("start_and_stop", start_and_stop, NULL);
    frames_come(FRAMES);
}

static const char *end(void)
{
    return NULL;
}

DRIVER(.name = "enable_not_awaited")
