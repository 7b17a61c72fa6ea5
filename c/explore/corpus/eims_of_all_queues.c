/* A poll unmasks the causes of all queues, including a queue with a poll still running. The message that follows finds
   that poll already scheduled, and has no effect; its frame stays in the ring. */
#include "corpus.h"

enum { QUEUES = 2, FRAMES = 3, ALL = 3 };

static struct {
    bool scheduled[QUEUES];
    unsigned next[QUEUES], got;
} driver;

static const unsigned queues[QUEUES] = {0, 1};
static const uint64_t rings[QUEUES] = {RX_RING, NEW_RING};

static const char *bring_up(void)
{
    bring_up_two_queues();
    nicx_write32(NIC_GPIE, NIC_GPIE_MULTIPLE_MSIX);
    nicx_write32(NIC_IVAR(0), NIC_IVAR_INT_ALLOC_0_IS(0) | NIC_IVAR_INT_ALLOC_VAL_0 | NIC_IVAR_INT_ALLOC_2_IS(1) |
                                  NIC_IVAR_INT_ALLOC_VAL_2);
    nicx_write32(NIC_EIAC, ALL);
    nicx_write32(NIC_EIMS, ALL);
    return NULL;
}

static void isr(void *argument)
{
    unsigned queue = *(const unsigned *)argument;
    nicx_write32(NIC_EIMC, 1u << queue);
    driver.scheduled[queue] = true;
}

static void poll(void *argument)
{
    unsigned queue = *(const unsigned *)argument;
    for (;;) {
        nicx_wait_until(nicx_is_set, &driver.scheduled[queue]);
        while (is_done(rings[queue], driver.next[queue], RX_DONE)) {
            driver.next[queue]++;
            driver.got++;
        }
        nicx_point(); /* the stack processes the frames */
        driver.scheduled[queue] = false;
#ifndef FIXED
        nicx_write32(NIC_EIMS, ALL);
#else
        nicx_write32(NIC_EIMS, 1u << queue);
#endif
    }
}

static void begin(void)
{
    memset(&driver, 0, sizeof driver);
    for (unsigned k = 0; k < QUEUES; k++) {
        nicx_service(k ? "poll1" : "poll0", poll, (void *)(uintptr_t)&queues[k]);
        nicx_handler(k ? "isr1" : "isr0", 0, (uint8_t)k, isr, (void *)(uintptr_t)&queues[k], NICX_BESIDE);
    }
    for (unsigned k = 0; k < FRAMES; k++)
        flow_comes(k % 2);
}

static const char *end(void)
{
    return driver.got == FRAMES ? NULL : "a frame is in the ring, but nothing will poll it";
}

DRIVER(.name = "eims_of_all_queues", .blocks = 18, .queues = 2)
