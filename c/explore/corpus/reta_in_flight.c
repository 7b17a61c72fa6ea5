/* A driver removes a queue from RETA, and stops checking the queue's ring as soon as the ring is empty. Frames that
   were already inside the device still arrive in that ring. */
#include "corpus.h"

enum { FRAMES = 3, OLD = 1 };

static struct {
    unsigned next[2], got;
    bool is_retiring, is_retired;
} driver;

static const uint64_t rings[2] = {RX_RING, NEW_RING};

static const char *bring_up(void)
{
    bring_up_two_queues();
    return NULL;
}

static bool take(unsigned queue)
{
    if (!is_done(rings[queue], driver.next[queue], RX_DONE))
        return false;
    driver.next[queue]++;
    driver.got++;
    return true;
}

/* Polls the retired queue's ring until it is empty for the first time. */
static void poll(void *unused)
{
    for (;;) {
        bool is_last = driver.is_retiring, any = take(0);
        if (!driver.is_retired)
            any |= take(OLD);
#ifndef FIXED
        driver.is_retired |= is_last && !any;
#else
        (void)is_last;
#endif
        if (!any)
            nicx_wait();
    }
}

static void retire(void *unused)
{
    nicx_write32(NIC_RETA(0), 0);
    driver.is_retiring = true;
}

static void begin(void)
{
    memset(&driver, 0, sizeof driver);
    nicx_service("poll", poll, NULL);
    nicx_task("retire", retire, NULL);
    for (uint8_t k = 0; k < FRAMES; k++)
        flow_comes(1);
}

static const char *end(void)
{
    return driver.got == FRAMES ? NULL : "a frame is in the ring of a queue that is no longer polled";
}

DRIVER(.name = "reta_in_flight", .blocks = 18, .queues = 2)
