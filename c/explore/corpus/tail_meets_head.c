/* A driver posts every slot of a ring, so the tail equals the head. To the device such a ring is empty. */
#include "corpus.h"

enum { FRAMES = 2, POSTED = 4 };

static struct {
    unsigned next, tail, posted, got;
} driver;

static const char *bring_up(void)
{
    lend_blocks(SLOTS);
    bring_up_receive(POSTED);
    return NULL;
}

static void refill(void)
{
#ifndef FIXED
    unsigned most = SLOTS;
#else
    unsigned most = SLOTS - 1;
#endif
    for (; driver.posted < most; driver.posted++) {
        nicx_put64(RX_RING + 16 * driver.tail, buffer(driver.tail));
        nicx_put64(RX_RING + 16 * driver.tail + 8, 0);
        driver.tail = (driver.tail + 1) % SLOTS;
    }
    nicx_write32(NIC_RDT(0), driver.tail);
}

static void poll(void *unused)
{
    while (driver.got < FRAMES) {
        if (!is_done(RX_RING, driver.next, RX_DONE)) {
            nicx_wait();
            continue;
        }
        driver.next = (driver.next + 1) % SLOTS;
        driver.got++;
        driver.posted--;
        refill();
    }
}

static void begin(void)
{
    memset(&driver, 0, sizeof driver);
    driver.tail = driver.posted = POSTED;
    nicx_service("poll", poll, NULL);
    frames_come(FRAMES);
}

static const char *end(void)
{
    return driver.got == FRAMES ? NULL : "a frame is waiting, but the device owns no slot";
}

DRIVER(.name = "tail_meets_head")
