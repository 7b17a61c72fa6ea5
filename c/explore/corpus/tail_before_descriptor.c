/* The tail is moved before the descriptor that it covers is written: the device may fetch the slot's old contents. */
#include "corpus.h"

enum { FRAMES = 3, POSTED = 2 };

static struct {
    unsigned next, tail, got;
} driver;

static const char *bring_up(void)
{
    lend_blocks(SLOTS);
    bring_up_receive(POSTED);
    return NULL;
}

static void repost(unsigned slot)
{
#ifndef FIXED
    nicx_write32(NIC_RDT(0), (slot + 1) % SLOTS);
    nicx_put64(RX_RING + 16 * slot, buffer(slot));
    nicx_put64(RX_RING + 16 * slot + 8, 0);
#else
    nicx_put64(RX_RING + 16 * slot, buffer(slot));
    nicx_put64(RX_RING + 16 * slot + 8, 0);
    nicx_write32(NIC_RDT(0), (slot + 1) % SLOTS);
#endif
}

static void poll(void *unused)
{
    while (driver.got < FRAMES) {
        if (!is_done(RX_RING, driver.next, RX_DONE)) {
            nicx_wait();
            continue;
        }
        driver.next = (driver.next + 1) % SLOTS;
        driver.got++;
        repost(driver.tail);
        driver.tail = (driver.tail + 1) % SLOTS;
    }
}

static void begin(void)
{
    memset(&driver, 0, sizeof driver);
    driver.tail = POSTED;
    nicx_task("poll", poll, NULL);
    frames_come(FRAMES);
}

static const char *end(void)
{
    return driver.got == FRAMES ? NULL : "a frame is lost";
}

DRIVER(.name = "tail_before_descriptor")
