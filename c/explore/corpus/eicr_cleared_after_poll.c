/* A poll finds its ring empty, clears EICR, and then unmasks. A frame that arrived after the poll's last look raised
   its cause before the write to EICR, so no interrupt reports it. */
#include "corpus.h"

enum { FRAMES = 2 };

static struct {
    bool scheduled;
    unsigned next, got;
} driver;

static const char *bring_up(void)
{
    lend_blocks(7);
    bring_up_receive(7);
    bring_up_interrupt();
    return NULL;
}

static void isr(void *unused)
{
    nicx_write32(NIC_EIMC, CAUSE);
    driver.scheduled = true;
}

static void poll(void *unused)
{
    while (driver.got < FRAMES) {
        nicx_wait_until(nicx_is_set, &driver.scheduled);
        driver.scheduled = false;
        nicx_read32(NIC_EICR);
        while (driver.next < 7 && is_done(RX_RING, driver.next, RX_DONE)) {
            driver.next++;
            driver.got++;
        }
#ifndef FIXED
        nicx_read32(NIC_EICR);
#endif
        nicx_write32(NIC_EIMS, CAUSE);
    }
}

static void begin(void)
{
    memset(&driver, 0, sizeof driver);
    nicx_service("poll", poll, NULL);
    nicx_handler("isr", 0, 5, isr, NULL, NICX_ANYWHERE);
    frames_come(FRAMES);
}

static const char *end(void)
{
    return driver.got == FRAMES ? NULL : "a frame is in the ring, but nothing will poll it";
}

DRIVER(.name = "eicr_cleared_after_poll")
