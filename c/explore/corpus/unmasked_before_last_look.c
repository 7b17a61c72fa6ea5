/* A poll unmasks and then checks its ring a last time: the next interrupt starts another poll on another processor, and
   both take the same slot. */
#include "corpus.h"

enum { FRAMES = 2 };

static struct {
    bool scheduled;
    unsigned next, got, polls;
} driver;

static const char *bring_up(void)
{
    lend_blocks(7);
    bring_up_receive(7);
    bring_up_interrupt();
    return NULL;
}

static void isr(void *unused)
{
    nicx_write32(NIC_EIMC, CAUSE);
    nicx_read32(NIC_EICR);
    driver.scheduled = true;
}

static void take_all(void)
{
    while (driver.next < 7 && is_done(RX_RING, driver.next, RX_DONE)) {
        driver.got++;
        driver.next++;
    }
}

static void poll(void *unused)
{
    for (;;) {
        nicx_wait_until(nicx_is_set, &driver.scheduled);
        driver.scheduled = false;
#ifndef FIXED
        nicx_write32(NIC_EIMS, CAUSE);
        take_all();
#else
        take_all();
        nicx_write32(NIC_EIMS, CAUSE);
#endif
    }
}

static void begin(void)
{
    memset(&driver, 0, sizeof driver);
    nicx_service("poll0", poll, NULL);
    nicx_service("poll1", poll, NULL);
    nicx_handler("isr", 0, 5, isr, NULL, NICX_BESIDE);
    frames_come(FRAMES);
}

static const char *end(void)
{
    return driver.got == FRAMES ? NULL : driver.got > FRAMES ? "a frame was received twice" : "a frame is lost";
}

DRIVER(.name = "unmasked_before_last_look")
