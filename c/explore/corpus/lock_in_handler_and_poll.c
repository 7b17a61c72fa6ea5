/* A poll holds a lock when its processor is interrupted, and the handler wants the same lock: neither can continue. */
#include "corpus.h"

enum { FRAMES = 2 };

static struct {
    nicx_mutex lock;
    unsigned next, interrupts;
} driver;

static const char *bring_up(void)
{
    lend_blocks(7);
    bring_up_receive(7);
    bring_up_interrupt();
    return NULL;
}

static void isr(void *unused)
{
    nicx_read32(NIC_EICR);
    nicx_lock(&driver.lock);
    driver.interrupts++;
    nicx_unlock(&driver.lock);
}

static void poll(void *unused)
{
    while (driver.next < FRAMES) {
#ifdef FIXED
        nicx_interrupts_off();
#endif
        nicx_lock(&driver.lock);
        bool done = is_done(RX_RING, driver.next, RX_DONE);
        driver.next += done;
        nicx_unlock(&driver.lock);
#ifdef FIXED
        nicx_interrupts_on();
#endif
        if (!done)
            nicx_wait();
    }
}

static void begin(void)
{
    memset(&driver, 0, sizeof driver);
    driver.lock.name = "counters";
    int task = nicx_task("poll", poll, NULL);
    nicx_handler("isr", 0, 5, isr, NULL, task);
    frames_come(FRAMES);
}

static const char *end(void)
{
    return driver.next == FRAMES ? NULL : "a frame is lost";
}

DRIVER(.name = "lock_in_handler_and_poll")
