/* A sender and a cleaner free the same buffer, because no lock protects it. The sender looks for completed frames
   before each send, the cleaner after an interrupt. */
#include "corpus.h"

enum { FRAMES = 3, POOL = 2 };

static struct {
    nicx_mutex lock;
    bool scheduled;
    unsigned clean, tail;
    uint8_t buffer_in[SLOTS];
    uint8_t unused[2 * SLOTS];
    unsigned free;
} driver;

static const char *bring_up(void)
{
    lend_blocks(POOL);
    bring_up_transmit();
    bring_up_transmit_interrupt();
    return NULL;
}

static void clean(void)
{
#ifdef FIXED
    nicx_lock(&driver.lock);
#endif
    for (unsigned slot = driver.clean; slot != driver.tail && is_done(TX_RING, slot, TX_DONE);) {
        driver.unused[driver.free++] = driver.buffer_in[slot];
        slot = driver.clean = (slot + 1) % SLOTS;
    }
#ifdef FIXED
    nicx_unlock(&driver.lock);
#endif
}

static bool has_buffer(void *unused)
{
    return driver.free > 0;
}

static void send(void *unused)
{
    for (unsigned k = 0; k < FRAMES; k++) {
        clean();
        nicx_wait_until(has_buffer, NULL);
        uint8_t number = driver.unused[--driver.free];
        fill_buffer(number, k);
        put_transmit(driver.tail, number, EOP_RS);
        driver.buffer_in[driver.tail] = number;
        driver.tail = (driver.tail + 1) % SLOTS;
        nicx_write32(NIC_TDT(0), driver.tail);
    }
}

static void isr(void *unused)
{
    driver.scheduled = true;
}

static void cleaner(void *unused)
{
    for (;;) {
        nicx_wait_until(nicx_is_set, &driver.scheduled);
        driver.scheduled = false;
        clean();
    }
}

static void begin(void)
{
    memset(&driver, 0, sizeof driver);
    for (uint8_t k = 0; k < POOL; k++)
        driver.unused[driver.free++] = k;
    nicx_task("send", send, NULL);
    nicx_service("cleaner", cleaner, NULL);
    nicx_handler("isr", 0, 5, isr, NULL, NICX_BESIDE);
}

static const char *end(void)
{
    return driver.free > POOL ? "a buffer was freed twice" : went_out(FRAMES);
}

DRIVER(.name = "double_cleaner")
