/* A cleaner reads the head before it takes the lock, and in the meantime another thread cleans past that head. To reach
   the old head, the cleaner goes around the ring once, over outstanding slots. */
#include "corpus.h"

enum { FRAMES = 4, POOL = 3 };

static struct {
    nicx_mutex lock;
    bool scheduled;
    unsigned clean, tail, free;
} driver;

static const char *bring_up(void)
{
    lend_blocks(POOL);
    bring_up_transmit();
    bring_up_transmit_interrupt();
    return NULL;
}

static void clean_to(unsigned head)
{
    while (driver.clean != head) {
        driver.clean = (driver.clean + 1) % SLOTS;
        driver.free++;
    }
}

static void clean(void)
{
#ifndef FIXED
    unsigned head = nicx_read32(NIC_TDH(0));
    nicx_lock(&driver.lock);
#else
    nicx_lock(&driver.lock);
    unsigned head = nicx_read32(NIC_TDH(0));
#endif
    clean_to(head);
    nicx_unlock(&driver.lock);
}

static bool has_room(void *unused)
{
    return driver.free > 0;
}

/* Buffers are used in turn; each is reused after it was freed. */
static void send(void *unused)
{
    for (unsigned k = 0; k < FRAMES; k++) {
        clean();
        nicx_wait_until(has_room, NULL);
        fill_buffer(k % POOL, k);
        put_transmit(driver.tail, k % POOL, EOP_RS);
        nicx_lock(&driver.lock);
        driver.free--;
        driver.tail = (driver.tail + 1) % SLOTS;
        nicx_write32(NIC_TDT(0), driver.tail);
        nicx_unlock(&driver.lock);
    }
}

static void isr(void *unused)
{
    driver.scheduled = true;
}

static void cleaner(void *unused)
{
    for (;;) {
        nicx_wait_until(nicx_is_set, &driver.scheduled);
        driver.scheduled = false;
        clean();
    }
}

static void begin(void)
{
    memset(&driver, 0, sizeof driver);
    driver.free = POOL;
    nicx_task("send", send, NULL);
    nicx_service("cleaner", cleaner, NULL);
    nicx_handler("isr", 0, 5, isr, NULL, NICX_BESIDE);
}

static const char *end(void)
{
    return driver.free > POOL ? "a slot was reclaimed before it completed" : went_out(FRAMES);
}

DRIVER(.name = "tdh_cached_over_wrap")
