/* A watchdog restarts the ring while a thread sends, and the thread's descriptor goes to its slot in the old ring. The
   watchdog is a timer, and doesn't take the senders' lock. */
#include "corpus.h"

enum { FRAMES = 2, SOON = 8 };

static struct {
    nicx_mutex lock;
    unsigned tail, resets;
    int watchdog;
} driver;

static const char *bring_up(void)
{
    lend_blocks(FRAMES);
    bring_up_transmit();
    for (unsigned k = 0; k < FRAMES; k++)
        fill_buffer(k, k);
    return NULL;
}

static void set_enable(uint32_t wanted)
{
    nicx_write32(NIC_TXDCTL(0), wanted);
    while ((nicx_read32(NIC_TXDCTL(0)) & ENABLE) != wanted)
        nicx_wait();
}

/* Sent frames aren't sent again; the others move to the front of the ring. */
static void start_again(void)
{
    set_enable(0);
    unsigned head = nicx_read32(NIC_TDH(0)), left = driver.tail - head;
    for (unsigned k = 0; k < left; k++)
        put_transmit(k, head + k, EOP_RS);
    nicx_write32(NIC_TDH(0), 0);
    nicx_write32(NIC_TDT(0), 0);
    set_enable(ENABLE);
    driver.tail = left;
    nicx_write32(NIC_TDT(0), left);
}

/* Checks once, when time is up. */
static void watch(void *unused)
{
#ifdef FIXED
    nicx_lock(&driver.lock);
#endif
    if (driver.tail && nicx_read32(NIC_TDH(0)) == 0) {
        driver.resets++;
        start_again();
    }
#ifdef FIXED
    nicx_unlock(&driver.lock);
#endif
}

static void send(void *unused)
{
    for (unsigned k = 0; k < FRAMES; k++) {
        nicx_lock(&driver.lock);
        unsigned slot = driver.tail;
        put_transmit(slot, k, EOP_RS);
        driver.tail = slot + 1;
        nicx_write32(NIC_TDT(0), slot + 1);
        if (!k)
            nicx_arm(driver.watchdog);
        nicx_unlock(&driver.lock);
    }
}

static void begin(void)
{
    memset(&driver, 0, sizeof driver);
    nicx_task("send", send, NULL);
    driver.watchdog = nicx_timer("watchdog", watch, NULL, SOON);
}

static const char *end(void)
{
    return went_out(FRAMES);
}

DRIVER(.name = "watchdog_during_send")
