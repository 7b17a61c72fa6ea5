/* Two paths of a driver take the same two locks in opposite orders: a sender that holds its ring's lock reports under
   the statistics lock, and a reader of the statistics queries each ring under the ring's lock. Each waits for the lock
   that the other one holds. A correct driver always takes them in the same order. */
#include "corpus.h"

static struct {
    unsigned sent, tail;
} driver;

static nicx_mutex ring = {.name = "ring"}, statistics = {.name = "statistics"};

static void send_frame(void *unused)
{
    nicx_lock(&ring);
    put_transmit(driver.tail, 0, EOP_RS);
    driver.tail = (driver.tail + 1) % SLOTS;
    nicx_write32(NIC_TDT(0), driver.tail);
    nicx_lock(&statistics);
    driver.sent++;
    nicx_unlock(&statistics);
    nicx_unlock(&ring);
}

static void read_statistics(void *unused)
{
#ifdef FIXED
    nicx_lock(&ring);
    nicx_lock(&statistics);
#else
    nicx_lock(&statistics);
    nicx_lock(&ring);
#endif
    nicx_check(driver.sent == driver.tail, "the statistics don't match the ring");
    nicx_unlock(&ring);
    nicx_unlock(&statistics);
}

static const char *bring_up(void)
{
    lend_blocks(1);
    bring_up_transmit();
    fill_buffer(0, 0);
    return NULL;
}

static void begin(void)
{
    memset(&driver, 0, sizeof driver);
    nicx_task("sender", send_frame, NULL);
    nicx_task("reader", read_statistics, NULL);
}

static const char *end(void)
{
    return went_out(1);
}

DRIVER(.name = "lock_order", .fifo = 8)
