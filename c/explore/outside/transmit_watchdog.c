/* A transmit queue. A thread sends, and a cleaner frees the buffers of completed frames. If the head doesn't move for a
   while, a watchdog resets the queue: it turns the queue off and on, and posts the outstanding frames again.

   The watchdog looks for completed frames before the queue is off, so frames that go out after that are sent twice.
   With -DFIXED it waits until the queue is off. */
#include <string.h>

#include "../driver.h"

enum { SLOTS = 8, BUFFERS = 3, FRAME = 60, FRAMES = 4, TICKS = 2, RING = 0 };

static struct {
    nicx_mutex lock;
    bool scheduled;
    unsigned clean, tail; /* slots from `clean` up to `tail` are outstanding */
    uint8_t buffer_in[SLOTS];
    uint8_t unused[BUFFERS];
    unsigned free; /* the number of buffers in `unused` */
} driver;

static uint64_t buffer(unsigned number)
{
    return NIC_BLOCK_BYTES * (uint64_t)(1 + number);
}

static void make_frame(uint8_t frame[FRAME], unsigned number)
{
    static const uint8_t head[14] = {2, 0, 0, 0, 0, 1, 2, 0, 0, 0, 0, 2, 0x88, 0xB5};
    memset(frame, (int)number, FRAME);
    memcpy(frame, head, sizeof head);
}

/* --- the driver --- */

static void post(uint8_t number)
{
    nic_desc d = nic_tx_desc(buffer(number), FRAME, FRAME, NIC_TXD_EOP | NIC_TXD_RS);
    nicx_put64(RING + NIC_DESC_BYTES * driver.tail, d.first);
    nicx_put64(RING + NIC_DESC_BYTES * driver.tail + 8, d.second);
    driver.buffer_in[driver.tail] = number;
    driver.tail = (driver.tail + 1) % SLOTS;
    nicx_write32(NIC_TDT(0), driver.tail);
}

static void reclaim(void)
{
    while (driver.clean != driver.tail && nicx_get64(RING + NIC_DESC_BYTES * driver.clean + 8) & NIC_TXWB_DD) {
        driver.unused[driver.free++] = driver.buffer_in[driver.clean];
        driver.clean = (driver.clean + 1) % SLOTS;
    }
}

static bool has_buffer(void *unused)
{
    return driver.free > 0;
}

static void transmit(void *unused)
{
    uint8_t frame[FRAME];
    for (unsigned k = 0; k < FRAMES; k++) {
        nicx_wait_until(has_buffer, NULL);
        nicx_lock(&driver.lock);
        uint8_t number = driver.unused[--driver.free];
        make_frame(frame, k);
        nicx_dma_write(buffer(number), frame, FRAME);
        post(number);
        nicx_unlock(&driver.lock);
    }
}

static void isr(void *unused)
{
    driver.scheduled = true;
}

static void cleaner(void *unused)
{
    for (;;) {
        nicx_wait_until(nicx_is_set, &driver.scheduled);
        driver.scheduled = false;
        nicx_lock(&driver.lock);
        reclaim();
        nicx_unlock(&driver.lock);
    }
}

static void set_enable(uint32_t wanted)
{
    nicx_write32(NIC_TXDCTL(0), wanted);
    while ((nicx_read32(NIC_TXDCTL(0)) & NIC_TXDCTL_ENABLE) != wanted)
        nicx_wait();
}

static void reset_queue(void)
{
    uint8_t again[SLOTS];
    unsigned count = 0;
#ifdef FIXED
    set_enable(0);
    reclaim();
#else
    reclaim();
    set_enable(0);
#endif
    for (; driver.clean != driver.tail; driver.clean = (driver.clean + 1) % SLOTS)
        again[count++] = driver.buffer_in[driver.clean];
    driver.clean = driver.tail = 0;
    nicx_write32(NIC_TDT(0), 0);
    nicx_write32(NIC_TDH(0), 0);
    set_enable(NIC_TXDCTL_ENABLE);
    for (unsigned k = 0; k < count; k++)
        post(again[k]);
}

static bool is_outstanding(void *unused)
{
    return driver.clean != driver.tail;
}

static void watchdog(void *unused)
{
    for (unsigned tick = 0; tick < TICKS; tick++) {
        nicx_wait_until(is_outstanding, NULL);
        unsigned first = driver.clean;
        uint32_t head = nicx_read32(NIC_TDH(0));
        nicx_pause();
        nicx_pause();
        nicx_lock(&driver.lock);
        if (driver.clean == first && driver.clean != driver.tail && nicx_read32(NIC_TDH(0)) == head)
            reset_queue();
        nicx_unlock(&driver.lock);
    }
}

/* --- the scenario --- */

static const char *bring_up(void)
{
    nicx_lend_all();
    nicx_write32(NIC_TDBAL(0), RING);
    nicx_write32(NIC_TDLEN(0), NIC_DESC_BYTES * SLOTS);
    nicx_write32(NIC_DMATXCTL, nicx_read32(NIC_DMATXCTL) | NIC_DMATXCTL_TE);
    nicx_write32(NIC_TXDCTL(0), NIC_TXDCTL_ENABLE);
    nicx_settle();
    nicx_write32(NIC_GPIE, NIC_GPIE_MULTIPLE_MSIX);
    nicx_write32(NIC_IVAR(0), NIC_IVAR_INT_ALLOC_1_IS(0) | NIC_IVAR_INT_ALLOC_VAL_1);
    nicx_write32(NIC_EIAC, 1);
    nicx_write32(NIC_EIMS, 1);
    return NULL;
}

static void begin(void)
{
    memset(&driver, 0, sizeof driver);
    for (uint8_t k = 0; k < BUFFERS; k++)
        driver.unused[driver.free++] = k;
    nicx_task("transmit", transmit, NULL);
    nicx_service("cleaner", cleaner, NULL);
    nicx_service("watchdog", watchdog, NULL);
    nicx_handler("isr", 0, 0, isr, NULL, NICX_BESIDE);
}

static const char *always(void)
{
    return driver.free + (driver.tail + SLOTS - driver.clean) % SLOTS <= BUFFERS ? NULL : "a buffer is in two places";
}

static const char *end(void)
{
    uint8_t frame[FRAME], whole[FRAME];
    uint32_t head = 0;
    nic_outcome outcome;
    for (unsigned k = 0; k < FRAMES; k++) {
        make_frame(whole, k);
        if (nic_collect(nicx_device(), frame, FRAME, &outcome) != NIC_FRAME)
            return "a frame was never transmitted";
        if (outcome.len != FRAME || memcmp(frame, whole, FRAME))
            return "the frames on the wire differ from the frames sent";
    }
    if (nic_next_out(nicx_device()))
        return "more frames were transmitted than sent";
    if (driver.free != BUFFERS || driver.clean != driver.tail)
        return "a buffer was never reclaimed";
    nic_peek32(nicx_device(), NIC_TDH(0), &head);
    return head == driver.tail ? NULL : "the ring isn't idle";
}

DRIVER(.name = "transmit_watchdog", .blocks = 1 + BUFFERS, .always = always)
