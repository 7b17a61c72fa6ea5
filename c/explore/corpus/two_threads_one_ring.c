/* Two threads send on one ring without a lock: both may fill the same slot. */
#include "corpus.h"

enum { FRAMES = 2 };

static struct {
    nicx_mutex lock;
    unsigned tail;
} driver;

static const unsigned numbers[FRAMES] = {0, 1};

static const char *bring_up(void)
{
    lend_blocks(FRAMES);
    bring_up_transmit();
    return NULL;
}

static void send(void *argument)
{
    unsigned number = *(const unsigned *)argument;
    fill_buffer(number, number);
#ifdef FIXED
    nicx_lock(&driver.lock);
#endif
    unsigned slot = driver.tail;
    put_transmit(slot, number, EOP_RS);
    driver.tail = slot + 1;
    nicx_write32(NIC_TDT(0), driver.tail);
#ifdef FIXED
    nicx_unlock(&driver.lock);
#endif
}

static void begin(void)
{
    memset(&driver, 0, sizeof driver);
    driver.lock.name = "ring";
    nicx_task("send0", send, (void *)(uintptr_t)&numbers[0]);
    nicx_task("send1", send, (void *)(uintptr_t)&numbers[1]);
}

static const char *end(void)
{
    unsigned out = 0;
    uint8_t frame[FRAME];
    nic_outcome outcome;
    while (nic_collect(nicx_device(), frame, sizeof frame, &outcome) == NIC_FRAME)
        out |= 1u << frame[FRAME - 1];
    return out == (1u << FRAMES) - 1 ? NULL : "a frame was never transmitted";
}

DRIVER(.name = "two_threads_one_ring")
