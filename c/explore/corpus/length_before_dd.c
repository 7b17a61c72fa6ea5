/* The length of a frame is read before the bit that says the descriptor is done: it may be the length of an earlier
   frame. */
#include "corpus.h"

enum { FRAMES = 2 };

static struct {
    unsigned next, bytes;
} driver;

static const char *bring_up(void)
{
    lend_blocks(7);
    bring_up_receive(7);
    return NULL;
}

static uint32_t get32(uint64_t bus)
{
    uint8_t bytes[4] = {0};
    nicx_dma_read(bus, bytes, sizeof bytes);
    return bytes[0] | (uint32_t)bytes[1] << 8 | (uint32_t)bytes[2] << 16 | (uint32_t)bytes[3] << 24;
}

/* Returns the length of the frame in a slot, or 0 if the slot isn't done. */
static unsigned take(unsigned slot)
{
    uint64_t second = RX_RING + 16 * slot + 8;
#ifndef FIXED
    unsigned length = get32(second + 4) & 0xFFFF;
    return get32(second) & DD ? length + 1 : 0;
#else
    return get32(second) & DD ? (get32(second + 4) & 0xFFFF) + 1 : 0;
#endif
}

static void poll(void *unused)
{
    while (driver.next < FRAMES) {
        unsigned taken = take(driver.next);
        if (taken) {
            driver.bytes += taken - 1;
            driver.next++;
        } else {
            nicx_wait();
        }
    }
}

static void begin(void)
{
    memset(&driver, 0, sizeof driver);
    nicx_task("poll", poll, NULL);
    frames_come(FRAMES);
}

static const char *end(void)
{
    return driver.bytes == FRAMES * FRAME ? NULL : "a frame has the wrong length";
}

DRIVER(.name = "length_before_dd")
