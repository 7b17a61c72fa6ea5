/* Without a barrier, a frame's bytes may be read before the bit that says they are there. They may then be the bytes of
   another frame. */
#include "corpus.h"

enum { FRAMES = 2 };

static struct {
    unsigned next;
    uint8_t number[FRAMES];
} driver;

static const char *bring_up(void)
{
    lend_blocks(FRAMES);
    bring_up_receive(FRAMES);
    for (unsigned k = 0; k < FRAMES; k++)
        fill_buffer(k, 0xFF);
    return NULL;
}

static void poll(void *unused)
{
    while (driver.next < FRAMES) {
        if (!is_done(RX_RING, driver.next, RX_DONE)) {
            nicx_wait();
            continue;
        }
#ifdef FIXED
        nicx_rmb();
#endif
        nicx_dma_read(buffer(driver.next) + FRAME - 1, &driver.number[driver.next], 1);
        driver.next++;
    }
}

static void begin(void)
{
    memset(&driver, 0, sizeof driver);
    nicx_task("poll", poll, NULL);
    frames_come(FRAMES);
}

static const char *end(void)
{
    for (unsigned k = 0; k < FRAMES; k++)
        if (driver.number[k] != k)
            return "a frame has the wrong bytes";
    return NULL;
}

DRIVER(.name = "missing_rmb", .memory = NICX_WEAK)
