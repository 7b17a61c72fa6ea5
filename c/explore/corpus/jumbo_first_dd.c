/* A frame in several buffers is treated as complete when its first descriptor is done. The device hasn't written the
   other buffers yet. */
#include "corpus.h"

enum { LENGTH = 3000, PART = 1024, PARTS = 3, FRAMES = 2, POSTED = 7 };

static struct {
    unsigned next, got;
    bool torn;
} driver;

static const char *bring_up(void)
{
    lend_blocks(POSTED);
    nicx_write32(NIC_HLREG0, nicx_read32(NIC_HLREG0) | NIC_HLREG0_JUMBOEN);
    nicx_write32(NIC_MAXFRS, NIC_MAXFRS_MFS_IS(LENGTH + 4));
    bring_up_receive(POSTED);
    nicx_write32(NIC_SRRCTL(0), NIC_SRRCTL_DESCTYPE_IS(1) | NIC_SRRCTL_BSIZEPACKET_IS(1));
    return NULL;
}

static uint8_t byte_of(unsigned slot)
{
    uint8_t byte = 0;
    nicx_dma_read(buffer(slot) + 100, &byte, 1);
    return byte;
}

static void poll(void *unused)
{
    while (driver.got < FRAMES) {
        for (unsigned part = 0; part < PARTS; part++) {
#ifndef FIXED
            while (part == 0 && !is_done(RX_RING, driver.next, RX_DONE))
                nicx_wait();
#else
            while (!is_done(RX_RING, driver.next, RX_DONE))
                nicx_wait();
#endif
            driver.torn |= byte_of(driver.next) != driver.got + 1;
            driver.next++;
        }
        driver.got++;
    }
}

static void begin(void)
{
    static uint8_t frame[LENGTH];
    memset(&driver, 0, sizeof driver);
    nicx_task("poll", poll, NULL);
    for (unsigned k = 0; k < FRAMES; k++) {
        memset(frame, (int)k + 1, sizeof frame);
        memcpy(frame, "\2\0\0\0\0\1\2\0\0\0\0\2\x88\xB5", 14);
        nicx_frame(frame, LENGTH);
    }
}

static const char *end(void)
{
    return driver.torn ? "part of a frame has the wrong bytes" : NULL;
}

DRIVER(.name = "jumbo_first_dd")
