/* Two threads of a virtual function's driver read VFMAILBOX, but only one read returns RSTD, because it clears the bit.
   The thread that doesn't wait for RSTD may read it, and drop it. */
#include "mailbox.h"

static struct {
    uint32_t seen;
} driver;

static const char *bring_up(void)
{
    nicx_write32(NIC_GCR_EXT, 3);
    return NULL;
}

static void host(void *unused)
{
    nicx_write32(NIC_CTRL_EXT, DEVICE_READY);
}

/* Keeps bits that are returned only once, for the thread that waits for them. */
static uint32_t read_mailbox(void)
{
    uint32_t word = nicx_vf_read32(0, VFMAILBOX);
#ifndef FIXED
    return word;
#else
    driver.seen |= word & (PFSTS | PFACK | RSTD);
    return word | driver.seen;
#endif
}

static void watch(void *unused)
{
    for (int k = 0; k < 2; k++) {
        if (read_mailbox() & PFSTS)
            return;
        nicx_point();
    }
}

static void start(void *unused)
{
    while (!(read_mailbox() & RSTD))
        nicx_wait();
}

static void begin(void)
{
    memset(&driver, 0, sizeof driver);
    nicx_task("host", host, NULL);
    nicx_task("watch", watch, NULL);
    nicx_task("start", start, NULL);
}

static const char *end(void)
{
    return NULL;
}

DRIVER(.name = "rstd_seen_once", .vfs = 1)
