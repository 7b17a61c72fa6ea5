/* A virtual function writes its next message into the mailbox before the PF's driver has acknowledged the first one. */
#include "mailbox.h"

enum { MESSAGES = 2 };

static struct {
    uint32_t got[MESSAGES];
    unsigned count;
} driver;

static const char *bring_up(void)
{
    nicx_write32(NIC_GCR_EXT, 3);
    nicx_write32(NIC_CTRL_EXT, DEVICE_READY);
    nicx_vf_read32(0, VFMAILBOX);
    return NULL;
}

static void wait_for_ack(void)
{
    while (!(nicx_vf_read32(0, VFMAILBOX) & PFACK))
        nicx_wait();
}

static void function(void *unused)
{
    for (uint32_t k = 0; k < MESSAGES; k++) {
        take_mailbox();
        nicx_vf_write32(0, VFMBMEM, k + 1);
        nicx_vf_write32(0, VFMAILBOX, VFU | REQ);
#ifdef FIXED
        wait_for_ack();
#endif
    }
#ifndef FIXED
    wait_for_ack();
#endif
}

static void serve(void *unused)
{
    while (driver.count < MESSAGES) {
        if (is_asked()) {
            driver.got[driver.count++] = nicx_read32(NIC_PFMBMEM(0));
            nicx_write32(NIC_PFMAILBOX(0), ACK);
        } else {
            nicx_wait();
        }
    }
}

static void begin(void)
{
    memset(&driver, 0, sizeof driver);
    nicx_task("function", function, NULL);
    nicx_service("serve", serve, NULL);
}

static const char *end(void)
{
    return driver.count == MESSAGES && driver.got[0] == 1 && driver.got[1] == 2 ? NULL : "a message is lost";
}

DRIVER(.name = "message_before_ack", .vfs = 1)
