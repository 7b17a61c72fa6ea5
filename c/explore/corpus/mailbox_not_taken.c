/* A virtual function writes to its mailbox without taking it first (VFU), while the PF's driver writes to it too. The
   two messages mix. */
#include "mailbox.h"

static struct {
    bool asked, mixed, read;
} driver;

static const char *bring_up(void)
{
    nicx_write32(NIC_GCR_EXT, 3);
    nicx_write32(NIC_CTRL_EXT, DEVICE_READY);
    nicx_vf_read32(0, VFMAILBOX);
    bring_up_mailbox_interrupt();
    return NULL;
}

/* The virtual function sends two words that belong together. */
static void function(void *unused)
{
#ifndef FIXED
    nicx_vf_write32(0, VFMBMEM, 0x11);
    nicx_vf_write32(0, VFMBMEM + 4, 0x12);
    nicx_vf_write32(0, VFMAILBOX, REQ);
#else
    take_mailbox();
    nicx_vf_write32(0, VFMBMEM, 0x11);
    nicx_vf_write32(0, VFMBMEM + 4, 0x12);
    nicx_vf_write32(0, VFMAILBOX, VFU | REQ);
#endif
}

/* The PF's driver reports the link to the virtual function, at any time. */
static void tell_link(void *unused)
{
    nicx_write32(NIC_PFMAILBOX(0), PFU);
    if (!(nicx_read32(NIC_PFMAILBOX(0)) & PFU))
        return;
    nicx_write32(NIC_PFMBMEM(0), 0x21);
    nicx_write32(NIC_PFMBMEM(1), 0x22);
    nicx_write32(NIC_PFMAILBOX(0), STS);
}

static void isr(void *unused)
{
    driver.asked = is_asked();
}

static bool has_asked(void *unused)
{
    return driver.asked;
}

static void serve(void *unused)
{
    nicx_wait_until(has_asked, NULL);
    uint32_t first = nicx_read32(NIC_PFMBMEM(0)), second = nicx_read32(NIC_PFMBMEM(1));
    driver.read = true;
    driver.mixed = first != 0x11 || second != 0x12;
    nicx_write32(NIC_PFMAILBOX(0), ACK);
}

static void begin(void)
{
    memset(&driver, 0, sizeof driver);
    nicx_task("function", function, NULL);
    nicx_task("tell_link", tell_link, NULL);
    nicx_task("serve", serve, NULL);
    nicx_handler("isr", 0, 5, isr, NULL, NICX_BESIDE);
}

static const char *end(void)
{
    return !driver.read   ? "the host never read the message"
           : driver.mixed ? "the host read a different message from the one sent"
                          : NULL;
}

DRIVER(.name = "mailbox_not_taken", .vfs = 1)
