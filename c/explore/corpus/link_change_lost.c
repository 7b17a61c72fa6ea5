/* A driver checks its link before a reset but not after it. The reset clears the causes raised before it, so the driver
   misses a change in between. */
#include "corpus.h"

enum { LSC = 1 << 20 };

static struct {
    bool up;
} driver;

static void set_up_interrupt(void)
{
    nicx_write32(NIC_IVAR_MISC, 0x8200);
    nicx_write32(NIC_EIMS, LSC);
}

static const char *bring_up(void)
{
    set_up_interrupt();
    return NULL;
}

static void look_at_link(void)
{
    driver.up = nicx_read32(NIC_LINKS) != 0;
}

static void isr(void *unused)
{
    if (nicx_read32(NIC_EICR) & LSC)
        look_at_link();
}

static void reset(void *unused)
{
    nicx_write32(NIC_EIMC, LSC);
#ifndef FIXED
    look_at_link();
#endif
    nicx_write32(NIC_CTRL, NIC_CTRL_RST);
    set_up_interrupt();
#ifdef FIXED
    look_at_link();
#endif
}

static void begin(void)
{
    driver.up = true;
    nicx_task("reset", reset, NULL);
    nicx_handler("isr", 0, 2, isr, NULL, NICX_ANYWHERE);
    nicx_link_change(false);
}

static const char *end(void)
{
    uint32_t links = 0;
    nic_peek32(nicx_device(), NIC_LINKS, &links);
    return driver.up == (links != 0) ? NULL : "the link is down, but the driver reports it as up";
}

DRIVER(.name = "link_change_lost")
