/* The poll loop of c/examples/race.c as it would be in a driver, with no hint where the race is. The search finds it.
   With -DFIXED, the line that loses a frame is left out. */
#include <string.h>

#include "nic82599_explore.h"

enum { QUEUE = 0, CAUSE = 1u << 5, FRAMES = 2 };

/* --- the driver: one queue, an interrupt handler that masks and schedules, a poll that takes completed frames --- */

static struct {
    bool scheduled;
    unsigned next, got;
} driver;

static void isr(void *unused)
{
    (void)unused;
    nicx_write32(NIC_EIMC, CAUSE);
    driver.scheduled = true;
}

static void poll(void *unused)
{
    (void)unused;
    for (;;) {
        nicx_wait_until(nicx_is_set, &driver.scheduled);
        driver.scheduled = false;
        nicx_write32(NIC_EICR, CAUSE);
        while (nicx_get64(16 * driver.next + 8) & 1) {
            driver.next++;
            driver.got++;
        }
#ifndef FIXED
        nicx_write32(NIC_EICR, CAUSE); /* old causes must not interrupt */
#endif
        nicx_write32(NIC_EIMS, CAUSE);
    }
}

/* --- the scenario: the device's bring-up, what happens in each schedule, and what must hold afterwards --- */

static const char *bring_up(void)
{
    nicx_lend_all();
    nicx_write32(NIC_RXCTRL, NIC_RXCTRL_RXEN);
    nicx_write32(NIC_FCTRL, NIC_FCTRL_UPE);
    nicx_write32(NIC_RDLEN(QUEUE), 128);
    nicx_write32(NIC_SRRCTL(QUEUE), NIC_SRRCTL_DESCTYPE_IS(1) | NIC_SRRCTL_BSIZEPACKET_IS(2));
    nicx_write32(NIC_RXDCTL(QUEUE), NIC_RXDCTL_ENABLE);
    nicx_settle();
    for (uint32_t slot = 0; slot < 7; slot++)
        nicx_put64(16 * slot, NIC_BLOCK_BYTES);
    nicx_write32(NIC_RDT(QUEUE), 7);
    /* MSI-X: a write to EICR then clears a queue's cause, but a read doesn't */
    nicx_write32(NIC_GPIE, NIC_GPIE_MULTIPLE_MSIX | NIC_GPIE_OCD | NIC_GPIE_PBA_SUPPORT);
    nicx_write32(NIC_IVAR(0), NIC_IVAR_INT_ALLOC_0_IS(5) | NIC_IVAR_INT_ALLOC_VAL_0);
    nicx_write32(NIC_EIAC, 0);
    nicx_write32(NIC_EIMS, CAUSE);
    return NULL;
}

static void begin(void)
{
    static const uint8_t frame[60] = {2, 0, 0, 0, 0, 1, 2, 0, 0, 0, 0, 2, 0x88, 0xB5};
    memset(&driver, 0, sizeof driver);
    nicx_service("poll", poll, NULL);
    nicx_handler("isr", 0, 5, isr, NULL, NICX_ANYWHERE);
    for (int k = 0; k < FRAMES; k++)
        nicx_frame(frame, sizeof frame);
}

static const char *end(void)
{
    return driver.got == FRAMES ? NULL : "a frame is in the ring, but nothing will poll it";
}

int main(int argc, char **argv)
{
    static const nicx_scenario race = {
        .name = "race",
        .fifo = 64,  /* how many frames may wait inside the device */
        .blocks = 2, /* packet memory, in 2,048-byte blocks; .vfs is the number of virtual functions */
        .queues = 1, /* the device runs the steps of queues below 1 */
        .bring_up = bring_up,
        .begin = begin,
        .end = end,
    };
    return nicx_main(argc, argv, &race);
}
