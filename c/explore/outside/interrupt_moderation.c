/* A receive queue under load. With each message the card masks the vector and clears its cause (EIAM, EIAC); a poll
   takes the frames and unmasks. A moderator watches the number of interrupts: if there are many, it keeps the vector
   masked for an interval.

   The poll clears `scheduled` after its last look, but the moderator may already have unmasked: a message sent in the
   meantime is lost. With -DFIXED the poll clears `scheduled` before its first look. */
#include <string.h>

#include "../driver.h"

enum { SLOTS = 8, FRAME = 60, FRAMES = 4, CAUSE = 1, RING = 0, INTERVALS = 2, MANY = 1 };

static struct {
    bool scheduled;
    unsigned next, interrupts, looked;
    unsigned count;
    uint8_t got[FRAMES];
} driver;

static uint64_t buffer(unsigned slot)
{
    return NIC_BLOCK_BYTES * (uint64_t)(1 + slot);
}

static void make_frame(uint8_t frame[FRAME], unsigned number)
{
    static const uint8_t head[14] = {2, 0, 0, 0, 0, 1, 2, 0, 0, 0, 0, 2, 0x88, 0xB5};
    memset(frame, (int)number, FRAME);
    memcpy(frame, head, sizeof head);
}

/* --- the driver --- */

static void isr(void *unused)
{
    driver.interrupts++;
    driver.scheduled = true;
}

static void deliver(const uint8_t *frame)
{
    uint8_t whole[FRAME];
    make_frame(whole, frame[FRAME - 1]);
    nicx_check(!memcmp(whole, frame, FRAME), "a frame is incomplete");
    nicx_check(driver.count < FRAMES, "the driver received more frames than arrived");
    driver.got[driver.count++] = frame[FRAME - 1];
}

static bool take(void)
{
    uint8_t frame[FRAME];
    uint64_t descriptor = RING + NIC_DESC_BYTES * driver.next;
    if (!(nicx_get64(descriptor + 8) & NIC_RXWB_DD))
        return false;
    nicx_dma_read(buffer(driver.next), frame, FRAME);
    nicx_put64(descriptor, buffer(driver.next));
    nicx_put64(descriptor + 8, 0);
    driver.next = (driver.next + 1) % SLOTS;
    deliver(frame);
    return true;
}

static void poll(void *unused)
{
    for (;;) {
        nicx_wait_until(nicx_is_set, &driver.scheduled);
#ifdef FIXED
        driver.scheduled = false;
#endif
        while (take())
            ;
        nicx_write32(NIC_RDT(0), (driver.next + SLOTS - 1) % SLOTS);
#ifndef FIXED
        driver.scheduled = false;
#endif
        nicx_write32(NIC_EIMS, CAUSE);
    }
}

static bool are_many(void *unused)
{
    return driver.interrupts - driver.looked >= MANY;
}

static void moderate(void *unused)
{
    for (unsigned interval = 0; interval < INTERVALS; interval++) {
        nicx_wait_until(are_many, NULL);
        driver.looked = driver.interrupts;
        nicx_write32(NIC_EIMC, CAUSE);
        nicx_pause();
        nicx_write32(NIC_EIMS, CAUSE);
    }
}

/* --- the scenario --- */

static const char *bring_up(void)
{
    nicx_lend_all();
    nicx_write32(NIC_RXCTRL, NIC_RXCTRL_RXEN);
    nicx_write32(NIC_FCTRL, NIC_FCTRL_UPE);
    nicx_write32(NIC_RDBAL(0), RING);
    nicx_write32(NIC_RDLEN(0), NIC_DESC_BYTES * SLOTS);
    nicx_write32(NIC_SRRCTL(0), NIC_SRRCTL_DESCTYPE_IS(1) | NIC_SRRCTL_BSIZEPACKET_IS(2));
    nicx_write32(NIC_RXDCTL(0), NIC_RXDCTL_ENABLE);
    nicx_settle();
    for (unsigned slot = 0; slot < SLOTS; slot++)
        nicx_put64(RING + NIC_DESC_BYTES * slot, buffer(slot));
    nicx_write32(NIC_RDT(0), SLOTS - 1);
    nicx_write32(NIC_GPIE, NIC_GPIE_MULTIPLE_MSIX | NIC_GPIE_EIAME);
    nicx_write32(NIC_IVAR(0), NIC_IVAR_INT_ALLOC_0_IS(0) | NIC_IVAR_INT_ALLOC_VAL_0);
    nicx_write32(NIC_EIAC, CAUSE);
    nicx_write32(NIC_EIAM, CAUSE);
    nicx_write32(NIC_EIMS, CAUSE);
    return NULL;
}

static void begin(void)
{
    uint8_t frame[FRAME];
    memset(&driver, 0, sizeof driver);
    nicx_service("poll", poll, NULL);
    nicx_service("moderator", moderate, NULL);
    nicx_handler("isr", 0, 0, isr, NULL, NICX_ANYWHERE);
    for (unsigned k = 0; k < FRAMES; k++) {
        make_frame(frame, k);
        nicx_frame(frame, FRAME);
    }
}

static const char *end(void)
{
    uint32_t head = 0, tail = 0, mask = 0;
    for (unsigned k = 0; k < FRAMES; k++) {
        if (k == driver.count)
            return "a frame wasn't received";
        if (driver.got[k] != k)
            return "the frames are out of order";
    }
    nic_peek32(nicx_device(), NIC_RDH(0), &head);
    nic_peek32(nicx_device(), NIC_RDT(0), &tail);
    nic_peek32(nicx_device(), NIC_EIMS, &mask);
    if (head != driver.next || (tail + SLOTS - head) % SLOTS != SLOTS - 1)
        return "a buffer was never posted";
    return mask & CAUSE ? NULL : "the vector is still masked at rest";
}

DRIVER(.name = "interrupt_moderation", .blocks = 1 + SLOTS)
