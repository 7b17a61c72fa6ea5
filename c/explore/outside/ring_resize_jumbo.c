/* Jumbo frames in 1 KB buffers, which the driver chains. A thread resizes the ring while frames arrive: it stops the
   queue, takes what is in the ring, and restarts the queue with a ring twice as long. Frames that arrive while the
   queue is off are lost; all others are delivered.

   A partial frame from the old ring is kept although its end is lost, and the next frame is appended to it. With
   -DFIXED the partial frame is dropped. */
#include <string.h>

#include "../driver.h"

enum { SMALL = 8, LARGE = 16, SMALL_RING = 0, LARGE_RING = 0x100, PART = 1024, FRAME = 2500, FRAMES = 3 };

static struct {
    nicx_mutex lock;
    bool scheduled;
    unsigned slots, next;
    uint64_t ring;
    unsigned length; /* bytes of the frame that isn't complete yet */
    uint8_t frame[FRAMES * FRAME];
    unsigned count;
    uint8_t got[FRAMES];
} driver;

static uint64_t buffer(unsigned slot)
{
    return NIC_BLOCK_BYTES * (uint64_t)(1 + slot);
}

static void make_frame(uint8_t frame[FRAME], unsigned number)
{
    static const uint8_t head[14] = {2, 0, 0, 0, 0, 1, 2, 0, 0, 0, 0, 2, 0x88, 0xB5};
    memset(frame, (int)number, FRAME);
    memcpy(frame, head, sizeof head);
}

/* --- the driver --- */

static void deliver(void)
{
    uint8_t whole[FRAME];
    uint8_t number = driver.frame[driver.length - 1];
    make_frame(whole, number);
    nicx_check(driver.length == FRAME && !memcmp(whole, driver.frame, FRAME), "a frame is incomplete");
    nicx_check(driver.count < FRAMES, "the driver received more frames than arrived");
    driver.got[driver.count++] = number;
    driver.length = 0;
}

static bool take(void)
{
    uint64_t descriptor = driver.ring + NIC_DESC_BYTES * driver.next;
    uint64_t done = nicx_get64(descriptor + 8);
    if (!(done & NIC_RXWB_DD))
        return false;
    unsigned length = (unsigned)nic_desc_field(done, NIC_RXWB_PKT_LEN);
    if (driver.length + length <= sizeof driver.frame) {
        nicx_dma_read(buffer(driver.next), driver.frame + driver.length, length);
        driver.length += length;
    }
    if (done & NIC_RXWB_EOP)
        deliver();
    nicx_put64(descriptor, buffer(driver.next));
    nicx_put64(descriptor + 8, 0);
    nicx_write32(NIC_RDT(0), driver.next);
    driver.next = (driver.next + 1) % driver.slots;
    return true;
}

static void isr(void *unused)
{
    driver.scheduled = true;
}

static void poll(void *unused)
{
    for (;;) {
        nicx_wait_until(nicx_is_set, &driver.scheduled);
        driver.scheduled = false;
        nicx_lock(&driver.lock);
        while (take())
            ;
        nicx_unlock(&driver.lock);
    }
}

static void set_enable(uint32_t wanted)
{
    nicx_write32(NIC_RXDCTL(0), wanted);
    while ((nicx_read32(NIC_RXDCTL(0)) & NIC_RXDCTL_ENABLE) != wanted)
        nicx_wait();
}

static void start(uint64_t ring, unsigned slots)
{
    driver.ring = ring;
    driver.slots = slots;
    driver.next = 0;
#ifdef FIXED
    driver.length = 0;
#endif
    for (unsigned slot = 0; slot < slots; slot++) {
        nicx_put64(ring + NIC_DESC_BYTES * slot, buffer(slot));
        nicx_put64(ring + NIC_DESC_BYTES * slot + 8, 0);
    }
    nicx_write32(NIC_RDBAL(0), (uint32_t)ring);
    nicx_write32(NIC_RDLEN(0), NIC_DESC_BYTES * slots);
    nicx_write32(NIC_RDH(0), 0);
    nicx_write32(NIC_RDT(0), 0);
}

static void resize(void *unused)
{
    nicx_lock(&driver.lock);
    set_enable(0);
    while (take())
        ;
    start(LARGE_RING, LARGE);
    set_enable(NIC_RXDCTL_ENABLE);
    nicx_write32(NIC_RDT(0), LARGE - 1);
    nicx_unlock(&driver.lock);
}

/* --- the scenario --- */

static const char *bring_up(void)
{
    nicx_lend_all();
    nicx_write32(NIC_HLREG0, nicx_read32(NIC_HLREG0) | NIC_HLREG0_JUMBOEN);
    nicx_write32(NIC_MAXFRS, NIC_MAXFRS_MFS_IS(FRAME + 4));
    nicx_write32(NIC_RXCTRL, NIC_RXCTRL_RXEN);
    nicx_write32(NIC_FCTRL, NIC_FCTRL_UPE);
    nicx_write32(NIC_SRRCTL(0), NIC_SRRCTL_DESCTYPE_IS(1) | NIC_SRRCTL_BSIZEPACKET_IS(1));
    start(SMALL_RING, SMALL);
    nicx_write32(NIC_RXDCTL(0), NIC_RXDCTL_ENABLE);
    nicx_settle();
    nicx_write32(NIC_RDT(0), SMALL - 1);
    nicx_write32(NIC_GPIE, NIC_GPIE_MULTIPLE_MSIX);
    nicx_write32(NIC_IVAR(0), NIC_IVAR_INT_ALLOC_0_IS(0) | NIC_IVAR_INT_ALLOC_VAL_0);
    nicx_write32(NIC_EIAC, 1);
    nicx_write32(NIC_EIMS, 1);
    return NULL;
}

static void begin(void)
{
    uint8_t frame[FRAME];
    memset(&driver, 0, sizeof driver);
    driver.ring = SMALL_RING;
    driver.slots = SMALL;
    nicx_service("poll", poll, NULL);
    nicx_task("resize", resize, NULL);
    nicx_handler("isr", 0, 0, isr, NULL, NICX_ANYWHERE);
    for (unsigned k = 0; k < FRAMES; k++) {
        make_frame(frame, k);
        nicx_frame(frame, FRAME);
    }
}

static const char *end(void)
{
    uint32_t head = 0, tail = 0, received = 0;
    for (unsigned k = 1; k < driver.count; k++)
        if (driver.got[k] <= driver.got[k - 1])
            return "the frames are out of order";
    nic_peek32(nicx_device(), NIC_QPRC(0), &received);
    if (driver.count != received)
        return "the device and the driver received different numbers of frames";
    nic_peek32(nicx_device(), NIC_RDH(0), &head);
    nic_peek32(nicx_device(), NIC_RDT(0), &tail);
    if (head != driver.next || (tail + driver.slots - head) % driver.slots != driver.slots - 1)
        return "a buffer was never posted";
    return NULL;
}

DRIVER(.name = "ring_resize_jumbo", .blocks = 1 + LARGE)
