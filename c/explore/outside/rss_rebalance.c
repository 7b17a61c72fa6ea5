/* Receive side scaling with two queues. Each queue has a worker, which delivers a flow's frames to the stack in the
   order in which they arrived. A balancer moves a flow from a busy worker to the other one.

   The new worker gets the flow as soon as the old one finds its ring empty. A frame that arrived before RETA was
   written may still be in the device, and reach the old ring afterwards. With -DFIXED the old ring is checked again
   after the new worker has a frame of the flow. */
#include <string.h>

#include "../driver.h"

enum { QUEUES = 2, SLOTS = 8, FLOWS = 2, FRAME = 60, FRAMES = 4, PORT_AT = 35, NUMBER_AT = 54 };
enum { BULK = 0, FROM = 0, TO = 1 }; /* flow BULK moves from queue FROM to queue TO */

static const unsigned queues[QUEUES] = {FROM, TO};
static const unsigned flow_of[FRAMES] = {BULK, 1, BULK, BULK};

static struct {
    bool scheduled[QUEUES], flush[QUEUES];
    unsigned next[QUEUES];
    bool flushed; /* the old worker is done */
    bool moved;   /* the new worker owns the flow */
#ifdef FIXED
    bool waits; /* the new worker holds a frame of the flow */
#endif
    unsigned count[FLOWS];
    uint8_t got[FLOWS][FRAMES];
} driver;

static uint64_t ring(unsigned queue)
{
    return NIC_DESC_BYTES * SLOTS * (uint64_t)queue;
}

static uint64_t buffer(unsigned queue, unsigned slot)
{
    return NIC_BLOCK_BYTES * (uint64_t)(1 + SLOTS * queue + slot);
}

/* Builds a TCP frame over IPv4, with the flow as the source port. */
static void make_frame(uint8_t frame[FRAME], unsigned flow, unsigned number)
{
    static const uint8_t head[] = {2, 0, 0,  0, 0, 1, 2,  0, 0, 0, 0, 2, 8, 0,  0x45, 0, 0, 46, 0, 0, 0, 0, 64,   6,
                                   0, 0, 10, 0, 0, 1, 10, 0, 0, 2, 0, 0, 0, 80, 0,    0, 0, 0,  0, 0, 0, 0, 0x50, 16};
    memset(frame, 0, FRAME);
    memcpy(frame, head, sizeof head);
    frame[PORT_AT] = (uint8_t)flow;
    frame[NUMBER_AT] = (uint8_t)number;
}

/* --- the driver --- */

static void deliver(unsigned queue, const uint8_t *frame)
{
    uint8_t whole[FRAME];
    unsigned flow = frame[PORT_AT] % FLOWS;
    if (flow == BULK && queue == TO && !driver.moved) {
#ifdef FIXED
        driver.waits = true;
#endif
        nicx_wait_until(nicx_is_set, &driver.moved);
    }
    make_frame(whole, flow, frame[NUMBER_AT]);
    nicx_check(!memcmp(whole, frame, FRAME), "a frame is incomplete");
    nicx_check(driver.count[flow] < FRAMES, "the driver received more frames than arrived");
    driver.got[flow][driver.count[flow]++] = frame[NUMBER_AT];
}

static bool take(unsigned queue)
{
    uint8_t frame[FRAME];
    unsigned slot = driver.next[queue];
    uint64_t descriptor = ring(queue) + NIC_DESC_BYTES * slot;
    if (!(nicx_get64(descriptor + 8) & NIC_RXWB_DD))
        return false;
    nicx_dma_read(buffer(queue, slot), frame, FRAME);
    nicx_put64(descriptor, buffer(queue, slot));
    nicx_put64(descriptor + 8, 0);
    nicx_write32(NIC_RDT(queue), slot); /* the slot after the last one stays empty */
    driver.next[queue] = (slot + 1) % SLOTS;
    deliver(queue, frame);
    return true;
}

static bool has_work(void *argument)
{
    unsigned queue = *(const unsigned *)argument;
    return driver.scheduled[queue] || driver.flush[queue];
}

static void worker(void *argument)
{
    unsigned queue = *(const unsigned *)argument;
    for (;;) {
        nicx_wait_until(has_work, argument);
        bool flush = driver.flush[queue];
        driver.scheduled[queue] = false;
        while (take(queue))
            ;
        if (flush) {
            driver.flush[queue] = false;
            driver.flushed = true;
        }
    }
}

static void isr(void *argument)
{
    driver.scheduled[*(const unsigned *)argument] = true;
}

static bool is_busy(void *unused)
{
    return driver.count[BULK] > 0;
}

/* Waits until the old worker has delivered what is in its ring, and only then starts the new one. */
static void balance(void *unused)
{
    nicx_wait_until(is_busy, NULL);
    nicx_write32(NIC_RETA(0), NIC_RETA_ENTRY_0_IS(TO) | NIC_RETA_ENTRY_1_IS(TO));
#ifdef FIXED
    nicx_wait_until(nicx_is_set, &driver.waits);
#endif
    driver.flush[FROM] = true;
    nicx_wait_until(nicx_is_set, &driver.flushed);
    driver.moved = true;
}

/* --- the scenario --- */

static const char *bring_up(void)
{
    nicx_lend_all();
    nicx_write32(NIC_RXCTRL, NIC_RXCTRL_RXEN);
    nicx_write32(NIC_FCTRL, NIC_FCTRL_UPE);
    nicx_write32(NIC_MRQC, NIC_MRQC_MRQE_IS(1) | NIC_MRQC_TCPIPV4);
    nicx_write32(NIC_RSSRK(3), 0x0200); /* bit 0 of the hash is bit 0 of the source port */
    nicx_write32(NIC_RETA(0), NIC_RETA_ENTRY_0_IS(FROM) | NIC_RETA_ENTRY_1_IS(TO));
    for (unsigned queue = 0; queue < QUEUES; queue++) {
        nicx_write32(NIC_RDBAL(queue), (uint32_t)ring(queue));
        nicx_write32(NIC_RDLEN(queue), NIC_DESC_BYTES * SLOTS);
        nicx_write32(NIC_SRRCTL(queue), NIC_SRRCTL_DESCTYPE_IS(1) | NIC_SRRCTL_BSIZEPACKET_IS(2));
        nicx_write32(NIC_RXDCTL(queue), NIC_RXDCTL_ENABLE);
        nicx_settle();
        for (unsigned slot = 0; slot < SLOTS; slot++)
            nicx_put64(ring(queue) + NIC_DESC_BYTES * slot, buffer(queue, slot));
        nicx_write32(NIC_RDT(queue), SLOTS - 1);
    }
    nicx_write32(NIC_GPIE, NIC_GPIE_MULTIPLE_MSIX);
    nicx_write32(NIC_IVAR(0), NIC_IVAR_INT_ALLOC_0_IS(0) | NIC_IVAR_INT_ALLOC_VAL_0 | NIC_IVAR_INT_ALLOC_2_IS(1) |
                                  NIC_IVAR_INT_ALLOC_VAL_2);
    nicx_write32(NIC_EIAC, 3);
    nicx_write32(NIC_EIMS, 3);
    return NULL;
}

static void begin(void)
{
    uint8_t frame[FRAME];
    memset(&driver, 0, sizeof driver);
    for (unsigned queue = 0; queue < QUEUES; queue++) {
        void *argument = (void *)(uintptr_t)&queues[queue];
        nicx_service(queue ? "worker1" : "worker0", worker, argument);
        nicx_handler(queue ? "isr1" : "isr0", 0, (uint8_t)queue, isr, argument, NICX_BESIDE);
    }
    nicx_service("balancer", balance, NULL);
    for (unsigned k = 0; k < FRAMES; k++) {
        make_frame(frame, flow_of[k], k);
        nicx_frame(frame, FRAME);
    }
}

static const char *end(void)
{
    unsigned taken[FLOWS] = {0};
    for (unsigned k = 0; k < FRAMES; k++) {
        unsigned flow = flow_of[k];
        if (taken[flow] == driver.count[flow])
            return "a frame was lost";
        if (driver.got[flow][taken[flow]++] != k)
            return "the frames of a flow are out of order";
    }
    for (unsigned queue = 0; queue < QUEUES; queue++) {
        uint32_t head = 0, tail = 0;
        nic_peek32(nicx_device(), NIC_RDH(queue), &head);
        nic_peek32(nicx_device(), NIC_RDT(queue), &tail);
        if (head != driver.next[queue] || (tail + SLOTS - head) % SLOTS != SLOTS - 1)
            return "a buffer was never posted";
    }
    return NULL;
}

DRIVER(.name = "rss_rebalance", .blocks = 1 + QUEUES * SLOTS, .queues = QUEUES)
