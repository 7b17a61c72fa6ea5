/* This repository's poll-mode driver (crates/pmd_driver) rewritten in C. Instead of moving blocks it copies packets. A
   worker receives, sends back what it received, and reaps until all is idle. With -DBUG=1 to 4 it becomes one of the
   incorrect drivers that the proof excludes: it takes a slot without DD; takes a slot twice; accepts a packet and drops
   it; reports idle too early. */
#include "corpus.h"

#ifndef BUG
#define BUG 0 /* no bug */
#endif

enum { FRAMES = 3, POSTED = 4, MOST_OUT = 2, TX_BUFFERS = POSTED };

struct packet {
    uint8_t bytes[FRAME];
    unsigned len;
};

static struct {
    unsigned next, tail; /* receive ring: the next slot to check, and the first one that isn't posted */
    /* transmit ring: the next slot to reap, the first free slot, and how many are outstanding */
    unsigned oldest, free, outstanding;
    unsigned handed, accepted;
    bool idle_early;
} pmd;

/* --- the driver --- */

static void post(unsigned slot)
{
    nicx_put64(RX_RING + 16 * slot, buffer(slot % POSTED));
    nicx_put64(RX_RING + 16 * slot + 8, 0);
}

static bool rx(struct packet *packet)
{
    uint64_t second = nicx_get64(RX_RING + 16 * pmd.next + 8);
    if (BUG != 1 && !(second & DD))
        return false;
    packet->len = second >> 32 & 0xFFFF;
    nicx_dma_read(buffer(pmd.next % POSTED), packet->bytes, FRAME);
    pmd.handed++;
    if (BUG == 2 && pmd.handed == 1)
        return true;
    post(pmd.tail);
    pmd.next = (pmd.next + 1) % SLOTS;
    pmd.tail = (pmd.tail + 1) % SLOTS;
    nicx_write32(NIC_RDT(0), pmd.tail);
    return true;
}

/* Returns false if the ring is full. */
static bool tx(const struct packet *packet)
{
    if (pmd.outstanding == MOST_OUT) {
        pmd.accepted += BUG == 3;
        return BUG == 3;
    }
    unsigned number = TX_BUFFERS + pmd.free % MOST_OUT;
    nicx_dma_write(buffer(number), packet->bytes, FRAME);
    put_transmit(pmd.free, number, EOP_RS);
    pmd.free = (pmd.free + 1) % SLOTS;
    nicx_write32(NIC_TDT(0), pmd.free);
    pmd.outstanding++;
    pmd.accepted++;
    return true;
}

/* Returns whether no packet is outstanding. */
static bool reap(void)
{
    while (pmd.outstanding && is_done(TX_RING, pmd.oldest, TX_DONE)) {
        pmd.oldest = (pmd.oldest + 1) % SLOTS;
        pmd.outstanding--;
        if (BUG == 4)
            return true;
    }
    return !pmd.outstanding;
}

/* --- the test --- */

static void see_whether_idle(void)
{
    uint32_t head = 0, tail = 0;
    nic_peek32(nicx_device(), NIC_TDH(0), &head);
    nic_peek32(nicx_device(), NIC_TDT(0), &tail);
    pmd.idle_early |= head != tail;
}

static void work(void *unused)
{
    while (pmd.handed < FRAMES) {
        struct packet packet;
        if (!rx(&packet)) {
            nicx_wait();
            continue;
        }
        nicx_check(packet.len == FRAME, "the driver handed out a block that holds no packet");
        while (!tx(&packet)) {
            reap();
            if (pmd.outstanding == MOST_OUT)
                nicx_wait();
        }
    }
    while (!reap())
        nicx_wait();
    see_whether_idle();
}

static const char *bring_up(void)
{
    lend_blocks(POSTED + MOST_OUT);
    bring_up_receive(POSTED);
    bring_up_transmit();
    return NULL;
}

static void begin(void)
{
    memset(&pmd, 0, sizeof pmd);
    pmd.tail = POSTED;
    nicx_task("work", work, NULL);
    frames_come(FRAMES);
}

static const char *end(void)
{
    return pmd.idle_early ? "the driver reports idle while a packet is outstanding" : went_out(FRAMES);
}

DRIVER(.name = "pmd")
