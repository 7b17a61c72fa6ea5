/* Shared by the drivers in the corpus: the layout of packet memory, and how a queue is brought up. Each driver is one
   file with one bug; -DFIXED builds its correct twin. */
#ifndef CORPUS_H
#define CORPUS_H

#include <string.h>

#include "../driver.h"

enum {
    SLOTS = 8,        /* slots of a ring */
    RX_RING = 0x0800, /* block 1; block 0 isn't lent, so address 0 is a fault */
    TX_RING = 0x0880,
    NEW_RING = 0x0900,
    WRITTEN_HEAD = 0x0980,
    BUFFERS = 0x1000, /* one block each, starting with block 2 */
    FRAME = 60,
    CAUSE = 1 << 5,
    DD = 1,
    EOP_RS = 0x2B,   /* EOP, IFCS, RS and DEXT, starting at bit 24 of a transmit descriptor's second half */
    EOP = 0x23,      /* EOP_RS without RS */
    DATA = 3,        /* an advanced data descriptor, starting at bit 20 */
    ENABLE = 1 << 25 /* RXDCTL and TXDCTL: a write enables the queue; reads as 1 when it is on */
};

static inline uint64_t buffer(unsigned number)
{
    return BUFFERS + NIC_BLOCK_BYTES * (uint64_t)number;
}

static inline void lend_blocks(unsigned buffers)
{
    for (unsigned block = 1; block < 2 + buffers; block++)
        nicx_lend(block);
}

/* Turns on a receive queue with its ring at `ring`. The first `posted` slots get buffers, numbered from `first`. */
static inline void bring_up_receive_queue(unsigned queue, uint32_t ring, unsigned first, unsigned posted)
{
    nicx_write32(NIC_RDBAL(queue), ring);
    nicx_write32(NIC_RDLEN(queue), 16 * SLOTS);
    nicx_write32(NIC_SRRCTL(queue), NIC_SRRCTL_DESCTYPE_IS(1) | NIC_SRRCTL_BSIZEPACKET_IS(2));
    nicx_write32(NIC_RXDCTL(queue), ENABLE);
    nicx_settle();
    for (unsigned slot = 0; slot < posted; slot++)
        nicx_put64(ring + 16 * slot, buffer(first + slot));
    nicx_write32(NIC_RDT(queue), posted);
}

/* Turns on receive queue 0 with its ring at RX_RING, and accepts all frames. */
static inline void bring_up_receive(unsigned posted)
{
    nicx_write32(NIC_RXCTRL, NIC_RXCTRL_RXEN);
    nicx_write32(NIC_FCTRL, NIC_FCTRL_UPE);
    bring_up_receive_queue(0, RX_RING, 0, posted);
}

/* Turns on two queues with seven buffers each. The second one has its ring at NEW_RING, and gets flows with odd
   ports. */
static inline void bring_up_two_queues(void)
{
    lend_blocks(2 * 7);
    nicx_write32(NIC_MRQC, NIC_MRQC_MRQE_IS(1) | NIC_MRQC_TCPIPV4);
    nicx_write32(NIC_RSSRK(3), 0x0200); /* bit 0 of the hash is bit 0 of the source port */
    nicx_write32(NIC_RETA(0), NIC_RETA_ENTRY_0_IS(0) | NIC_RETA_ENTRY_1_IS(1));
    bring_up_receive(7);
    bring_up_receive_queue(1, NEW_RING, 7, 7);
}

/* Sets up receive queue 0's interrupt: cause 5, reported once each time it is raised. */
static inline void bring_up_interrupt(void)
{
    nicx_write32(NIC_GPIE, NIC_GPIE_MULTIPLE_MSIX);
    nicx_write32(NIC_IVAR(0), NIC_IVAR_INT_ALLOC_0_IS(5) | NIC_IVAR_INT_ALLOC_VAL_0);
    nicx_write32(NIC_EIAC, 0);
    nicx_write32(NIC_EIMS, CAUSE);
}

/* Turns on transmit queue 0 with its ring at TX_RING. */
static inline void bring_up_transmit(void)
{
    nicx_write32(NIC_TDBAL(0), TX_RING);
    nicx_write32(NIC_TDLEN(0), 16 * SLOTS);
    nicx_write32(NIC_TXDCTL(0), ENABLE);
    nicx_settle();
    nicx_write32(NIC_DMATXCTL, NIC_DMATXCTL_TE);
}

/* Sets up transmit queue 0's interrupt: cause 5, cleared when it is reported. */
static inline void bring_up_transmit_interrupt(void)
{
    nicx_write32(NIC_GPIE, NIC_GPIE_MULTIPLE_MSIX);
    nicx_write32(NIC_IVAR(0), NIC_IVAR_INT_ALLOC_1_IS(5) | NIC_IVAR_INT_ALLOC_VAL_1);
    nicx_write32(NIC_EIAC, CAUSE);
    nicx_write32(NIC_EIMS, CAUSE);
}

/* Builds a frame with its number as the last byte. */
static inline void make_frame(uint8_t frame[FRAME], unsigned number)
{
    static const uint8_t head[14] = {2, 0, 0, 0, 0, 1, 2, 0, 0, 0, 0, 2, 0x88, 0xB5};
    memset(frame, 0, FRAME);
    memcpy(frame, head, sizeof head);
    frame[FRAME - 1] = (uint8_t)number;
}

static inline void frames_come(unsigned count)
{
    uint8_t frame[FRAME];
    for (unsigned k = 0; k < count; k++) {
        make_frame(frame, k);
        nicx_frame(frame, FRAME);
    }
}

/* Names a TCP frame over IPv4 with this source port. */
static inline void flow_comes(uint8_t port)
{
    static const uint8_t head[] = {2, 0, 0,  0, 0, 1, 2,  0, 0, 0, 0, 2, 8, 0,  0x45, 0, 0, 46, 0, 0, 0, 0, 64,   6,
                                   0, 0, 10, 0, 0, 1, 10, 0, 0, 2, 0, 0, 0, 80, 0,    0, 0, 0,  0, 0, 0, 0, 0x50, 16};
    enum { PORT_AT = 35 };
    uint8_t frame[FRAME] = {0};
    memcpy(frame, head, sizeof head);
    frame[PORT_AT] = port;
    nicx_frame(frame, FRAME);
}

/* Writes a descriptor into a slot of the transmit ring: a frame in a buffer, with these bits at bit 24 and above. */
static inline void put_transmit(unsigned slot, unsigned number, uint64_t bits)
{
    nicx_put64(TX_RING + 16 * slot, buffer(number));
    nicx_put64(TX_RING + 16 * slot + 8, (uint64_t)FRAME << 46 | bits << 24 | (uint64_t)DATA << 20 | FRAME);
}

static inline void fill_buffer(unsigned number, unsigned frame_number)
{
    uint8_t frame[FRAME];
    make_frame(frame, frame_number);
    nicx_dma_write(buffer(number), frame, FRAME);
}

static inline bool is_done(uint64_t ring, unsigned slot, unsigned bit)
{
    return nicx_get64(ring + 16 * slot + 8) >> bit & 1;
}

enum { RX_DONE = 0, TX_DONE = 32 };

/* In `end`: returns null if frames 0 .. count - 1 went out, each once and in this order. */
static inline const char *went_out(unsigned count)
{
    uint8_t frame[FRAME];
    nic_outcome outcome;
    for (unsigned k = 0; k < count; k++) {
        if (nic_collect(nicx_device(), frame, sizeof frame, &outcome) != NIC_FRAME)
            return "a frame was never transmitted";
        if (frame[FRAME - 1] != k)
            return "a frame was transmitted with another frame's bytes";
    }
    return nic_next_out(nicx_device()) ? "a frame was transmitted twice" : NULL;
}

#endif
