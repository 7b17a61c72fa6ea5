/* A driver for the 82599 in six milestones, with the report card's adapter at the end. README.md explains how to work
   on it.

   Registers have the datasheet's names: NIC_CTRL is CTRL, and NIC_CTRL_RST is one of its bits
   (c/include/nic82599_regs.h). Fields of descriptors are named similarly: NIC_RXWB_DD (c/include/nic82599_desc.h,
   docs/DESCRIPTORS.md). */
#include <string.h>

#include "nic82599_drive.h"

enum { MOST_SLOTS = 64, BUFFER = 2048, ALL_CAUSES = 0x7FFFFFFF, ENABLE = 1 << 25 };

/* A ring of descriptors, and a buffer for each. In transmit rings, `used` slots starting at `oldest` are in flight. */
struct ring {
    uint64_t bus, buffers[MOST_SLOTS];
    unsigned next, oldest, used;
};

/* The driver's state. `open` resets it for each run. */
static struct {
    nicd_setup setup;
    nicd_rss rss;
    struct ring rx[NICD_QUEUES], tx[NICD_QUEUES];
} driver;

/* --- given: memory --- */

static bool take_ring(struct ring *ring)
{
    ring->bus = nicd_dma_alloc(NIC_DESC_BYTES * (size_t)driver.setup.slots);
    for (unsigned slot = 0; ring->bus && slot < driver.setup.slots; slot++)
        if (!(ring->buffers[slot] = nicd_dma_alloc(BUFFER)))
            return false;
    return ring->bus != 0;
}

static void give_ring(struct ring *ring)
{
    for (unsigned slot = 0; slot < MOST_SLOTS && ring->buffers[slot]; slot++)
        nicd_dma_free(ring->buffers[slot]);
    if (ring->bus)
        nicd_dma_free(ring->bus);
    memset(ring, 0, sizeof *ring);
}

/* Returns false if an allocation fails, and keeps what was allocated before. */
static bool take_memory(void)
{
    for (unsigned queue = 0; queue < driver.setup.queues; queue++)
        if (!take_ring(&driver.rx[queue]) || !take_ring(&driver.tx[queue]))
            return false;
    return true;
}

static void give_memory(void)
{
    for (unsigned queue = 0; queue < NICD_QUEUES; queue++) {
        give_ring(&driver.rx[queue]);
        give_ring(&driver.tx[queue]);
    }
}

/* --- given: helpers --- */

static inline unsigned after(unsigned slot)
{
    return (slot + 1) % driver.setup.slots;
}

/* Returns the four bytes at `bytes` as a register's value. */
static inline uint32_t word_of(const uint8_t *bytes)
{
    return bytes[0] | (uint32_t)bytes[1] << 8 | (uint32_t)bytes[2] << 16 | (uint32_t)bytes[3] << 24;
}

static void mask_all(void)
{
    nicx_write32(NIC_EIMC, ALL_CAUSES);
}

/* Writes a queue's RXDCTL or TXDCTL. The queue is on or off only when its ENABLE reads accordingly. */
static inline void switch_queue(uint32_t control, uint32_t word)
{
    nicx_write32(control, word);
    /* TODO 2: wait until ENABLE reads as written. A loop that waits for the device must call nicx_wait. */
    while ((nicx_read32(control) & ENABLE) != (word & ENABLE))
        nicx_wait();
    /* END */
}

/* --- milestone 1: the device --- */

static void set_up_device(void)
{
    mask_all();
    /* TODO 1: reset the device (CTRL.RST), then mask all causes again. */
    nicx_write32(NIC_CTRL, NIC_CTRL_RST);
    mask_all();
    /* END */
    /* TODO 1: write the driver's address, driver.setup.address, to RAL[0] and RAH[0], and set RAH.AV. Accept broadcast
       frames (FCTRL.BAM). word_of turns four bytes into a register's value; the last two bytes go into RAH. */
    nicx_write32(NIC_RAL(0), word_of(driver.setup.address));
    nicx_write32(NIC_RAH(0), driver.setup.address[4] | (uint32_t)driver.setup.address[5] << 8 | NIC_RAH_AV);
    nicx_write32(NIC_FCTRL, NIC_FCTRL_BAM);
    /* END */
    /* TODO 1: set RXCRCSTRP, TXCRCEN and TXPADEN in HLREG0, and CRCSTRIP, RSCACKC and FCOE_WRFIX in RDRXCTL. Leave the
       other bits of both registers unchanged. */
    nicx_write32(NIC_HLREG0, nicx_read32(NIC_HLREG0) | NIC_HLREG0_RXCRCSTRP | NIC_HLREG0_TXCRCEN | NIC_HLREG0_TXPADEN);
    nicx_write32(NIC_RDRXCTL,
                 nicx_read32(NIC_RDRXCTL) | NIC_RDRXCTL_CRCSTRIP | NIC_RDRXCTL_RSCACKC | NIC_RDRXCTL_FCOE_WRFIX);
    /* END */
    uint32_t loaded = 0;
    /* TODO 1: set DRV_LOAD in the value for CTRL_EXT. It tells the firmware that a driver is loaded. */
    loaded = NIC_CTRL_EXT_DRV_LOAD;
    /* END */
    /* TODO 6: if there are virtual functions (driver.setup.functions above 0), select 64 pools (GCR_EXT.VT_MODE 3).
       Also set CTRL_EXT.PFRSTD, which tells the virtual functions that the device is ready. */
    if (driver.setup.functions) {
        nicx_write32(NIC_GCR_EXT, NIC_GCR_EXT_VT_MODE_IS(3));
        loaded |= NIC_CTRL_EXT_PFRSTD;
    }
    /* END */
    nicx_write32(NIC_CTRL_EXT, loaded);
}

static void leave_device(void)
{
    mask_all();
    /* TODO 1: disable reception (RXCTRL), clear DRV_LOAD, and clear all causes in EICR by writing 1 to each. */
    nicx_write32(NIC_RXCTRL, 0);
    nicx_write32(NIC_CTRL_EXT, 0);
    nicx_write32(NIC_EICR, ALL_CAUSES);
    /* END */
}

/* --- milestone 2: receiving frames --- */

/* Prepares a slot of a receive ring for the device: its descriptor is the buffer's address, then 0. */
static void post(struct ring *ring, unsigned slot)
{
    nicx_put64(ring->bus + NIC_DESC_BYTES * slot, ring->buffers[slot]);
    nicx_put64(ring->bus + NIC_DESC_BYTES * slot + 8, 0);
}

/* Returns the value of SRRCTL, which describes the buffers. */
static uint32_t kind_of_buffers(void)
{
    uint32_t kind = 0;
    /* TODO 2: set DESCTYPE to 1, and BSIZEPACKET to BUFFER in KB. */
    kind = NIC_SRRCTL_DESCTYPE_IS(1) | NIC_SRRCTL_BSIZEPACKET_IS(BUFFER / 1024);
    /* END */
    /* TODO 3: with several queues, set DROP_EN: a full queue then drops its frames instead of blocking the others. */
    if (driver.setup.queues > 1)
        kind |= NIC_SRRCTL_DROP_EN;
    /* END */
    return kind;
}

static void start_receive(unsigned queue)
{
    struct ring *ring = &driver.rx[queue];
    ring->next = 0;
    for (unsigned slot = 0; slot < driver.setup.slots; slot++)
        post(ring, slot);
    nicx_write32(NIC_SRRCTL(queue), kind_of_buffers());
    /* TODO 2: write the ring's address and its length in bytes (RDBAL, RDBAH, RDLEN), and set head and tail to 0.
       Enable the queue through RXDCTL (switch_queue). Only then move the tail, so that the device owns all slots but
       one. Call nicx_wmb before you move the tail: it orders earlier writes before later ones. */
    nicx_write32(NIC_RDBAL(queue), (uint32_t)ring->bus);
    nicx_write32(NIC_RDBAH(queue), (uint32_t)(ring->bus >> 32));
    nicx_write32(NIC_RDLEN(queue), NIC_DESC_BYTES * driver.setup.slots);
    nicx_write32(NIC_RDH(queue), 0);
    nicx_write32(NIC_RDT(queue), 0);
    switch_queue(NIC_RXDCTL(queue), NIC_RXDCTL_ENABLE);
    nicx_wmb();
    nicx_write32(NIC_RDT(queue), driver.setup.slots - 1u);
    /* END */
}

/* Stores the next frame's bytes and length. Returns false if there is none. */
static bool receive(uint16_t queue, nicd_frame *frame)
{
    /* TODO 2: the slot is driver.rx[queue].next. Read the second half of its descriptor once (nicx_get64). Without
       NIC_RXWB_DD no frame has arrived. Otherwise call nicx_rmb and read NIC_RXWB_PKT_LEN bytes (nic_desc_field) from
       the buffer (nicx_dma_read). Return the slot to the device: post it, call nicx_wmb, and move the tail to it. The
       next slot is after(slot). */
    struct ring *ring = &driver.rx[queue];
    unsigned slot = ring->next;
    uint64_t written = nicx_get64(ring->bus + NIC_DESC_BYTES * slot + 8);
    if (!(written & NIC_RXWB_DD))
        return false;
    nicx_rmb();
    frame->length = (uint32_t)nic_desc_field(written, NIC_RXWB_PKT_LEN);
    nicx_dma_read(ring->buffers[slot], frame->bytes, frame->length);
    post(ring, slot);
    nicx_wmb();
    nicx_write32(NIC_RDT(queue), slot);
    ring->next = after(slot);
    return true;
    /* END: (void)queue; (void)frame; return false; */
}

/* --- milestone 3: several queues --- */

/* Returns MRQC's bit for a type, NIC_RSS_..; 0 if the type isn't hashed. */
static uint32_t bit_of(unsigned type)
{
    static const uint32_t bits[] = {[NIC_RSS_TCP_IPV4] = NIC_MRQC_TCPIPV4, [NIC_RSS_IPV4] = NIC_MRQC_IPV4,
                                    [NIC_RSS_TCP_IPV6] = NIC_MRQC_TCPIPV6, [NIC_RSS_IPV6] = NIC_MRQC_IPV6,
                                    [NIC_RSS_UDP_IPV4] = NIC_MRQC_UDPIPV4, [NIC_RSS_UDP_IPV6] = NIC_MRQC_UDPIPV6};
    return type < sizeof bits / sizeof *bits ? bits[type] : 0;
}

/* Spreads flows over the queues according to driver.rss: key, table and types. If there are no types, RSS wasn't
   requested. */
static void set_rss(void)
{
    uint32_t mode = NIC_MRQC_MRQE_IS(1);
    if (!driver.rss.types)
        return;
    for (unsigned type = 0; type < 32; type++)
        mode |= driver.rss.types >> type & 1 ? bit_of(type) : 0;
    /* TODO 3: write the key to RSSRK(0) to RSSRK(9) and the table to RETA(0) to RETA(31), four bytes per register. Set
       RXCSUM.PCSD, so that the descriptor contains the hash. Write `mode` to MRQC. */
    for (unsigned k = 0; k < 10; k++)
        nicx_write32(NIC_RSSRK(k), word_of(driver.rss.key + 4 * k));
    for (unsigned k = 0; k < 32; k++)
        nicx_write32(NIC_RETA(k), word_of(driver.rss.table + 4 * k));
    nicx_write32(NIC_RXCSUM, NIC_RXCSUM_PCSD);
    nicx_write32(NIC_MRQC, mode);
    /* END */
}

static bool rss(const nicd_rss *wanted)
{
    driver.rss = *wanted;
    set_rss();
    return true;
}

/* --- milestone 4: interrupts --- */

static void set_interrupts(void)
{
    /* TODO 4: assign vector q to both sides of queue q. IVAR(q / 2) has a receive byte and a transmit byte for the even
       queue, then both for the odd one; set 0x80 in each valid byte. In GPIE set MULTIPLE_MSIX, PBA_SUPPORT, OCD and
       EIAME. In EIAC and EIAM set the causes of the queues, bit q for queue q: a message then clears its cause and
       masks it. Enable the causes in EIMS last. */
    uint32_t causes = (UINT32_C(1) << driver.setup.queues) - 1;
    for (unsigned queue = 0; queue < driver.setup.queues; queue += 2) {
        uint32_t even = 0x80 | queue, odd = queue + 1u < driver.setup.queues ? even + 1 : 0;
        nicx_write32(NIC_IVAR(queue / 2), even | even << 8 | odd << 16 | odd << 24);
    }
    nicx_write32(NIC_GPIE, NIC_GPIE_MULTIPLE_MSIX | NIC_GPIE_PBA_SUPPORT | NIC_GPIE_OCD | NIC_GPIE_EIAME);
    nicx_write32(NIC_EIAC, causes);
    nicx_write32(NIC_EIAM, causes);
    nicx_write32(NIC_EIMS, causes);
    /* END */
}

/* Handles a vector's message. Returns the queues to poll, bit q for queue q. */
static uint32_t interrupt(uint8_t vector)
{
    /* TODO 4: return the bit of this vector's queue. */
    return UINT32_C(1) << vector;
    /* END: (void)vector; return 0; */
}

/* Called after a queue has been polled until it was empty. */
static void rearm(uint16_t queue)
{
    /* TODO 4: enable the queue's cause again, and no other cause. */
    nicx_write32(NIC_EIMS, UINT32_C(1) << queue);
    /* END: (void)queue; */
}

/* --- milestone 5: sending frames --- */

static void start_transmit(unsigned queue)
{
    struct ring *ring = &driver.tx[queue];
    ring->next = ring->oldest = ring->used = 0;
    /* TODO 5: set DMATXCTL.TE. Set up the ring as on the receive side (TDBAL, TDBAH, TDLEN, TDH, TDT), and enable the
       queue through TXDCTL. The tail stays 0, because the device owns no slot yet. */
    nicx_write32(NIC_DMATXCTL, nicx_read32(NIC_DMATXCTL) | NIC_DMATXCTL_TE);
    nicx_write32(NIC_TDBAL(queue), (uint32_t)ring->bus);
    nicx_write32(NIC_TDBAH(queue), (uint32_t)(ring->bus >> 32));
    nicx_write32(NIC_TDLEN(queue), NIC_DESC_BYTES * driver.setup.slots);
    nicx_write32(NIC_TDH(queue), 0);
    nicx_write32(NIC_TDT(queue), 0);
    switch_queue(NIC_TXDCTL(queue), NIC_TXDCTL_ENABLE);
    /* END */
}

/* Reclaims the slots of sent frames. Returns how many frames are still unsent. */
static uint32_t reclaim(uint16_t queue)
{
    struct ring *ring = &driver.tx[queue];
    /* TODO 5: when the oldest slot's frame is sent, the device sets DD (NIC_TXWB_DD) in the second half of its
       descriptor. Free each such slot; the next slot is then the oldest. */
    while (ring->used && nicx_get64(ring->bus + NIC_DESC_BYTES * ring->oldest + 8) & NIC_TXWB_DD) {
        ring->oldest = after(ring->oldest);
        ring->used--;
    }
    /* END */
    return ring->used;
}

/* Returns false if the ring is full, or the frame is longer than the setup allows. */
static bool send(uint16_t queue, const uint8_t *bytes, uint32_t length)
{
    /* TODO 5: keep one slot free, otherwise head and tail would meet. Write the bytes to the slot's buffer
       (nicx_dma_write), build a descriptor with NIC_TXD_EOP and NIC_TXD_RS (nic_tx_desc), and write it (nicx_put_desc).
       Then call nicx_wmb and move the tail. */
    struct ring *ring = &driver.tx[queue];
    if (length > driver.setup.frame || ring->used + 1 == driver.setup.slots)
        return false;
    unsigned slot = ring->next;
    nic_desc given = nic_tx_desc(ring->buffers[slot], (uint16_t)length, length, NIC_TXD_EOP | NIC_TXD_RS);
    nicx_dma_write(ring->buffers[slot], bytes, length);
    nicx_put_desc(ring->bus, (uint16_t)slot, given);
    ring->next = after(slot);
    ring->used++;
    nicx_wmb();
    nicx_write32(NIC_TDT(queue), ring->next);
    return true;
    /* END: (void)queue; (void)bytes; (void)length; return false; */
}

/* --- open and close --- */

static void start(void)
{
    set_up_device();
    set_rss();
    /* before reception is enabled, so that early frames raise a message */
    if (driver.setup.interrupts)
        set_interrupts();
    for (unsigned queue = 0; queue < driver.setup.queues; queue++) {
        start_receive(queue);
        start_transmit(queue);
    }
    /* TODO 2: enable reception (RXCTRL.RXEN), as the last step. */
    nicx_write32(NIC_RXCTRL, NIC_RXCTRL_RXEN);
    /* END */
}

static void stop_queues(void)
{
    for (unsigned queue = 0; queue < driver.setup.queues; queue++) {
        /* TODO 2: disable the receive queue. Until it is disabled, the device may write to its memory. */
        switch_queue(NIC_RXDCTL(queue), 0);
        /* END */
        /* TODO 5: disable the transmit queue. */
        switch_queue(NIC_TXDCTL(queue), 0);
        /* END */
    }
}

static bool open_driver(const nicd_setup *setup)
{
    memset(&driver, 0, sizeof driver);
    driver.setup = *setup;
    if (!take_memory()) {
        /* TODO 2: if an allocation fails, free what was allocated and return false. */
        give_memory();
        return false;
        /* END */
    }
    start();
    return true;
}

static void close_driver(void)
{
    mask_all();
    stop_queues();
    leave_device();
    give_memory();
}

/* --- milestone 6: a reset during traffic, and the virtual functions' mailboxes --- */

/* Called after a fault or a hang. Sets everything up again with the same memory. Frames may be lost. */
static bool reset(void)
{
    /* TODO 6: restore the state after open: the rings start at slot 0 again. Keep the setup and the RSS settings. */
    mask_all();
    stop_queues();
    start();
    return true;
    /* END: return false; */
}

static inline bool is_asked(uint8_t vf)
{
    return nicx_read32(NIC_PFMBICR(vf / 16)) >> vf % 16 & 1;
}

/* Takes virtual function vf's mailbox. Returns false if the virtual function owns it. */
static inline bool take_mailbox(uint8_t vf)
{
    nicx_write32(NIC_PFMAILBOX(vf), NIC_PFMAILBOX_PFU);
    return nicx_read32(NIC_PFMAILBOX(vf)) & NIC_PFMAILBOX_PFU;
}

/* Sends a message to virtual function vf. Returns false if its mailbox isn't free now. */
static bool mailbox_send(uint8_t vf, const uint32_t *words, uint32_t count)
{
    /* TODO 6: take the mailbox. If it contains a request from the virtual function (is_asked), release it (write 0) and
       return false. Otherwise write the words, starting at PFMBMEM(16 * vf). PFMAILBOX.STS announces them and releases
       the mailbox. */
    if (!take_mailbox(vf))
        return false;
    if (is_asked(vf)) {
        nicx_write32(NIC_PFMAILBOX(vf), 0);
        return false;
    }
    for (uint32_t k = 0; k < count; k++)
        nicx_write32(NIC_PFMBMEM(16u * vf + k), words[k]);
    nicx_write32(NIC_PFMAILBOX(vf), NIC_PFMAILBOX_STS);
    return true;
    /* END: (void)vf; (void)words; (void)count; return false; */
}

/* Receives a message from virtual function vf. Returns false if there is none. */
static bool mailbox_receive(uint8_t vf, uint32_t words[NICD_WORDS])
{
    /* TODO 6: if there is a request, take the mailbox, so that the virtual function can't overwrite it. Clear the
       virtual function's bit in PFMBICR by writing 1 (NIC_PFMBICR_VFREQ_IS), read the 16 words, and acknowledge
       (PFMAILBOX.ACK). */
    if (!is_asked(vf) || !take_mailbox(vf))
        return false;
    nicx_write32(NIC_PFMBICR(vf / 16), NIC_PFMBICR_VFREQ_IS(1u << vf % 16));
    for (unsigned k = 0; k < NICD_WORDS; k++)
        words[k] = nicx_read32(NIC_PFMBMEM(16u * vf + k));
    nicx_write32(NIC_PFMAILBOX(vf), NIC_PFMAILBOX_ACK);
    return true;
    /* END: (void)vf; (void)words; return false; */
}

/* --- given: the adapter --- */

int main(int argc, char **argv)
{
    static const nicd_driver card = {
        .name = "course",
        .can = NICD_HOST | NICD_NO_MODERATION | NICD_ONE_BUFFER,
        .queues = NICD_QUEUES,
        .open = open_driver,
        .close = close_driver,
        .receive = receive,
        .send = send,
        .reclaim = reclaim,
        .interrupt = interrupt,
        .rearm = rearm,
        .rss = rss,
        .reset = reset,
        .mailbox_send = mailbox_send,
        .mailbox_receive = mailbox_receive,
    };
    return nicd_main(argc, argv, &card);
}
