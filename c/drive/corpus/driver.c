/* A complete driver, plugged into the card: physical or virtual function, up to four queues, chained frames, MSI-X
   interrupts, filters, RSS, MTU, resizable rings, resets, suspend, link and mailbox.

   It is correct. With -DBUG=NAME, it contains the bug that bugs.h lists under this name. The bugs are those in
   c/explore's corpus and examples, and similar ones, each as an author might write it. docs/report-card.md lists the
   row that finds each. */
#include <string.h>

#include "nic82599_drive.h"
#ifdef IN_PLACE
#include "in_place.h"
#endif
#ifdef ALIASES
#include "../tests/aliases.h" /* accesses each register through its alias, if it has one */
#endif

enum bug {
    NONE,
#define WRONG(name, ...) name,
#include "bugs.h"
#undef WRONG
};

#ifndef BUG
#define BUG NONE
#endif

/* With -DLOSES=FILTER -DBY=RESET, for example, the event reverts the setting to its value at open. */
enum setting { NO_SETTING, FILTER, LIST, PROMISCUOUS, MTU, RSS, RINGS };
enum event { NO_EVENT, RESET, SUSPEND, RESIZE, OTHER_MTU, LINK };

#ifndef LOSES
#define LOSES NO_SETTING
#define BY NO_EVENT
#endif

enum { PART = 2048, MOST_SLOTS = 64, ENABLE = 1 << 25, OTHER_VECTOR = 8, INTERVAL = 50, BUDGET = 4 };

/* With -DTHREADS, and with these bugs, the driver's own threads receive the frames. */
#ifdef THREADS
#define HAS_THREADS 1
#else
#define HAS_THREADS (BUG == UNMASKED_BEFORE_LAST_LOOK || BUG == INTERRUPT_MODERATION)
#endif
#define HAS_WATCHDOG (BUG == TRANSMIT_WATCHDOG)
#define WRITES_HEAD (BUG == WRITTEN_HEAD_STALE)
#define VECTORS_LAST (BUG == VECTORS_AFTER_RECEPTION || BUG == CAUSES_RAISED_TOO_EARLY)

struct ring {
    uint64_t bus;
    uint64_t buffers[MOST_SLOTS];
    uint32_t lengths[MOST_SLOTS]; /* receive: bytes in the slots read so far */
    uint16_t next;                /* receive: the next slot to read; transmit: the first free slot */
};

struct transmit {
    struct ring ring;
    uint16_t clean;            /* the oldest slot not reclaimed yet */
    uint16_t last[MOST_SLOTS]; /* indexed by a frame's first slot: its last slot */
    uint32_t frames;           /* frames in flight */
    uint32_t count;            /* descriptors written so far */
    uint64_t head;             /* where the device writes the head back; 0 if it doesn't */
    nicx_mutex lock;
};

struct rings {
    struct ring rx[NICD_QUEUES];
    struct transmit tx[NICD_QUEUES];
};

/* One direction's frame count in the upper 24 bits and its byte count in the rest, so that one access reads both. */
struct count {
    uint64_t frames_and_bytes;
#ifdef PLAIN_COUNTS
    uint64_t frames, bytes;
#endif
};

static struct {
    nicd_setup setup;
    struct rings rings;
    nicd_filter filter;
    nicd_rss rss;
    bool has_rss, link_is_up;
    struct count received, sent;
    bool waits_for_ack;
    uint32_t seen;                                          /* bits that a read of VFMAILBOX clears */
    bool scheduled[NICD_QUEUES], polls[NICD_QUEUES], rests; /* state of the driver's own threads */
    uint32_t interrupts, looked;
    uint32_t taken[NICD_QUEUES]; /* frames received by the current poll */
    bool is_polled[NICD_QUEUES];
    nicd_frame partial;
    nicx_mutex counters, other, link;
} driver;

/* Reads a flag that handlers or other threads set. */
static bool is_on(const bool *flag)
{
    return __atomic_load_n(flag, __ATOMIC_ACQUIRE);
}

static void turn(bool *flag, bool on)
{
    __atomic_store_n(flag, on, __ATOMIC_RELEASE);
}

/* --- statistics --- */

static void count(struct count *it, uint32_t length)
{
#ifdef PLAIN_COUNTS /* two separate words, without points at their accesses */
    it->frames++;
    it->bytes += length;
#else
    bool is_split = BUG == COUNTED_IN_TWO_STEPS;
    __atomic_fetch_add(&it->frames_and_bytes, (uint64_t)1 << 40 | (is_split ? 0 : length), __ATOMIC_ACQ_REL);
    if (is_split) {
        nicx_point();
        __atomic_fetch_add(&it->frames_and_bytes, length, __ATOMIC_ACQ_REL);
    }
#endif
}

static void read_count(struct count *it, uint64_t *frames, uint64_t *bytes)
{
#ifdef PLAIN_COUNTS
    *frames = it->frames;
    *bytes = it->bytes;
#else
    uint64_t both = __atomic_load_n(&it->frames_and_bytes, __ATOMIC_ACQUIRE);
    *frames = both >> 40;
    *bytes = both & (((uint64_t)1 << 40) - 1);
#endif
}

static void stats(nicd_stats *stats)
{
    read_count(&driver.received, &stats->rx_frames, &stats->rx_bytes);
    read_count(&driver.sent, &stats->tx_frames, &stats->tx_bytes);
}

/* --- registers; a virtual function accesses its queues' registers at other addresses --- */

static void put(uint32_t address, uint32_t word)
{
    if (driver.setup.port)
        nicx_vf_write32((uint8_t)(driver.setup.port - 1), address >= NIC_TDBAL(0) ? address - 0x4000 : address, word);
    else
        nicx_write32(address, word);
}

static uint32_t get(uint32_t address)
{
    if (driver.setup.port)
        return nicx_vf_read32((uint8_t)(driver.setup.port - 1), address >= NIC_TDBAL(0) ? address - 0x4000 : address);
    return nicx_read32(address);
}

static void set_enable(uint32_t address, uint32_t wanted)
{
    put(address, wanted);
    while ((get(address) & ENABLE) != (wanted & ENABLE))
        nicx_wait();
}

/* --- memory --- */

static bool take_ring(struct ring *ring)
{
    ring->bus = nicd_dma_alloc(NIC_DESC_BYTES * (size_t)driver.setup.slots);
    for (unsigned slot = 0; ring->bus && slot < driver.setup.slots; slot++) {
        ring->buffers[slot] = nicd_dma_alloc(PART);
        if (!ring->buffers[slot])
            return false;
    }
    return ring->bus != 0;
}

static void give_ring(struct ring *ring)
{
    for (unsigned slot = 0; slot < MOST_SLOTS; slot++) {
        if (ring->buffers[slot])
            nicd_dma_free(ring->buffers[slot]);
        ring->buffers[slot] = 0;
    }
    if (ring->bus)
        nicd_dma_free(ring->bus);
    ring->bus = 0;
}

static void give_rings(struct rings *rings)
{
    for (unsigned queue = 0; queue < NICD_QUEUES; queue++) {
        give_ring(&rings->rx[queue]);
        give_ring(&rings->tx[queue].ring);
        if (rings->tx[queue].head)
            nicd_dma_free(rings->tx[queue].head);
        rings->tx[queue].head = 0;
    }
}

static void give_all(void)
{
    give_rings(&driver.rings);
}

static bool take_all(void)
{
    for (unsigned queue = 0; queue < driver.setup.queues; queue++) {
        if (!take_ring(&driver.rings.rx[queue]) || !take_ring(&driver.rings.tx[queue].ring))
            return false;
        if (WRITES_HEAD && !(driver.rings.tx[queue].head = nicd_dma_alloc(4)))
            return false;
    }
    return true;
}

/* --- queues --- */

static unsigned after(unsigned slot)
{
    return (slot + 1) % driver.setup.slots;
}

static void post(struct ring *ring, unsigned slot)
{
    nicx_put64(ring->bus + NIC_DESC_BYTES * slot, ring->buffers[slot]);
    nicx_put64(ring->bus + NIC_DESC_BYTES * slot + 8, 0);
}

static void start_receive(unsigned queue)
{
    struct ring *ring = &driver.rings.rx[queue];
    ring->next = 0;
    for (unsigned slot = 0; slot < driver.setup.slots; slot++)
        post(ring, slot);
    put(NIC_RDBAL(queue), (uint32_t)ring->bus);
    put(NIC_RDBAH(queue), (uint32_t)(ring->bus >> 32));
    put(NIC_RDLEN(queue), NIC_DESC_BYTES * driver.setup.slots);
    put(NIC_RDH(queue), 0);
    put(NIC_RDT(queue), 0);
    put(NIC_SRRCTL(queue), NIC_SRRCTL_DESCTYPE_IS(1) | NIC_SRRCTL_BSIZEPACKET_IS(PART / 1024) |
                               (driver.setup.queues > 1 ? NIC_SRRCTL_DROP_EN : 0));
    if (BUG == ENABLE_NOT_AWAITED)
        put(NIC_RXDCTL(queue), ENABLE);
    else
        set_enable(NIC_RXDCTL(queue), ENABLE);
    nicx_wmb();
    put(NIC_RDT(queue), driver.setup.slots - 1u);
}

static void start_transmit(unsigned queue)
{
    struct transmit *tx = &driver.rings.tx[queue];
    tx->ring.next = tx->clean = 0;
    tx->frames = tx->count = 0;
    put(NIC_TDBAL(queue), (uint32_t)tx->ring.bus);
    put(NIC_TDBAH(queue), (uint32_t)(tx->ring.bus >> 32));
    put(NIC_TDLEN(queue), NIC_DESC_BYTES * driver.setup.slots);
    put(NIC_TDH(queue), 0);
    put(NIC_TDT(queue), 0);
    if (WRITES_HEAD)
        put(NIC_TDWBAL(queue), (uint32_t)tx->head | NIC_TDWBAL_HEAD_WB_EN);
    set_enable(NIC_TXDCTL(queue), ENABLE | NIC_TXDCTL_PTHRESH_IS(32) | NIC_TXDCTL_HTHRESH_IS(1));
}

/* --- the device --- */

static uint32_t low_of(const uint8_t address[6])
{
    return address[0] | (uint32_t)address[1] << 8 | (uint32_t)address[2] << 16 | (uint32_t)address[3] << 24;
}

static void set_address(unsigned index, const uint8_t address[6], bool is_valid)
{
    nicx_write32(NIC_RAL(index), is_valid ? low_of(address) : 0);
    nicx_write32(NIC_RAH(index), is_valid ? (address[4] | (uint32_t)address[5] << 8 | NIC_RAH_AV) : 0);
}

static void set_filter(void)
{
    const nicd_filter *it = &driver.filter;
    set_address(0, driver.setup.address, true);
    for (unsigned k = 0; k < 4; k++)
        set_address(1 + k, it->address[k], k < it->count);
    nicx_write32(NIC_FCTRL, (it->all_unicast ? NIC_FCTRL_UPE : 0) | (it->all_multicast ? NIC_FCTRL_MPE : 0) |
                                (it->broadcast ? NIC_FCTRL_BAM : 0));
}

static uint32_t hashed(uint32_t types)
{
    static const uint32_t bits[9] = {[NIC_RSS_TCP_IPV4] = NIC_MRQC_TCPIPV4, [NIC_RSS_IPV4] = NIC_MRQC_IPV4,
                                     [NIC_RSS_TCP_IPV6] = NIC_MRQC_TCPIPV6, [NIC_RSS_IPV6] = NIC_MRQC_IPV6,
                                     [NIC_RSS_UDP_IPV4] = NIC_MRQC_UDPIPV4, [NIC_RSS_UDP_IPV6] = NIC_MRQC_UDPIPV6};
    uint32_t word = 0;
    for (unsigned type = 0; type < 9; type++)
        word |= types >> type & 1 ? bits[type] : 0;
    return word;
}

static void set_rss(void)
{
    const nicd_rss *it = &driver.rss;
    uint32_t kept = BUG == RETA_OF_TWO_QUEUES ? 0x01010101 : 0x0F0F0F0F;
    for (unsigned k = 0; k < 10; k++)
        nicx_write32(NIC_RSSRK(k), low_of(it->key + 4 * k));
    for (unsigned k = 0; k < 32; k++) {
        const uint8_t *entry = it->table + 4 * k;
        nicx_write32(NIC_RETA(k),
                     (entry[0] | (uint32_t)entry[1] << 8 | (uint32_t)entry[2] << 16 | (uint32_t)entry[3] << 24) & kept);
    }
    nicx_write32(NIC_RXCSUM, NIC_RXCSUM_PCSD);
    nicx_write32(NIC_MRQC, NIC_MRQC_MRQE_IS(1) | hashed(it->types));
}

static void set_lengths(void)
{
    uint32_t word = nicx_read32(NIC_HLREG0) | NIC_HLREG0_TXCRCEN | NIC_HLREG0_RXCRCSTRP | NIC_HLREG0_TXPADEN;
    bool is_jumbo = driver.setup.frame > 1514;
    nicx_write32(NIC_HLREG0, is_jumbo ? word | NIC_HLREG0_JUMBOEN : word & ~NIC_HLREG0_JUMBOEN);
    nicx_write32(NIC_MAXFRS, NIC_MAXFRS_MFS_IS(driver.setup.frame + 4));
}

/* Assigns vector q to both sides of queue q; for a virtual function, vector q % 2. */
static void set_vectors(void)
{
    unsigned pairs = BUG == IVAR_OF_TWO_QUEUES ? 1 : (driver.setup.queues + 1) / 2;
    for (unsigned pair = 0; pair < pairs; pair++) {
        uint32_t low = 0x80 | 2 * pair, high = low + 1, word = low | low << 8;
        if (2 * pair + 1 < driver.setup.queues)
            word = BUG == IVAR_BYTE_LOST ? high << 16 | high << 24 : word | high << 16 | high << 24;
        if (driver.setup.port)
            nicx_vf_write32((uint8_t)(driver.setup.port - 1), NIC_VTIVAR(pair), word);
        else
            nicx_write32(NIC_IVAR(pair), word);
    }
}

static uint32_t own_causes(void)
{
    return (UINT32_C(1) << driver.setup.queues) - 1;
}

/* Sets the least time between two messages of a vector, in units of 2 microseconds. */
static void set_intervals(void)
{
    uint32_t word = BUG == INTERVAL_UNSHIFTED ? 2 * INTERVAL : NIC_EITR_ITR_INTERVAL_IS(INTERVAL);
    for (unsigned queue = 0; queue < driver.setup.queues; queue++)
        nicx_write32(NIC_EITR(queue + (BUG == INTERVAL_OF_QUEUE)), word);
    nicx_write32(NIC_EITR(OTHER_VECTOR), NIC_EITR_ITR_INTERVAL_IS(INTERVAL));
}

static const uint32_t other_causes = NIC_EICR_LSC | NIC_EICR_MAILBOX;

static void set_interrupts(void)
{
    unsigned vf = driver.setup.port - 1u;
    if (!driver.setup.interrupts)
        return;
    if (BUG == CAUSES_RAISED_TOO_EARLY) /* so that a poll finds earlier frames */
        nicx_write32(NIC_EICS, own_causes());
    if (BUG == CAUSES_ENABLED_FIRST && !driver.setup.port)
        nicx_write32(NIC_EIMS, own_causes() | other_causes);
    set_vectors();
    if (driver.setup.port) {
        nicx_vf_write32((uint8_t)vf, NIC_VTEIAC, own_causes());
        nicx_vf_write32((uint8_t)vf, NIC_VTEIAM, own_causes());
        nicx_vf_write32((uint8_t)vf, NIC_VTEIMS, own_causes());
        return;
    }
    bool clears = BUG != EICR_CLEARED_AFTER_POLL && BUG != CAUSE_READ_AWAY;
    nicx_write32(NIC_GPIE, NIC_GPIE_MULTIPLE_MSIX | NIC_GPIE_PBA_SUPPORT | NIC_GPIE_EIAME |
                               (BUG == CAUSE_READ_AWAY ? 0 : NIC_GPIE_OCD));
    nicx_write32(NIC_IVAR_MISC, NIC_IVAR_MISC_INT_ALLOC_1_IS(OTHER_VECTOR) | NIC_IVAR_MISC_INT_ALLOC_VAL_1);
    set_intervals();
    nicx_write32(NIC_EIAC, clears ? own_causes() : 0);
    nicx_write32(NIC_EIAM, own_causes());
    if (BUG == CAUSES_RAISED_TOO_EARLY)
        nicx_write32(NIC_EICR, 0x7FFFFFFF);
    nicx_write32(NIC_EIMS, own_causes() | other_causes);
}

static void mask(uint32_t causes)
{
    if (driver.setup.port)
        nicx_vf_write32((uint8_t)(driver.setup.port - 1), NIC_VTEIMC, 7);
    else
        nicx_write32(NIC_EIMC, causes);
}

static void mask_all(void)
{
    mask(0x7FFFFFFF);
}

static void set_up_device(void)
{
    mask_all();
    nicx_write32(NIC_CTRL, NIC_CTRL_RST);
    mask_all();
    if (driver.setup.functions)
        nicx_write32(NIC_GCR_EXT, NIC_GCR_EXT_VT_MODE_IS(3));
    nicx_write32(NIC_CTRL_EXT, NIC_CTRL_EXT_DRV_LOAD | (driver.setup.functions ? NIC_CTRL_EXT_PFRSTD : 0));
    set_filter();
    set_lengths();
    nicx_write32(NIC_RDRXCTL,
                 nicx_read32(NIC_RDRXCTL) | NIC_RDRXCTL_CRCSTRIP | NIC_RDRXCTL_RSCACKC | NIC_RDRXCTL_FCOE_WRFIX);
    if (driver.has_rss)
        set_rss();
    nicx_write32(NIC_DMATXCTL, nicx_read32(NIC_DMATXCTL) | NIC_DMATXCTL_TE);
}

static void spread_over_queues(void)
{
    for (unsigned k = 0; k < sizeof driver.rss.key; k++)
        driver.rss.key[k] = (uint8_t)(k * 47 + 13);
    for (unsigned k = 0; k < sizeof driver.rss.table; k++)
        driver.rss.table[k] = (uint8_t)(k % driver.setup.queues);
    driver.rss.types = 1u << NIC_RSS_TCP_IPV4 | 1u << NIC_RSS_IPV4 | 1u << NIC_RSS_TCP_IPV6 | 1u << NIC_RSS_IPV6 |
                       1u << NIC_RSS_UDP_IPV4 | 1u << NIC_RSS_UDP_IPV6;
    driver.has_rss = driver.setup.queues > 1;
}

/* Makes the driver forget a setting at the event BY. */
static void lose(enum event event)
{
    static const nicd_filter at_open = {.broadcast = true};
    if (event != BY)
        return;
    if (LOSES == FILTER || LOSES == LIST || LOSES == PROMISCUOUS)
        driver.filter = at_open;
    if (LOSES == MTU)
        driver.setup.frame = 1514;
    if (LOSES == RSS)
        spread_over_queues();
    if (LOSES == RINGS)
        driver.setup.slots = 8;
}

static void start_all(void)
{
    if (!driver.setup.port)
        set_up_device();
    if (!VECTORS_LAST)
        set_interrupts(); /* before reception is enabled, so that early frames raise a message */
    for (unsigned queue = 0; queue < driver.setup.queues; queue++) {
        start_receive(queue);
        start_transmit(queue);
    }
    if (!driver.setup.port)
        nicx_write32(NIC_RXCTRL, NIC_RXCTRL_RXEN);
    if (VECTORS_LAST)
        set_interrupts();
}

static void stop_queues(void)
{
    for (unsigned queue = 0; queue < driver.setup.queues; queue++) {
        if (BUG == ENABLE_NOT_AWAITED && !(get(NIC_RXDCTL(queue)) & ENABLE))
            continue;
        if (BUG == STOP_THAT_DOES_NOT_WAIT) {
            put(NIC_RXDCTL(queue), 0);
            put(NIC_TXDCTL(queue), 0);
        } else {
            set_enable(NIC_RXDCTL(queue), 0);
            set_enable(NIC_TXDCTL(queue), 0);
        }
    }
}

/* The handler may run concurrently with a reset. The last reader of LINKS must also be the last to store what it
   read. */
static void look_at_link(void)
{
    nicx_interrupts_off();
    nicx_lock(&driver.link);
    turn(&driver.link_is_up, (nicx_read32(NIC_LINKS) & NIC_LINKS_LINK_UP) != 0);
    nicx_unlock(&driver.link);
    nicx_interrupts_on();
}

/* --- open and close --- */

static void rest_threads(void);
static void wake_threads(void);

static bool open_driver(const nicd_setup *setup)
{
    memset(&driver, 0, sizeof driver);
    driver.setup = *setup;
    driver.filter.broadcast = true;
    spread_over_queues();
    if (!take_all()) {
        give_all();
        return false;
    }
    start_all();
    if (!setup->port)
        look_at_link();
    return true;
}

static void close_driver(void)
{
    rest_threads();
    mask_all();
    stop_queues();
    if (!driver.setup.port) {
        nicx_write32(NIC_RXCTRL, 0);
        nicx_write32(NIC_CTRL_EXT, 0);
        nicx_write32(NIC_EICR, 0x7FFFFFFF);
    }
    give_all();
}

/* --- receiving --- */

static uint64_t look(const struct ring *ring, unsigned slot)
{
    uint64_t second = ring->bus + NIC_DESC_BYTES * slot + 8;
    if (BUG == LENGTH_BEFORE_DD) {
        uint8_t length[2] = {0}, state[1] = {0};
        nicx_dma_read(second + 4, length, 2);
        nicx_dma_read(second, state, 1);
        return state[0] | (uint64_t)length[0] << 32 | (uint64_t)length[1] << 40;
    }
    return nicx_get64(second);
}

/* Whether a complete frame is in the ring. Stores its last slot. */
static bool find(struct ring *ring, unsigned *last)
{
    unsigned slot = ring->next;
    for (unsigned k = 0; k < driver.setup.slots; k++, slot = after(slot)) {
        uint64_t second = look(ring, slot);
        ring->lengths[slot] = (uint32_t)nic_desc_field(second, NIC_RXWB_PKT_LEN);
        bool is_done = second & NIC_RXWB_DD || BUG == SLOT_WITHOUT_DD || (BUG == FIRST_DD_OF_A_CHAIN && k);
        if (!is_done)
            return false;
        if (BUG != MISSING_RMB)
            nicx_rmb(); /* DD must be read before the bytes */
        *last = slot;
        if (second & NIC_RXWB_EOP || BUG == SLOT_WITHOUT_DD)
            return true;
        if (BUG == FIRST_DD_OF_A_CHAIN && k + 1u >= (driver.setup.frame + PART - 1) / PART)
            return true;
    }
    return false;
}

static void append(const struct ring *ring, unsigned slot, uint32_t length, nicd_frame *frame)
{
    if (frame->length + length > sizeof frame->bytes)
        return;
    nicx_dma_read(ring->buffers[slot], frame->bytes + frame->length, length);
    frame->length += length;
}

static void give_back(unsigned queue, unsigned slot)
{
    struct ring *ring = &driver.rings.rx[queue];
    unsigned tail = BUG == TAIL_MEETS_HEAD ? after(slot) : slot;
    if (BUG == TAIL_BEFORE_DESCRIPTOR) { /* moves the tail before it writes the descriptor */
        put(NIC_RDT(queue), slot);
        post(ring, (slot + driver.setup.slots - 1u) % driver.setup.slots);
        return;
    }
    post(ring, slot);
    nicx_wmb(); /* the descriptor must be written before the tail */
    put(NIC_RDT(queue), tail);
}

/* Receives each part as it arrives and keeps it until the frame's end has arrived. */
static bool receive_by_parts(unsigned queue, nicd_frame *frame)
{
    struct ring *ring = &driver.rings.rx[queue];
    for (;;) {
        uint64_t second = look(ring, ring->next);
        if (!(second & NIC_RXWB_DD))
            return false;
        append(ring, ring->next, (uint32_t)nic_desc_field(second, NIC_RXWB_PKT_LEN), &driver.partial);
        give_back(queue, ring->next);
        ring->next = (uint16_t)after(ring->next);
        if (!(second & NIC_RXWB_EOP))
            continue;
        *frame = driver.partial;
        driver.partial.length = 0;
        return true;
    }
}

static bool take_frame(unsigned queue, nicd_frame *frame)
{
    struct ring *ring = &driver.rings.rx[queue];
    unsigned last = 0;
    if (BUG == RING_RESIZE_JUMBO)
        return receive_by_parts(queue, frame);
    if (!find(ring, &last))
        return false;
    frame->length = 0;
    for (unsigned slot = ring->next;; slot = after(slot)) {
        append(ring, slot, ring->lengths[slot], frame);
        if (slot == last)
            break;
    }
    if (BUG == SLOT_TAKEN_TWICE && !driver.looked++)
        return true;
    while (ring->next != after(last)) {
        unsigned slot = ring->next;
        ring->next = (uint16_t)after(slot);
        give_back(queue, slot);
    }
    return true;
}

static bool receive(uint16_t queue, nicd_frame *frame)
{
    if (BUG == LOCK_IN_HANDLER_AND_POLL || BUG == LOCK_ORDER)
        nicx_lock(&driver.counters);
    if (BUG == LOCK_ORDER)
        nicx_lock(&driver.other);
    bool is_over = BUG == BUDGET_WITHOUT_POLL && driver.taken[queue] == BUDGET;
    bool is_there = !is_over && take_frame(queue, frame);
    driver.taken[queue] = is_there ? driver.taken[queue] + 1 : 0;
    if (is_there)
        count(&driver.received, frame->length);
    if (BUG == LOCK_ORDER)
        nicx_unlock(&driver.other);
    if (BUG == LOCK_IN_HANDLER_AND_POLL || BUG == LOCK_ORDER)
        nicx_unlock(&driver.counters);
    return is_there;
}

/* --- sending --- */

static unsigned used(const struct transmit *tx)
{
    return (tx->ring.next + driver.setup.slots - tx->clean) % driver.setup.slots;
}

static bool is_out(unsigned queue, unsigned slot)
{
    struct transmit *tx = &driver.rings.tx[queue];
    if (BUG == BUFFER_AGAIN_BEFORE_DD)
        return true;
    if (BUG == HEAD_CACHED_OVER_A_WRAP)
        return get(NIC_TDH(queue)) > slot;
    if (BUG == RECLAIM_BY_HEAD)
        return (get(NIC_TDH(queue)) + driver.setup.slots - tx->clean) % driver.setup.slots >
               (slot + driver.setup.slots - tx->clean) % driver.setup.slots;
    if (BUG == RS_ON_EVERY_FOURTH)
        slot |= 3;
    if (WRITES_HEAD) {
        unsigned head = (unsigned)nicx_get64(tx->head & ~UINT64_C(7)) & 0xFFFF;
        return (head + driver.setup.slots - tx->clean) % driver.setup.slots >
               (slot + driver.setup.slots - tx->clean) % driver.setup.slots;
    }
    return (nicx_get64(tx->ring.bus + NIC_DESC_BYTES * slot + 8) & NIC_TXWB_DD) != 0;
}

static void clean(unsigned queue)
{
    struct transmit *tx = &driver.rings.tx[queue];
    while (tx->frames && is_out(queue, tx->last[tx->clean])) {
        uint16_t next = (uint16_t)after(tx->last[tx->clean]);
        if (BUG == DOUBLE_CLEANER)
            nicx_point();
        if (!WRITES_HEAD && BUG != BUFFER_AGAIN_BEFORE_DD)
            nicx_put64(tx->ring.bus + NIC_DESC_BYTES * tx->last[tx->clean] + 8, 0);
        tx->clean = next;
        tx->frames--;
    }
}

static void fill(unsigned queue, const uint8_t *bytes, uint32_t length)
{
    struct transmit *tx = &driver.rings.tx[queue];
    unsigned first = tx->ring.next, slot = first;
    for (uint32_t at = 0; at < length; at += PART) {
        uint32_t part = length - at < PART ? length - at : PART;
        bool is_end = at + part == length;
        uint64_t report = BUG == RS_ON_EVERY_FOURTH && tx->count % 4 != 3 ? 0 : NIC_TXD_RS;
        uint32_t whole = BUG == PAYLEN_OF_BUFFER ? part : length;
        nic_desc d = nic_tx_desc(tx->ring.buffers[slot], (uint16_t)part, whole, is_end ? NIC_TXD_EOP | report : 0);
        d.second &= BUG == IFCS_MISSING ? ~NIC_TXD_IFCS : ~UINT64_C(0);
        nicx_dma_write(tx->ring.buffers[slot], bytes + at, part);
        nicx_put64(tx->ring.bus + NIC_DESC_BYTES * slot, d.first);
        nicx_put64(tx->ring.bus + NIC_DESC_BYTES * slot + 8, d.second);
        tx->last[first] = (uint16_t)slot;
        tx->count++;
        slot = after(slot);
    }
    tx->ring.next = (uint16_t)slot;
    tx->frames++;
    if (BUG != MISSING_WMB)
        nicx_wmb();
    put(NIC_TDT(queue), slot);
}

static bool send_locked(uint16_t queue, const uint8_t *bytes, uint32_t length)
{
    struct transmit *tx = &driver.rings.tx[queue];
    uint32_t parts = (length + PART - 1) / PART;
    if (length > driver.setup.frame || length < 60)
        return false;
    clean(queue);
    if (used(tx) + parts >= driver.setup.slots)
        return BUG == ACCEPTED_AND_DROPPED;
    fill(queue, bytes, length);
    count(&driver.sent, length);
    return true;
}

static bool send(uint16_t queue, const uint8_t *bytes, uint32_t length)
{
    if (BUG == TWO_THREADS_ONE_RING)
        return send_locked(queue, bytes, length);
    if (BUG == LOCK_ORDER)
        nicx_lock(&driver.other);
    nicx_lock(BUG == LOCK_ORDER ? &driver.counters : &driver.rings.tx[queue].lock);
    bool is_taken = send_locked(queue, bytes, length);
    nicx_unlock(BUG == LOCK_ORDER ? &driver.counters : &driver.rings.tx[queue].lock);
    if (BUG == LOCK_ORDER)
        nicx_unlock(&driver.other);
    return is_taken;
}

static uint32_t reclaim(uint16_t queue)
{
    struct transmit *tx = &driver.rings.tx[queue];
    if (BUG != DOUBLE_CLEANER)
        nicx_lock(&tx->lock);
    uint32_t before = tx->frames;
    clean(queue);
    uint32_t left = BUG == IDLE_REPORTED_EARLY && before > tx->frames ? 0 : tx->frames;
    if (BUG != DOUBLE_CLEANER)
        nicx_unlock(&tx->lock);
    return left;
}

/* --- interrupts --- */

static void handle_other(void)
{
    uint32_t causes = nicx_read32(NIC_EICR);
    if (causes & NIC_EICR_LSC && BUG == LINK_TOGGLED)
        turn(&driver.link_is_up, !is_on(&driver.link_is_up));
    else if (causes & NIC_EICR_LSC)
        look_at_link();
    if (causes & NIC_EICR_LSC && BY == LINK && is_on(&driver.link_is_up)) {
        lose(LINK);
        set_filter();
        set_lengths();
        if (driver.has_rss)
            set_rss();
        for (unsigned queue = 0; queue < driver.setup.queues && LOSES == RINGS; queue++)
            start_receive(queue);
    }
}

static uint32_t interrupt(uint8_t vector)
{
    if (BUG == LOCK_IN_HANDLER_AND_POLL) {
        nicx_lock(&driver.counters);
        __atomic_fetch_add(&driver.interrupts, 1, __ATOMIC_ACQ_REL);
        nicx_unlock(&driver.counters);
    }
    if (BUG == DOUBLE_CLEANER)
        clean(0);
    if (HAS_THREADS && vector < NICD_QUEUES) {
        __atomic_fetch_add(&driver.interrupts, 1, __ATOMIC_ACQ_REL);
        turn(&driver.scheduled[vector], true);
        return 0;
    }
    if (vector == OTHER_VECTOR && !driver.setup.port) {
        handle_other();
        return 0;
    }
    if (BUG == CAUSE_READ_AWAY)
        nicx_read32(NIC_EICR);
    if (BUG == INTERVAL_FOR_LOCK && vector < NICD_QUEUES) { /* assumes that a poll ends before the interval does */
        bool was_polled = driver.is_polled[vector];
        driver.is_polled[vector] = true;
        return was_polled ? 0 : UINT32_C(1) << vector;
    }
    return UINT32_C(1) << vector;
}

static void rearm(uint16_t queue)
{
    uint32_t cause = UINT32_C(1) << queue;
    if (driver.setup.port) {
        nicx_vf_write32((uint8_t)(driver.setup.port - 1), NIC_VTEIMS, cause);
        return;
    }
    if (BUG == EICR_CLEARED_AFTER_POLL)
        nicx_write32(NIC_EICR, cause);
    nicx_write32(NIC_EIMS, BUG == EIMS_OF_ALL_QUEUES ? own_causes() : cause);
    driver.is_polled[queue] = false;
}

/* --- further functions --- */

static bool start_again(bool takes_memory);

static void forget_addresses(void)
{
    for (unsigned k = 0; k < 5; k++)
        set_address(k, driver.setup.address, false);
}

static bool filter(const nicd_filter *wanted)
{
    driver.filter = *wanted;
    if (BUG == FILTER_BY_RESTART)
        return start_again(false);
    if (BUG == FILTER_BY_STOP)
        nicx_write32(NIC_RXCTRL, 0);
    if (BUG == FILTER_CLEARED_FIRST)
        forget_addresses();
    set_filter();
    if (BUG == FILTER_BY_STOP)
        nicx_write32(NIC_RXCTRL, NIC_RXCTRL_RXEN);
    return true;
}

static bool rss(const nicd_rss *wanted)
{
    if (BUG == RETA_CHANGED_BY_HALF && driver.has_rss)
        memcpy(driver.rss.table, wanted->table, sizeof wanted->table / 2);
    else
        driver.rss = *wanted;
    driver.has_rss = true;
    set_rss();
    return true;
}

/* Stops everything, then restarts it with the current setup. */
static bool start_again(bool takes_memory)
{
    rest_threads();
    mask_all();
    stop_queues();
    if (takes_memory) {
        if (BUG != MEMORY_LOST_BY_RESET)
            give_all();
        if (!take_all())
            return false;
    }
    start_all();
    wake_threads();
    if (driver.setup.port)
        return true;
    if (BUG != LINK_CHANGE_LOST)
        look_at_link();
    return true;
}

static bool mtu(uint32_t frame)
{
    rest_threads();
    driver.setup.frame = frame;
    lose(OTHER_MTU);
    return start_again(false);
}

static void move_rings(void)
{
    for (unsigned queue = 0; queue < driver.setup.queues; queue++)
        put(NIC_RXDCTL(queue), 0);
    give_all();
    if (!take_all())
        return;
    for (unsigned queue = 0; queue < driver.setup.queues; queue++) {
        start_receive(queue);
        set_enable(NIC_TXDCTL(queue), 0);
        start_transmit(queue);
    }
}

/* Allocates rings of `slots` slots and moves the current ones to `old`. If an allocation fails, keeps the current
   ones. */
static bool change_rings(uint16_t slots, struct rings *old)
{
    uint16_t before = driver.setup.slots;
    *old = driver.rings;
    memset(&driver.rings, 0, sizeof driver.rings);
    driver.setup.slots = slots;
    if (take_all())
        return true;
    give_all();
    driver.rings = *old;
    driver.setup.slots = before;
    return false;
}

static bool resize(uint16_t slots)
{
    static struct rings old;
    rest_threads();
    if (BUG == ENABLE_NOT_POLLED) {
        driver.setup.slots = slots;
        move_rings();
        return true;
    }
    if (!change_rings(slots, &old)) {
        wake_threads();
        return false;
    }
    if (BUG != RING_RESIZE_JUMBO)
        driver.partial.length = 0;
    lose(RESIZE);
    bool is_done = start_again(false);
    give_rings(&old);
    return is_done;
}

static bool reset(void)
{
    if (BUG == LINK_CHANGE_LOST && !driver.setup.port)
        look_at_link();
    driver.partial.length = 0;
    lose(RESET);
    return start_again(BUG == MEMORY_LOST_BY_RESET);
}

static bool suspend(void)
{
    rest_threads();
    mask(BUG == SUSPEND_LEAVES_LINK_CAUSE ? own_causes() : 0x7FFFFFFF);
    if (BUG != SUSPEND_LEAVES_QUEUES_ON)
        stop_queues();
    return true;
}

static bool resume(void)
{
    lose(SUSPEND);
    start_all();
    wake_threads();
    if (!driver.setup.port)
        look_at_link();
    return true;
}

static bool link_is_up(void)
{
    return is_on(&driver.link_is_up);
}

/* --- the mailbox --- */

/* Several threads read VFMAILBOX. Each stores the bits that its read clears, for the other threads. */
static uint32_t seen(void)
{
    return __atomic_load_n(&driver.seen, __ATOMIC_ACQUIRE);
}

static void keep_seen(uint32_t bits)
{
    __atomic_fetch_or(&driver.seen, bits, __ATOMIC_ACQ_REL);
}

static void forget_seen(uint32_t bits)
{
    __atomic_fetch_and(&driver.seen, ~bits, __ATOMIC_ACQ_REL);
}

static uint32_t read_mailbox(void)
{
    uint32_t word = nicx_vf_read32((uint8_t)(driver.setup.port - 1), NIC_VFMAILBOX);
    if (BUG == RSTD_SEEN_ONCE)
        return word;
    keep_seen(word & (NIC_PVFMAILBOX_PFSTS | NIC_PVFMAILBOX_PFACK | NIC_PVFMAILBOX_RSTD));
    return word | seen();
}

static bool function_sends(const uint32_t *words, uint32_t count)
{
    uint8_t vf = (uint8_t)(driver.setup.port - 1);
    uint32_t word = read_mailbox();
    if (BUG != MESSAGE_BEFORE_ACK && driver.waits_for_ack && !(word & NIC_PVFMAILBOX_PFACK))
        return false;
    forget_seen(NIC_PVFMAILBOX_PFACK);
    driver.waits_for_ack = false;
    if (BUG != MAILBOX_NOT_TAKEN) {
        nicx_vf_write32(vf, NIC_VFMAILBOX, NIC_PVFMAILBOX_VFU);
        if (!(read_mailbox() & NIC_PVFMAILBOX_VFU))
            return false;
        if (seen() & NIC_PVFMAILBOX_PFSTS) { /* reads the message from the PF's driver first */
            nicx_vf_write32(vf, NIC_VFMAILBOX, 0);
            return false;
        }
    }
    for (uint32_t k = 0; k < count; k++)
        nicx_vf_write32(vf, NIC_VFMBMEM(k), words[k]);
    nicx_vf_write32(vf, NIC_VFMAILBOX, NIC_PVFMAILBOX_REQ);
    driver.waits_for_ack = true;
    return true;
}

static bool function_receives(uint32_t words[NICD_WORDS])
{
    uint8_t vf = (uint8_t)(driver.setup.port - 1);
    if (!(read_mailbox() & NIC_PVFMAILBOX_PFSTS))
        return false;
    for (unsigned k = 0; k < NICD_WORDS; k++)
        words[k] = nicx_vf_read32(vf, NIC_VFMBMEM(k));
    forget_seen(NIC_PVFMAILBOX_PFSTS);
    nicx_vf_write32(vf, NIC_VFMAILBOX, NIC_PVFMAILBOX_ACK);
    return true;
}

static bool function_ready(void)
{
    return (read_mailbox() & NIC_PVFMAILBOX_RSTD) != 0;
}

static bool is_asked(uint8_t vf)
{
    return nicx_read32(NIC_PFMBICR(vf / 16u)) >> vf % 16 & 1;
}

static bool host_sends(uint8_t vf, const uint32_t *words, uint32_t count)
{
    if (BUG != MAILBOX_NOT_TAKEN) {
        nicx_write32(NIC_PFMAILBOX(vf), NIC_PFMAILBOX_PFU);
        if (!(nicx_read32(NIC_PFMAILBOX(vf)) & NIC_PFMAILBOX_PFU))
            return false;
    }
    if (BUG != MAILBOX_WITHDRAWN_REQUEST && is_asked(vf)) { /* the mailbox still holds its request */
        nicx_write32(NIC_PFMAILBOX(vf), 0);
        return false;
    }
    for (uint32_t k = 0; k < count; k++)
        nicx_write32(NIC_PFMBMEM(16u * vf + k), words[k]);
    nicx_write32(NIC_PFMAILBOX(vf), NIC_PFMAILBOX_STS);
    return true;
}

/* Takes the mailbox first, so that the virtual function can't overwrite the request that is being read. */
static bool host_receives(uint8_t vf, uint32_t words[NICD_WORDS])
{
    if (!is_asked(vf))
        return false;
    nicx_write32(NIC_PFMAILBOX(vf), NIC_PFMAILBOX_PFU);
    if (!(nicx_read32(NIC_PFMAILBOX(vf)) & NIC_PFMAILBOX_PFU))
        return false;
    nicx_write32(NIC_PFMBICR(vf / 16u), NIC_PFMBICR_VFREQ_IS(1u << vf % 16));
    for (unsigned k = 0; k < NICD_WORDS; k++)
        words[k] = nicx_read32(NIC_PFMBMEM(16u * vf + k));
    nicx_write32(NIC_PFMAILBOX(vf), NIC_PFMAILBOX_ACK);
    return true;
}

static bool mailbox_send(uint8_t vf, const uint32_t *words, uint32_t count)
{
    return driver.setup.port ? function_sends(words, count) : host_sends(vf, words, count);
}

static bool mailbox_receive(uint8_t vf, uint32_t words[NICD_WORDS])
{
    return driver.setup.port ? function_receives(words) : host_receives(vf, words);
}

/* --- the driver's own threads, one per queue --- */

static const uint16_t queue_numbers[NICD_QUEUES] = {0, 1, 2, 3};

static bool has_work(void *queue)
{
    return is_on(&driver.scheduled[*(const uint16_t *)queue]) && !is_on(&driver.rests);
}

static void deliver_all(uint32_t thread, uint16_t queue)
{
    static nicd_frame frames[NICD_QUEUES];
    nicd_frame *frame = &frames[thread];
    while (!is_on(&driver.rests) && receive(queue, frame))
        nicd_deliver(queue, frame->bytes, frame->length);
    nicx_point(); /* what follows is shared with the handler */
}

static void poll(uint32_t thread, uint16_t queue)
{
    for (;;) {
        nicx_wait_until(has_work, (void *)(uintptr_t)&queue_numbers[queue]);
        turn(&driver.polls[queue], true);
        if (BUG != INTERRUPT_MODERATION)
            turn(&driver.scheduled[queue], false);
        if (BUG == UNMASKED_BEFORE_LAST_LOOK)
            rearm(queue);
        deliver_all(thread, queue);
        if (BUG == INTERRUPT_MODERATION)
            turn(&driver.scheduled[queue], false);
        if (BUG != UNMASKED_BEFORE_LAST_LOOK && !is_on(&driver.rests))
            rearm(queue);
        turn(&driver.polls[queue], false);
    }
}

static bool nobody_polls(void *unused)
{
    (void)unused;
    for (unsigned queue = 0; queue < NICD_QUEUES; queue++)
        if (is_on(&driver.polls[queue]))
            return false;
    return true;
}

/* Stops the driver's own threads until wake_threads. */
static void rest_threads(void)
{
    turn(&driver.rests, true);
    nicx_wait_until(nobody_polls, NULL);
}

static void wake_threads(void)
{
    for (unsigned queue = 0; queue < driver.setup.queues; queue++)
        turn(&driver.scheduled[queue], HAS_THREADS);
    turn(&driver.rests, false);
}

static bool are_many(void *unused)
{
    (void)unused;
    return driver.interrupts > driver.looked;
}

static void moderate(void)
{
    for (unsigned interval = 0; interval < 2; interval++) {
        nicx_wait_until(are_many, NULL);
        driver.looked = __atomic_load_n(&driver.interrupts, __ATOMIC_ACQUIRE);
        nicx_write32(NIC_EIMC, 1);
        nicx_pause();
        nicx_write32(NIC_EIMS, 1);
    }
}

/* Restarts queue 0 if its head doesn't move. The bug: slots are reclaimed before the queue is disabled. */
static void watch(void)
{
    struct transmit *tx = &driver.rings.tx[0];
    for (unsigned tick = 0; tick < 2; tick++) {
        uint32_t head = get(NIC_TDH(0));
        nicx_pause();
        nicx_pause();
        nicx_lock(&tx->lock);
        if (tx->frames && get(NIC_TDH(0)) == head) {
            clean(0);
            set_enable(NIC_TXDCTL(0), 0);
            put(NIC_TDH(0), tx->clean);
            set_enable(NIC_TXDCTL(0), ENABLE);
        }
        nicx_unlock(&tx->lock);
    }
}

static void thread(uint32_t number)
{
    if (HAS_WATCHDOG)
        watch();
    else if (BUG == INTERRUPT_MODERATION && number)
        moderate();
    else
        poll(number, BUG == UNMASKED_BEFORE_LAST_LOOK || BUG == INTERRUPT_MODERATION ? 0 : (uint16_t)number);
}

int main(int argc, char **argv)
{
    static const nicd_driver card = {
        .name = "driver",
        .can = NICD_SHARED_SEND | NICD_FUNCTIONS | NICD_HOST,
        .queues = 4,
        .frame = NICD_FRAME_MOST,
        .open = open_driver,
        .close = close_driver,
        .receive = HAS_THREADS ? NULL : receive,
        .send = send,
        .reclaim = reclaim,
        .interrupt = interrupt,
        .rearm = HAS_THREADS ? NULL : rearm,
        .threads = BUG == NONE && HAS_THREADS ? NICD_QUEUES
                   : HAS_THREADS              ? 2
                   : HAS_WATCHDOG             ? 1
                                              : 0,
        .thread = thread,
        .filter = filter,
        .rss = rss,
        .mtu = mtu,
        .resize = resize,
        .reset = reset,
        .suspend = suspend,
        .resume = resume,
        .link = link_is_up,
        .mailbox_send = mailbox_send,
        .mailbox_receive = mailbox_receive,
        .mailbox_ready = function_ready,
        .stats = stats,
    };
    return nicd_main(argc, argv, &card);
}
