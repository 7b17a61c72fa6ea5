/* A driver designed differently from driver.c, plugged into the card. It keeps spare pages for its receive ring, its
   ring indexes are free-running, and it assembles frames as their parts arrive. It moves tails for several slots at a
   time, sends a frame as a header and pages, and reclaims according to the head write-back. One vector serves all
   causes; the handler masks them through EIMC and clears EICR itself. Multicast addresses are accepted through MTA.

   It is correct. planted.txt lists the faults that check.py plants in it. */
#include <string.h>

#include "nic82599_drive.h"

enum { PAGE = 2048, MOST_SLOTS = 64, SPARE = 4, HEADER = 64, BATCH = 3, ENABLE = 1 << 25, INTERVAL = 25 };

static const uint32_t all_causes = 0x7FFFFFFF, own_causes = 1 | NIC_EICR_LSC;

struct receive {
    uint64_t ring, pages;
    uint16_t page_of[MOST_SLOTS];       /* the page in each slot */
    uint16_t spare[MOST_SLOTS + SPARE]; /* pages in no slot */
    uint32_t spares;
    uint32_t taken, filled, posted; /* free-running indexes: slots returned, slots filled, and the tail */
    nicd_frame partial;
};

struct transmit {
    uint64_t ring, pages, head;
    bool is_end[MOST_SLOTS];
    uint32_t put, clean; /* free-running: slots filled, slots reclaimed */
    uint32_t frames;     /* frames in flight */
    nicx_mutex lock;
};

/* The rings of all queues, with the same number of slots each. */
struct rings {
    uint16_t slots;
    struct receive rx[NICD_QUEUES];
    struct transmit tx[NICD_QUEUES];
};

static struct {
    nicd_setup setup;
    struct rings rings, other; /* current; during a resize, the new ones */
    nicd_filter filter;
    nicd_rss rss;
    uint32_t multicast[NIC_MTA_COUNT]; /* contents of MTA */
    uint32_t polled;                   /* queues to rearm before the vector is unmasked */
    bool has_rss, link;
    nicx_mutex looks; /* held while reading the link's state */
} card;

/* --- memory --- */

static void give(uint64_t *bus)
{
    if (*bus)
        nicd_dma_free(*bus);
    *bus = 0;
}

static void give_rings(struct rings *it)
{
    for (unsigned queue = 0; queue < NICD_QUEUES; queue++) {
        give(&it->rx[queue].ring);
        give(&it->rx[queue].pages);
        give(&it->tx[queue].ring);
        give(&it->tx[queue].pages);
        give(&it->tx[queue].head);
    }
}

static bool take(uint64_t *bus, size_t bytes)
{
    *bus = nicd_dma_alloc(bytes);
    return *bus != 0;
}

static bool take_queue(struct receive *rx, struct transmit *tx, size_t slots)
{
    return take(&rx->ring, NIC_DESC_BYTES * slots) && take(&rx->pages, PAGE * (slots + SPARE)) &&
           take(&tx->ring, NIC_DESC_BYTES * slots) && take(&tx->pages, PAGE * slots) && take(&tx->head, 8);
}

static bool take_rings(struct rings *it, uint16_t slots)
{
    memset(it, 0, sizeof *it);
    it->slots = slots;
    for (unsigned queue = 0; queue < card.setup.queues; queue++)
        if (!take_queue(&it->rx[queue], &it->tx[queue], slots)) {
            give_rings(it);
            return false;
        }
    return true;
}

/* --- receive --- */

static unsigned slot_of(uint32_t running)
{
    return running % card.rings.slots;
}

static uint64_t page_at(const struct receive *rx, unsigned slot)
{
    return rx->pages + (uint64_t)PAGE * rx->page_of[slot];
}

static void tell_tail(unsigned queue)
{
    struct receive *rx = &card.rings.rx[queue];
    if (rx->posted == rx->filled)
        return;
    rx->posted = rx->filled;
    nicx_wmb();
    nicx_write32(NIC_RDT(queue), slot_of(rx->posted));
}

/* Fills slots with spare pages. The device owns all slots but one. */
static void fill(unsigned queue, uint32_t batch)
{
    struct receive *rx = &card.rings.rx[queue];
    while (rx->spares && rx->filled - rx->taken < card.rings.slots - 1u) {
        unsigned slot = slot_of(rx->filled);
        rx->page_of[slot] = rx->spare[--rx->spares];
        nicx_put_desc(rx->ring, slot, nic_rx_desc(page_at(rx, slot)));
        rx->filled++;
    }
    if (rx->filled - rx->posted >= batch)
        tell_tail(queue);
}

static void take_page(struct receive *rx, unsigned slot, uint32_t length)
{
    nicd_frame *frame = &rx->partial;
    if (frame->length + length <= sizeof frame->bytes) {
        nicx_dma_read(page_at(rx, slot), frame->bytes + frame->length, length);
        frame->length += length;
    }
    rx->spare[rx->spares++] = rx->page_of[slot];
}

static bool receive(uint16_t queue, nicd_frame *frame)
{
    struct receive *rx = &card.rings.rx[queue];
    while (rx->taken != rx->filled) {
        unsigned slot = slot_of(rx->taken);
        nic_desc d = nicx_get_desc(rx->ring, slot);
        if (!nic_rx_is_done(d))
            break;
        nicx_rmb();
        take_page(rx, slot, nic_rx_length(d));
        rx->partial.hash = nic_rx_hash(d);
        rx->taken++;
        fill(queue, BATCH);
        if (!nic_rx_is_end(d))
            continue;
        *frame = rx->partial;
        rx->partial.length = 0;
        return true;
    }
    fill(queue, 1);
    return false;
}

/* --- transmit --- */

static void clean(struct transmit *tx)
{
    unsigned head = (unsigned)nicx_get64(tx->head) & 0xFFFF;
    while (tx->clean != tx->put && slot_of(tx->clean) != head) {
        tx->frames -= tx->is_end[slot_of(tx->clean)];
        tx->clean++;
    }
}

static uint32_t parts_of(uint32_t length)
{
    return length <= HEADER ? 1 : 1 + (length - HEADER + PAGE - 1) / PAGE;
}

static void put_part(struct transmit *tx, const uint8_t *bytes, uint32_t part, uint32_t frame, bool is_end)
{
    unsigned slot = slot_of(tx->put);
    uint64_t page = tx->pages + (uint64_t)PAGE * slot;
    nicx_dma_write(page, bytes, part);
    nicx_put_desc(tx->ring, slot, nic_tx_desc(page, (uint16_t)part, frame, is_end ? NIC_TXD_EOP | NIC_TXD_RS : 0));
    tx->is_end[slot] = is_end;
    tx->put++;
}

static bool put_frame(uint16_t queue, const uint8_t *bytes, uint32_t length)
{
    struct transmit *tx = &card.rings.tx[queue];
    if (tx->put - tx->clean + parts_of(length) >= card.rings.slots)
        clean(tx);
    if (tx->put - tx->clean + parts_of(length) >= card.rings.slots)
        return false;
    for (uint32_t at = 0, part; at < length; at += part) {
        uint32_t most = at ? PAGE : HEADER;
        part = length - at < most ? length - at : most;
        put_part(tx, bytes + at, part, length, at + part == length);
    }
    tx->frames++;
    nicx_wmb();
    nicx_write32(NIC_TDT(queue), slot_of(tx->put));
    return true;
}

static bool send(uint16_t queue, const uint8_t *bytes, uint32_t length)
{
    if (length < 60 || length > card.setup.frame)
        return false;
    nicx_lock(&card.rings.tx[queue].lock);
    bool is_taken = put_frame(queue, bytes, length);
    nicx_unlock(&card.rings.tx[queue].lock);
    return is_taken;
}

static uint32_t reclaim(uint16_t queue)
{
    struct transmit *tx = &card.rings.tx[queue];
    nicx_lock(&tx->lock);
    clean(tx);
    uint32_t left = tx->frames;
    nicx_unlock(&tx->lock);
    return left;
}

/* --- the device --- */

struct setting {
    uint32_t address, word;
};

static void make(const struct setting *settings, size_t count)
{
    for (size_t k = 0; k < count; k++)
        nicx_write32(settings[k].address, settings[k].word);
}

#define MAKE(...)                                                                                                      \
    make((const struct setting[]){__VA_ARGS__}, sizeof((const struct setting[]){__VA_ARGS__}) / sizeof(struct setting))

static void await(uint32_t address, uint32_t bits, uint32_t wanted)
{
    while ((nicx_read32(address) & bits) != wanted)
        nicx_wait();
}

static void start_receive(unsigned queue)
{
    struct receive *rx = &card.rings.rx[queue];
    uint32_t drop = card.setup.queues > 1 ? NIC_SRRCTL_DROP_EN : 0;
    rx->taken = rx->filled = rx->posted = rx->partial.length = 0;
    for (rx->spares = 0; rx->spares < card.rings.slots + (uint32_t)SPARE; rx->spares++)
        rx->spare[rx->spares] = (uint16_t)rx->spares;
    MAKE({NIC_RDBAL(queue), (uint32_t)rx->ring}, {NIC_RDBAH(queue), (uint32_t)(rx->ring >> 32)},
         {NIC_RDLEN(queue), NIC_DESC_BYTES * card.rings.slots},
         {NIC_SRRCTL(queue), NIC_SRRCTL_DESCTYPE_IS(1) | NIC_SRRCTL_BSIZEPACKET_IS(PAGE / 1024) | drop},
         {NIC_RDH(queue), 0}, {NIC_RDT(queue), 0}, {NIC_RXDCTL(queue), ENABLE});
    await(NIC_RXDCTL(queue), ENABLE, ENABLE);
    fill(queue, 1);
}

static void start_transmit(unsigned queue)
{
    struct transmit *tx = &card.rings.tx[queue];
    tx->put = tx->clean = tx->frames = 0;
    nicx_put64(tx->head, 0);
    nicx_wmb();
    MAKE({NIC_TDBAL(queue), (uint32_t)tx->ring}, {NIC_TDBAH(queue), (uint32_t)(tx->ring >> 32)},
         {NIC_TDLEN(queue), NIC_DESC_BYTES * card.rings.slots}, {NIC_TDH(queue), 0}, {NIC_TDT(queue), 0},
         {NIC_TDWBAL(queue), (uint32_t)tx->head | NIC_TDWBAL_HEAD_WB_EN},
         {NIC_TDWBAH(queue), (uint32_t)(tx->head >> 32)},
         {NIC_TXDCTL(queue), ENABLE | NIC_TXDCTL_PTHRESH_IS(8) | NIC_TXDCTL_HTHRESH_IS(1)});
    await(NIC_TXDCTL(queue), ENABLE, ENABLE);
}

static uint32_t word_of(const uint8_t bytes[4])
{
    return bytes[0] | (uint32_t)bytes[1] << 8 | (uint32_t)bytes[2] << 16 | (uint32_t)bytes[3] << 24;
}

/* Writes nothing if the entry already contains the address, so that it stays valid throughout. */
static void set_address(unsigned index, const uint8_t address[6])
{
    uint32_t low = address ? word_of(address) : 0;
    uint32_t high = address ? address[4] | (uint32_t)address[5] << 8 | NIC_RAH_AV : 0;
    if (nicx_read32(NIC_RAL(index)) != low || nicx_read32(NIC_RAH(index)) != high)
        MAKE({NIC_RAH(index), 0}, {NIC_RAL(index), low}, {NIC_RAH(index), high});
}

/* Uses bits 47:36 of a multicast address (MCSTCTRL.MO 0). */
static void add_multicast(uint32_t table[NIC_MTA_COUNT], const uint8_t address[6])
{
    unsigned hash = address[4] >> 4 | (unsigned)address[5] << 4;
    table[hash / 32] |= UINT32_C(1) << hash % 32;
}

static void set_multicast(const uint32_t table[NIC_MTA_COUNT])
{
    for (unsigned k = 0; k < NIC_MTA_COUNT; k++)
        if (card.multicast[k] != table[k])
            nicx_write32(NIC_MTA(k), table[k]);
    memcpy(card.multicast, table, sizeof card.multicast);
}

static void set_filter(void)
{
    uint32_t table[NIC_MTA_COUNT] = {0};
    unsigned places = 1;
    set_address(0, card.setup.address);
    for (unsigned k = 0; k < card.filter.count; k++)
        if (card.filter.address[k][0] & 1)
            add_multicast(table, card.filter.address[k]);
        else
            set_address(places++, card.filter.address[k]);
    while (places < 5)
        set_address(places++, NULL);
    set_multicast(table);
    MAKE({NIC_MCSTCTRL, NIC_MCSTCTRL_MFE},
         {NIC_FCTRL, (card.filter.all_unicast ? NIC_FCTRL_UPE : 0) | (card.filter.all_multicast ? NIC_FCTRL_MPE : 0) |
                         (card.filter.broadcast ? NIC_FCTRL_BAM : 0)});
}

static void set_rss(void)
{
    static const uint32_t bits[] = {[NIC_RSS_TCP_IPV4] = NIC_MRQC_TCPIPV4, [NIC_RSS_IPV4] = NIC_MRQC_IPV4,
                                    [NIC_RSS_TCP_IPV6] = NIC_MRQC_TCPIPV6, [NIC_RSS_IPV6] = NIC_MRQC_IPV6,
                                    [NIC_RSS_UDP_IPV4] = NIC_MRQC_UDPIPV4, [NIC_RSS_UDP_IPV6] = NIC_MRQC_UDPIPV6};
    uint32_t word = NIC_MRQC_MRQE_IS(1);
    for (unsigned type = 0; type < sizeof bits / sizeof *bits; type++)
        word |= card.rss.types >> type & 1 ? bits[type] : 0;
    for (unsigned k = 0; k < NIC_RSSRK_COUNT; k++)
        nicx_write32(NIC_RSSRK(k), word_of(card.rss.key + 4 * k));
    for (unsigned k = 0; k < NIC_RETA_COUNT; k++)
        nicx_write32(NIC_RETA(k), word_of(card.rss.table + 4 * k) & 0x0F0F0F0F);
    MAKE({NIC_RXCSUM, NIC_RXCSUM_PCSD}, {NIC_MRQC, word});
}

static void set_lengths(void)
{
    uint32_t kept = nicx_read32(NIC_HLREG0) & ~NIC_HLREG0_JUMBOEN;
    uint32_t jumbo = card.setup.frame > 1514 ? NIC_HLREG0_JUMBOEN : 0;
    MAKE({NIC_HLREG0, kept | jumbo | NIC_HLREG0_TXCRCEN | NIC_HLREG0_RXCRCSTRP | NIC_HLREG0_TXPADEN},
         {NIC_MAXFRS, NIC_MAXFRS_MFS_IS(card.setup.frame + 4)});
}

static void set_interrupts(void)
{
    __atomic_store_n(&card.polled, 0, __ATOMIC_RELEASE);
    if (!card.setup.interrupts)
        return;
    MAKE({NIC_GPIE, NIC_GPIE_MULTIPLE_MSIX | NIC_GPIE_PBA_SUPPORT | NIC_GPIE_OCD}, {NIC_EIAC, 0}, {NIC_EIAM, 0},
         {NIC_IVAR(0), card.setup.queues > 1 ? 0x80808080 : 0x8080},
         {NIC_IVAR(1), card.setup.queues > 3   ? 0x80808080
                       : card.setup.queues > 2 ? 0x8080
                                               : 0},
         {NIC_IVAR_MISC, NIC_IVAR_MISC_INT_ALLOC_VAL_1}, {NIC_EITR(0), NIC_EITR_ITR_INTERVAL_IS(INTERVAL)},
         {NIC_EIMS, own_causes});
}

/* The handler may run concurrently with a reset. The last reader of LINKS must also be the last to store the value. */
static void look_at_link(void)
{
    nicx_interrupts_off();
    nicx_lock(&card.looks);
    __atomic_store_n(&card.link, (nicx_read32(NIC_LINKS) & NIC_LINKS_LINK_UP) != 0, __ATOMIC_RELEASE);
    nicx_unlock(&card.looks);
    nicx_interrupts_on();
}

static void start(void)
{
    MAKE({NIC_EIMC, all_causes}, {NIC_CTRL, NIC_CTRL_RST}, {NIC_EIMC, all_causes});
    await(NIC_RDRXCTL, NIC_RDRXCTL_DMAIDONE, NIC_RDRXCTL_DMAIDONE);
    memset(card.multicast, 0, sizeof card.multicast);
    nicx_write32(NIC_CTRL_EXT, nicx_read32(NIC_CTRL_EXT) | NIC_CTRL_EXT_DRV_LOAD);
    for (unsigned k = 0; k < NIC_MTA_COUNT; k++)
        nicx_write32(NIC_MTA(k), 0);
    set_filter();
    set_lengths();
    nicx_write32(NIC_RDRXCTL,
                 nicx_read32(NIC_RDRXCTL) | NIC_RDRXCTL_CRCSTRIP | NIC_RDRXCTL_RSCACKC | NIC_RDRXCTL_FCOE_WRFIX);
    if (card.has_rss)
        set_rss();
    nicx_write32(NIC_DMATXCTL, nicx_read32(NIC_DMATXCTL) | NIC_DMATXCTL_TE);
    for (unsigned queue = 0; queue < card.setup.queues; queue++) {
        start_receive(queue);
        start_transmit(queue);
    }
    set_interrupts(); /* before reception is enabled, so that early frames raise a message */
    nicx_write32(NIC_RXCTRL, NIC_RXCTRL_RXEN);
    look_at_link();
}

static void stop(void)
{
    nicx_write32(NIC_EIMC, all_causes);
    for (unsigned queue = 0; queue < card.setup.queues; queue++)
        MAKE({NIC_RXDCTL(queue), 0}, {NIC_TXDCTL(queue), 0});
    for (unsigned queue = 0; queue < card.setup.queues; queue++) {
        await(NIC_RXDCTL(queue), ENABLE, 0);
        await(NIC_TXDCTL(queue), ENABLE, 0);
    }
    nicx_write32(NIC_RXCTRL, 0);
}

/* --- open and close --- */

static void spread(void)
{
    for (unsigned k = 0; k < sizeof card.rss.key; k++)
        card.rss.key[k] = (uint8_t)(k * 29 + 7);
    for (unsigned k = 0; k < sizeof card.rss.table; k++)
        card.rss.table[k] = (uint8_t)(k % card.setup.queues);
    card.rss.types = 1u << NIC_RSS_TCP_IPV4 | 1u << NIC_RSS_IPV4 | 1u << NIC_RSS_UDP_IPV4;
    card.has_rss = card.setup.queues > 1;
}

static bool open_card(const nicd_setup *setup)
{
    memset(&card, 0, sizeof card);
    card.setup = *setup;
    card.filter.broadcast = true;
    spread();
    if (!take_rings(&card.rings, setup->slots))
        return false;
    start();
    return true;
}

static void close_card(void)
{
    stop();
    MAKE({NIC_CTRL_EXT, nicx_read32(NIC_CTRL_EXT) & ~NIC_CTRL_EXT_DRV_LOAD}, {NIC_EICR, all_causes});
    give_rings(&card.rings);
}

/* --- interrupts: the vector stays masked until every queue has been polled --- */

static uint32_t interrupt(uint8_t vector)
{
    (void)vector;
    nicx_write32(NIC_EIMC, own_causes);
    uint32_t causes = nicx_read32(NIC_EICR) & own_causes;
    nicx_write32(NIC_EICR, causes);
    if (causes & NIC_EICR_LSC)
        look_at_link();
    uint32_t all = (1u << card.setup.queues) - 1;
    __atomic_store_n(&card.polled, all, __ATOMIC_RELEASE);
    return all;
}

static void rearm(uint16_t queue)
{
    if (!__atomic_and_fetch(&card.polled, ~(1u << queue), __ATOMIC_ACQ_REL))
        nicx_write32(NIC_EIMS, own_causes);
}

/* --- further functions --- */

static bool filter(const nicd_filter *wanted)
{
    card.filter = *wanted;
    set_filter();
    return true;
}

static bool rss(const nicd_rss *wanted)
{
    card.rss = *wanted;
    card.has_rss = true;
    set_rss();
    return true;
}

static bool reset(void)
{
    stop();
    start();
    return true;
}

static bool mtu(uint32_t frame)
{
    stop();
    card.setup.frame = frame;
    start();
    return true;
}

/* Allocates the new rings before it frees the old ones. */
static bool resize(uint16_t slots)
{
    if (!take_rings(&card.other, slots))
        return false;
    stop();
    give_rings(&card.rings);
    card.rings = card.other;
    start();
    return true;
}

static bool suspend(void)
{
    stop();
    return true;
}

static bool resume(void)
{
    start();
    return true;
}

static bool link_is_up(void)
{
    return __atomic_load_n(&card.link, __ATOMIC_ACQUIRE);
}

int main(int argc, char **argv)
{
    static const nicd_driver driver = {
        .name = "pages",
        .can = NICD_SHARED_SEND | NICD_ONE_VECTOR,
        .queues = 4,
        .frame = NICD_FRAME_MOST,
        .open = open_card,
        .close = close_card,
        .receive = receive,
        .send = send,
        .reclaim = reclaim,
        .interrupt = interrupt,
        .rearm = rearm,
        .filter = filter,
        .rss = rss,
        .mtu = mtu,
        .resize = resize,
        .reset = reset,
        .suspend = suspend,
        .resume = resume,
        .link = link_is_up,
    };
    return nicd_main(argc, argv, &driver);
}
