#include "chance.h"

#include <stdio.h>
#include <string.h>

enum { BLOCKS = 40, QUEUES = 4, SLOTS = 8, MOST_PLANNED = 512, SESSION = 4000 };
/* where rings and buffers are: a queue's rings in block 0, and the buffers starting at block 2 */
enum { RX_RING = 0, TX_RING = 1024, RING_BYTES = 16 * SLOTS, BUFFERS = 2 * 2048 };

const uint32_t chance_addresses[] = {
#define ADDRESS(address) address,
#include "addresses.inc"
#undef ADDRESS
};
const size_t chance_address_count = sizeof chance_addresses / sizeof *chance_addresses;

static uint64_t state = 1;

/* Events to run before any random ones, for example the setup of a queue or the opening of the cards. */
static struct event planned[MOST_PLANNED];
static size_t planned_count, planned_at;
static unsigned left;    /* events left in this session */
static bool is_recorded; /* whether this session's cards are recorded */

void chance_seed(uint64_t seed)
{
    state = seed * UINT64_C(0x9E3779B97F4A7C15) + 1;
    planned_count = planned_at = left = 0;
    is_recorded = false;
}

static uint64_t chance(void)
{
    state ^= state >> 12;
    state ^= state << 25;
    state ^= state >> 27;
    return state * UINT64_C(2685821657736338717);
}

uint32_t chance_below(uint32_t bound)
{
    return (uint32_t)((chance() >> 16) % bound);
}

#define below chance_below
#define OF(list) list[below(sizeof(list) / sizeof *(list))]

static uint32_t any_word(void)
{
    return (uint32_t)(chance() >> 20);
}

static uint64_t any_bus(void)
{
    uint64_t high = any_word();
    return high << 16 ^ any_word();
}

static bool once_in(uint32_t count)
{
    return below(count) == 0;
}

static void fill_by_chance(uint8_t *bytes, size_t length)
{
    for (size_t at = 0; at < length; at++)
        bytes[at] = (uint8_t)any_word();
}

/* --- plans --- */

static struct event *plan(enum call call, uint8_t card)
{
    struct event *event = &planned[planned_count < MOST_PLANNED ? planned_count++ : MOST_PLANNED - 1];
    memset(event, 0, sizeof *event);
    event->call = call;
    event->card = card;
    return event;
}

static void plan_write(uint8_t card, uint32_t address, uint32_t word)
{
    struct event *event = plan(CALL_nic_write32, card);
    event->number = address;
    event->word = word;
}

static void plan_desc(uint8_t card, uint64_t ring, uint32_t slot, nic_desc desc)
{
    struct event *event = plan(CALL_nic_dma_write, card);
    event->bus = ring + NIC_DESC_BYTES * slot;
    event->length = NIC_DESC_BYTES;
    nic_desc_to_bytes(desc, event->given);
}

/* Plans a write of a random word to one of `count` registers, starting at an address. */
static void plan_any(uint8_t card, uint32_t first, uint32_t count, uint32_t mask)
{
    uint32_t at = below(count);
    plan_write(card, first + 4 * at, any_word() & mask);
}

/* --- words and addresses --- */

static uint32_t some_word(void)
{
    static const uint32_t words[] = {0,     1,      2,          3,          8,          128, 0x200,
                                     0x402, 0x2000, 0x02000000, 0x02000002, 0x12000001, 0x85};
    switch (below(4)) {
    case 0: return any_word();
    case 1: return UINT32_C(1) << below(32);
    case 2: return below(512);
    default: return OF(words);
    }
}

/* Usually returns a register in the table, otherwise an address near one, or any address. */
static uint32_t some_address(void)
{
    uint32_t address = chance_addresses[below((uint32_t)chance_address_count)];
    switch (below(16)) {
    case 0: return any_word();
    case 1: return below(0x30000);
    case 2: return address + below(8);
    case 3: return NIC_PFMAILBOX(below(64));
    case 4: return NIC_PFMBMEM(below(1024));
    case 5: return OF(((const uint32_t[]){NIC_EICR, NIC_EICS, NIC_EIMS, NIC_EIMC, NIC_GPRC, NIC_GPTC, NIC_EERD}));
    /* a reset undoes the setup, so it is rare */
    default: return address <= 4 && !once_in(16) ? (uint32_t)NIC_STATUS : address;
    }
}

static uint32_t some_offset(void)
{
    static const uint32_t offsets[] = {NIC_VFCTRL,    NIC_VFSTATUS,  NIC_VFLINKS,       NIC_VTEICR, NIC_VTEICS,
                                       NIC_VTEIMS,    NIC_VTEIMC,    NIC_VTEIAC,        NIC_VTEIAM, NIC_VTIVAR_MISC,
                                       NIC_VFMAILBOX, NIC_VFPSRTYPE, NIC_VFGPRC_OFFSET, 0x201C};
    uint32_t offset = OF(offsets);
    switch (below(8)) {
    case 0: return any_word() % 0x4000;
    case 1: return 4 * below(0x900);
    case 2: return NIC_VFMBMEM(below(16));
    case 3:
        offset = NIC_VFRDBAL(below(8));
        offset += 4 * below(8);
        return offset + (once_in(2) ? 0x1000 : 0);
    case 4: return NIC_VFMAILBOX;
    case 5: return NIC_VTIVAR(below(4));
    default: return offset == NIC_VFCTRL && !once_in(16) ? NIC_VFSTATUS : offset;
    }
}

static uint8_t some_vf(void)
{
    return (uint8_t)(once_in(8) ? below(256) : below(4));
}

/* --- setups --- */

/* Plans the reception of every frame, with one queue or with four. The second card has pools, so its virtual functions
   have registers. */
static void plan_plain_modes(uint8_t card)
{
    plan_write(card, NIC_RXCTRL, 1);
    plan_write(card, NIC_FCTRL, 0x700);
    plan_write(card, NIC_DMATXCTL, 1);
    plan_write(card, NIC_HLREG0, 0x402);
    plan_write(card, NIC_GCR_EXT, card ? 1 + below(3) : 0);
    plan_write(card, NIC_VT_CTL, 0);
    plan_write(card, NIC_MRQC, once_in(2) ? 0 : 0x00330001);
    for (uint32_t k = 0; k < 4; k++)
        plan_write(card, NIC_RETA(k), 0x03020100);
    plan_any(card, NIC_RSSRK(0), 10, UINT32_MAX);
    plan_write(card, NIC_GPIE, 0x10);
    plan_write(card, NIC_EIMS, any_word());
    plan(CALL_nic_link, card)->flag = true;
}

/* Sets the filters and modes that decide a frame's queue. */
static void plan_modes(uint8_t card)
{
    static const uint32_t queues[] = {0, 1, 0x10001, 0x00030001, 0x8, 0x1000A, 0x3000B, 0x00F30001, 0x7FF70001};
    uint32_t pool = below(4);
    plan_write(card, NIC_RXCTRL, once_in(16) ? 0 : 1);
    plan_write(card, NIC_FCTRL, once_in(3) ? 0x400 : 0x700);
    plan_write(card, NIC_DMATXCTL, once_in(16) ? 0 : 1);
    plan_write(card, NIC_HLREG0, OF(((const uint32_t[]){0x402, 0x403, 0x407, 0x401, 0x406})));
    plan_write(card, NIC_MAXFRS, once_in(4) ? any_word() : UINT32_C(1518) << 16);
    plan_write(card, NIC_MRQC, OF(queues));
    plan_write(card, NIC_GCR_EXT, below(4));
    plan_write(card, NIC_VT_CTL, once_in(3) ? any_word() : 1 | (once_in(2) ? NIC_VT_CTL_RPL_EN : 0));
    plan_write(card, NIC_VFRE(0), once_in(4) ? any_word() : UINT32_MAX);
    plan_write(card, NIC_VFTE(0), once_in(4) ? any_word() : UINT32_MAX);
    plan_write(card, NIC_RAL(pool), 2);
    plan_write(card, NIC_RAH(pool), 0x80000100 + (pool << 8));
    plan_write(card, NIC_MPSAR(2 * pool), UINT32_C(1) << pool | (once_in(4) ? any_word() : 0));
    plan_any(card, NIC_RETA(0), 32, 0x03030303);
    plan_any(card, NIC_RSSRK(0), 10, UINT32_MAX);
    plan_any(card, NIC_MTA(0), 128, UINT32_MAX);
    plan_write(card, NIC_GPIE, OF(((const uint32_t[]){0, 0x10, 0x80000010, 0xC0000011})));
    plan_write(card, NIC_EIMS, any_word());
    plan_write(card, NIC_EIAC, any_word());
}

/* Enables or disables both sides of a queue, as requested. */
static void plan_sides(uint8_t card, uint32_t queue)
{
    for (int side = 0; side < 2; side++) {
        struct event *step = plan(CALL_nic_queue_step, card);
        step->queue = (uint16_t)queue;
        step->flag = side;
    }
}

static nic_desc some_tx_desc(void)
{
    uint16_t length = (uint16_t)(once_in(3) ? 1 + below(1514) : 60);
    uint64_t flags = once_in(4) ? (uint64_t)below(0x40) << 24 : NIC_TXD_EOP | NIC_TXD_RS;
    nic_desc desc = nic_tx_desc(BUFFERS + below(0x8000), length, length, flags);
    if (once_in(24))
        desc.second ^= UINT64_C(1) << below(64);
    return desc;
}

static void plan_queue(uint8_t card, uint32_t queue)
{
    static const uint32_t sizes[] = {0x02000002, 0x02000001, 0x12000002, 0x12000001, 0x02000000, 0x00000002};
    uint64_t rx = RX_RING + RING_BYTES * queue, tx = TX_RING + RING_BYTES * queue;
    plan_write(card, NIC_RDBAL(queue), (uint32_t)rx);
    plan_write(card, NIC_RDLEN(queue), once_in(12) ? 16 * below(12) : RING_BYTES);
    plan_write(card, NIC_SRRCTL(queue), once_in(4) ? OF(sizes) : sizes[0]);
    plan_write(card, NIC_RXDCTL(queue), once_in(12) ? 0 : NIC_RXDCTL_ENABLE);
    plan_write(card, NIC_TDBAL(queue), (uint32_t)tx);
    plan_write(card, NIC_TDLEN(queue), RING_BYTES);
    plan_write(card, NIC_TDWBAL(queue), once_in(4) ? BUFFERS + (any_word() & 0x3FF) : 0);
    plan_write(card, NIC_TXDCTL(queue), once_in(8) ? 0 : NIC_TXDCTL_ENABLE);
    plan_write(card, NIC_IVAR(queue / 2), once_in(3) ? any_word() : 0x83828180);
    plan_write(card, NIC_PVTIVAR(queue / 2), once_in(3) ? any_word() : 0x81808180);
    for (uint32_t slot = 0; slot < SLOTS; slot++) {
        plan_desc(card, rx, slot, nic_rx_desc(once_in(24) ? any_bus() : BUFFERS + 0x400u * below(64)));
        plan_desc(card, tx, slot, some_tx_desc());
    }
    plan_sides(card, queue);
    plan_write(card, NIC_RDT(queue), SLOTS - 1);
    plan_write(card, NIC_TDT(queue), below(SLOTS));
}

/* --- sessions --- */

/* Plans a new card, sometimes with settings that nic_new refuses. */
static void plan_new(uint8_t card)
{
    struct event *event = plan(CALL_nic_new, card);
    event->vf = (uint8_t)(once_in(6) ? below(70) : 2 * below(3));
    event->queue = (uint16_t)(once_in(8) ? below(5000) : 1 + below(64));
    event->number = once_in(10) ? 1 + below(300) : once_in(20) ? any_word() : BLOCKS;
    plan(CALL_nic_lend_all, card);
    plan_plain_modes(card);
    for (uint32_t queue = 0; queue < QUEUES; queue++)
        plan_queue(card, queue);
}

static void plan_session(void)
{
    left = SESSION;
    is_recorded = once_in(8);
    if (is_recorded)
        plan(CALL_nic_record, 0)->flag = true;
    plan_new(0);
    plan_new(1);
}

static void plan_end(const struct side *side)
{
    for (uint8_t kept = 0; kept < KEPT; kept++)
        if (side->kept[kept].kept)
            plan(CALL_nic_free_snapshot, 0)->kept = kept;
    for (uint8_t card = 0; card < CARDS; card++)
        if (side->cards[card].device)
            plan(CALL_nic_free, card);
    if (is_recorded)
        plan(CALL_nic_record, 0);
    is_recorded = false;
}

/* --- single events --- */

static void access(struct event *event)
{
    static const enum call calls[] = {CALL_nic_read32,    CALL_nic_read32,    CALL_nic_write32,    CALL_nic_write32,
                                      CALL_nic_vf_read32, CALL_nic_vf_read32, CALL_nic_vf_write32, CALL_nic_vf_write32,
                                      CALL_nic_peek32,    CALL_nic_vf_peek32, CALL_nic_vf_address};
    event->call = OF(calls);
    bool is_vf = event->call == CALL_nic_vf_read32 || event->call == CALL_nic_vf_write32 ||
                 event->call == CALL_nic_vf_peek32 || event->call == CALL_nic_vf_address;
    event->vf = some_vf();
    event->number = is_vf ? some_offset() : some_address();
    event->word = some_word();
}

static void tail(struct event *event)
{
    uint32_t queue = below(QUEUES);
    event->call = CALL_nic_write32;
    event->number = once_in(2) ? NIC_RDT(queue) : NIC_TDT(queue);
    event->word = below(SLOTS + 1);
}

/* Writes the beginning of a frame: IPv4 or IPv6 with TCP, UDP or another protocol, with fragments, options and tags. */
static void put_headers(uint8_t *frame)
{
    static const uint8_t ipv4[] = {2, 0, 0, 0, 0, 1, 2, 0, 0, 0, 0, 2, 8, 0, 0x45, 0, 0, 40, 0, 0, 0, 0, 64, 6};
    static const uint8_t ipv6[] = {2, 0, 0, 0, 0, 1, 2, 0, 0, 0, 0, 2, 0x86, 0xDD, 0x60, 0, 0, 0, 0, 20, 6, 64};
    static const uint8_t protocols[] = {6, 6, 6, 17, 17, 132, 1, 0, 43, 44, 60};
    bool is_new = once_in(3);
    memcpy(frame, is_new ? ipv6 : ipv4, is_new ? sizeof ipv6 : sizeof ipv4);
    frame[is_new ? 20 : 23] = OF(protocols);
    frame[0] = OF(((const uint8_t[]){2, 2, 2, 2, 0xFF, 1, 0x33}));
    frame[5] = (uint8_t)(1 + below(4));
    if (frame[0] == 0xFF)
        memset(frame, 0xFF, 6);
    if (once_in(6))
        frame[20] = (uint8_t)any_word();
    if (once_in(6))
        frame[14] = (uint8_t)any_word();
    if (once_in(8))
        memcpy(frame + 12, "\x81\x00\x00\x05", 4);
}

static void arrive(struct event *event)
{
    static const size_t lengths[] = {60, 60, 60, 61, 64, 100, 300, 1024, 1025, 1514, 1515, 1518};
    event->call = CALL_nic_arrive;
    event->length = once_in(12) ? below(once_in(4) ? GIVEN : 1700) : OF(lengths);
    fill_by_chance(event->given, event->length);
    if (event->length >= 60 && !once_in(8))
        put_headers(event->given);
}

static void collect(struct event *event)
{
    event->call = once_in(6) ? CALL_nic_next_out : CALL_nic_collect;
    event->length = once_in(8) ? below(1600) : ROOM;
    event->room = event->length;
}

static void step(struct event *event)
{
    static const enum call calls[] = {CALL_nic_rx_step,    CALL_nic_rx_step,     CALL_nic_rx_step,
                                      CALL_nic_tx_step,    CALL_nic_tx_step,     CALL_nic_queue_step,
                                      CALL_nic_queue_step, CALL_nic_eeprom_step, CALL_nic_int_step};
    event->call = OF(calls);
    event->queue = (uint16_t)(once_in(20) ? any_word() : below(QUEUES));
    event->vf = (uint8_t)(once_in(4) ? any_word() : below(3));
    event->flag = once_in(2);
}

static void steps(struct event *event)
{
    event->call = once_in(3) ? CALL_nic_settle : CALL_nic_next_step;
    event->queue = (uint16_t)(once_in(20) ? below(140) : QUEUES);
    event->number = once_in(4) ? below(700) : 0;
    event->length = once_in(4) ? below(SLOTS) : OUTCOMES;
}

static void memory(struct event *event)
{
    event->bus = once_in(8) ? any_bus() % (2048 * UINT64_C(70000)) : below(BLOCKS * 2048);
    event->length = once_in(6) ? below(GIVEN) : below(200);
    event->call = once_in(2) ? CALL_nic_dma_read : CALL_nic_dma_write;
    event->room = event->call == CALL_nic_dma_read ? event->length : 0;
    fill_by_chance(event->given, event->call == CALL_nic_dma_write ? event->length : 0);
}

/* Lends blocks and the caller's memory, and takes them back. */
static void lending(struct event *event)
{
    static const enum call calls[] = {CALL_nic_lend,        CALL_nic_lend,          CALL_nic_lend_all,
                                      CALL_nic_take,        CALL_nic_lend_memory,   CALL_nic_lend_memory,
                                      CALL_nic_lend_memory, CALL_nic_unlend_memory, CALL_nic_unlend_memory};
    event->call = OF(calls);
    event->number = once_in(20) ? any_word() : below(BLOCKS + 2);
    event->own = (uint8_t)below(OWN);
    event->bus = UINT64_C(2048) * below(BLOCKS);
    event->bus += once_in(16) ? below(2048) : 0;
    event->length = 2048 * (size_t)below(5);
    event->length += once_in(16) ? 1 : 0;
    if (event->length > OWN_BYTES)
        event->length = OWN_BYTES;
}

static void snapshots(const struct side *side, struct event *event)
{
    event->kept = (uint8_t)(once_in(16) ? KEPT : below(KEPT));
    bool is_made = side->kept[event->kept].kept;
    event->call = CALL_nic_restore;
    if (is_made && once_in(3))
        event->call = CALL_nic_free_snapshot;
    else if (!is_made && event->kept < KEPT)
        event->call = CALL_nic_snapshot;
}

/* Writes an EEPROM's text, valid or nearly valid. */
static void put_text(struct event *event)
{
    static const char *const sizes[] = {"", "", "size 128\n", "size 64\n"}, *const twice[] = {"", "", "", "word 5 5\n"};
    unsigned offset = 4 * below(0x4000), value = any_word(), index = 1 + below(80), word = below(70000);
    const char *size = OF(sizes), *end = OF(twice);
    int used = snprintf((char *)event->given, GIVEN, "%scsr 0x%x 0x%x\nword %u 0x%x\n%s", size, offset, value, index,
                        word, end);
    event->length = (size_t)used;
    if (once_in(6)) {
        uint32_t at = below((uint32_t)used);
        event->given[at] = (uint8_t)any_word();
    }
}

/* Writes a 64-word image, usually with a valid checksum. */
static void put_image(struct event *event)
{
    uint16_t sum = 0xBABA;
    event->length = once_in(6) ? below(300) : 128;
    memset(event->given, 0xFF, event->length);
    for (size_t at = 0; at + 2 < event->length && at < 126; at += 2) {
        if (once_in(3)) {
            event->given[at] = (uint8_t)any_word();
            event->given[at + 1] = (uint8_t)(once_in(4) ? any_word() : 0xFF);
        }
        sum = (uint16_t)(sum - (event->given[at] | event->given[at + 1] << 8));
    }
    if (event->length == 128 && !once_in(8))
        event->given[126] = (uint8_t)sum, event->given[127] = (uint8_t)(sum >> 8);
}

static void texts(struct event *event)
{
    static const enum call calls[] = {CALL_nic_hash, CALL_nic_install_text, CALL_nic_install_image, CALL_nic_why};
    event->call = OF(calls);
    if (event->call == CALL_nic_install_text) {
        put_text(event);
    } else if (event->call == CALL_nic_install_image) {
        put_image(event);
    } else if (event->call == CALL_nic_why) {
        event->length = once_in(4) ? below(300) : 4000;
        event->room = event->length;
    } else {
        event->length = below(45);
        fill_by_chance(event->given, 100);
    }
}

static void note(struct event *event)
{
    event->call = CALL_nic_note;
    event->length = below(240);
    for (size_t at = 0; at < event->length; at++)
        event->given[at] = (uint8_t)(once_in(16) ? 1 + below(255) : 32 + below(95));
    event->given[event->length] = 0;
}

static void link(struct event *event)
{
    event->call = CALL_nic_link;
    event->flag = !once_in(12);
}

/* --- choosing the next event --- */

typedef void single(struct event *);

/* The frequency of each kind of event. For snapshots, it depends on what is open. */
static const struct {
    uint32_t weight;
    single *choose;
} singles[] = {
    {4, note},     {4, texts},   {1, link},  {8, steps},   {2, lending}, {18, tail},
    {16, collect}, {24, arrive}, {32, step}, {16, memory}, {64, access},
};
enum { OF_SNAPSHOTS = 3, OF_SINGLES = 189 };

static void choose(const struct side *side, struct event *event)
{
    uint32_t at = below(OF_SNAPSHOTS + OF_SINGLES);
    memset(event, 0, sizeof *event);
    event->card = (uint8_t)(once_in(64) ? NOT_OPEN : below(CARDS));
    for (size_t k = 0; k < sizeof singles / sizeof *singles; k++) {
        if (at < singles[k].weight) {
            singles[k].choose(event);
            return;
        }
        at -= singles[k].weight;
    }
    snapshots(side, event);
}

/* Plans frames that arrive and are received, slots that are sent, and the messages that the steps raise. */
static void plan_traffic(uint8_t card)
{
    uint32_t queue = once_in(2) ? 0 : below(QUEUES);
    plan_write(card, NIC_RXDCTL(queue), NIC_RXDCTL_ENABLE);
    plan_write(card, NIC_TXDCTL(queue), NIC_TXDCTL_ENABLE);
    plan_sides(card, queue);
    plan_write(card, NIC_RDT(queue), below(SLOTS));
    plan_write(card, NIC_TDT(queue), below(SLOTS));
    for (uint32_t k = below(4); k < 4; k++)
        arrive(plan(CALL_nic_arrive, card));
    for (uint32_t k = 0; k < 4; k++) {
        plan(CALL_nic_rx_step, card);
        plan(CALL_nic_tx_step, card)->queue = (uint16_t)queue;
        collect(plan(CALL_nic_collect, card));
    }
    plan(CALL_nic_int_step, card);
}

static void plan_more(const struct side *side)
{
    uint8_t card = (uint8_t)below(CARDS);
    planned_count = planned_at = 0;
    if (left == 0)
        plan_session();
    else if (--left == 0)
        plan_end(side);
    else if (!side->cards[card].device)
        plan_new(card);
    else if (once_in(100))
        plan_queue(card, below(QUEUES));
    else if (once_in(30))
        plan_traffic(card);
    else if (once_in(200))
        once_in(3) ? plan_modes(card) : plan_plain_modes(card);
    else if (once_in(2000))
        plan(CALL_nic_free, card);
}

void chance_event(const struct side *side, struct event *event)
{
    if (planned_at == planned_count)
        plan_more(side);
    if (planned_at < planned_count)
        *event = planned[planned_at++];
    else
        choose(side, event);
}
