/* Explains why nothing happens: decides which reasons to check for which queue, frame and cause. The reasons themselves
   are in python/nic82599/tools/reasons.txt. */
#include <stdio.h>
#include <string.h>

#include "../in_place/table.h"
#include "../library/look.h"
#include "../library/proved.h"
#include "drops.h"
#include "why.h"

#include "reasons.inc"

enum { SHORTEST = 60, KILOBYTE = 1024, ENTRY_VALID = 0x80, CAUSE_OF_ENTRY = 0x3f };

/* Sets the subject of the lines that follow. */
static void about(struct nicl_why *it, const char *what, int number)
{
    snprintf(it->subject, sizeof it->subject, number < 0 ? "%s" : "%s %d", what, number);
}

/* --- memory --- */

static bool is_lent(struct nicl_why *it, uint64_t bus, uint64_t length)
{
    uint8_t byte;
    uint64_t last = length ? bus + length - 1 : bus;
    for (uint64_t at = bus; length && at / NIC_BLOCK_BYTES < last / NIC_BLOCK_BYTES; at += NIC_BLOCK_BYTES)
        if (nicl_dma_read(it->of, at, &byte, 1) != NIC_DONE)
            return false;
    return !length || (last >= bus && nicl_dma_read(it->of, last, &byte, 1) == NIC_DONE);
}

static struct nicl_ring ring_of(struct nicl_why *it, int side, uint16_t queue)
{
    return nicl_ring_of(it->of, side == NICL_TX, queue);
}

static uint64_t address_of(const struct nicl_ring *ring, uint32_t slot)
{
    return ring->base + (uint64_t)NIC_DESC_BYTES * slot;
}

static bool read_slot(struct nicl_why *it, const struct nicl_ring *ring, uint32_t slot, nic_desc *d)
{
    uint8_t bytes[NIC_DESC_BYTES];
    if (nicl_dma_read(it->of, address_of(ring, slot), bytes, sizeof bytes) != NIC_DONE)
        return false;
    *d = nic_desc_of_bytes(bytes);
    return true;
}

/* Reports an address that isn't lent but is a pointer into lent memory of the program, or half of such a pointer. */
static void by_pointer(struct nicl_why *it, uint64_t bus)
{
    const struct nicl_table *table = nicl_table_of(it->of);
    uint64_t right, pointer = bus;
    if (nicl_table_bus_of(table, bus, &right))
        nicl_why_pointer(it, bus, right);
    else if (nicl_table_low_half(table, bus, &pointer) && nicl_table_bus_of(table, pointer, &right))
        nicl_why_low_half(it, bus, pointer, right);
}

static bool not_lent(struct nicl_why *it, uint64_t bus, uint32_t slot, uint64_t at)
{
    nicl_why_not_lent(it, bus, slot, at);
    by_pointer(it, bus);
    return true;
}

/* --- a receive queue --- */

static bool is_on(struct nicl_why *it, int side, uint16_t queue)
{
    return WORD(side == NICL_TX ? NIC_TXDCTL(queue) : NIC_RXDCTL(queue)) & NIC_RXDCTL_ENABLE;
}

/* Returns whether a ring was set up or used: its length, head or tail isn't 0. */
static bool has_ring(const struct nicl_ring *ring)
{
    return ring->slots || ring->head || ring->tail;
}

static bool is_in_use(struct nicl_why *it, int side, uint16_t queue)
{
    struct nicl_ring ring = ring_of(it, side, queue);
    bool has_frames = side == NICL_RX && it->inside.waiting[queue];
    return has_ring(&ring) || has_frames || is_on(it, side, queue) || it->inside.is_wanted[side][queue];
}

/* Reports the first slot owned by the device that can't take even the shortest frame. */
static void rx_slots(struct nicl_why *it, const struct nicl_ring *ring, uint16_t queue)
{
    uint64_t size = FIELD(NIC_SRRCTL(queue), NIC_SRRCTL_BSIZEPACKET) * KILOBYTE;
    for (uint32_t slot = ring->head; slot != ring->tail; slot = slot + 1 == ring->slots ? 0 : slot + 1) {
        uint64_t at = address_of(ring, slot), buffer;
        nic_desc d;
        if (!read_slot(it, ring, slot, &d)) {
            not_lent(it, at, slot, at);
            return;
        }
        buffer = d.first & NIC_RXD_BUFFER;
        if (!is_lent(it, buffer, size < SHORTEST ? size : SHORTEST)) {
            not_lent(it, buffer, slot, at);
            return;
        }
    }
}

static void rx_switch(struct nicl_why *it, uint16_t queue)
{
    bool is_wanted = it->inside.is_wanted[NICL_RX][queue];
    if (is_on(it, NICL_RX, queue) && !is_wanted)
        nicl_why_rx_asked_off(it, queue);
    else if (is_wanted)
        nicl_why_rx_not_switched(it, queue, "");
    else
        nicl_why_rx_queue_off(it, queue);
}

/* Reports a ring with no slot for the device. A disabled queue gets its first slots when it is enabled. */
static void rx_empty(struct nicl_why *it, uint16_t queue)
{
    bool has_frames = it->inside.waiting[queue];
    if (has_frames || is_on(it, NICL_RX, queue))
        nicl_why_rx_no_slot(it, queue);
    if (has_frames && FIELD(NIC_SRRCTL(queue), NIC_SRRCTL_DROP_EN))
        nicl_why_rx_drops(it, queue);
    else if (has_frames)
        nicl_why_rx_waits(it, queue);
}

/* Reports faults in a receive queue's registers. Returns whether the head or tail is outside the ring. */
static bool rx_set_up(struct nicl_why *it, uint16_t queue)
{
    bool is_outside = nicl_why_rx_head_outside(it, queue);
    is_outside |= nicl_why_rx_tail_outside(it, queue);
    nicl_why_rx_type(it, queue);
    nicl_why_rx_no_size(it, queue);
    return is_outside;
}

/* Reports what blocks a receive queue. */
static void rx_queue(struct nicl_why *it, uint16_t queue)
{
    struct nicl_ring ring = ring_of(it, NICL_RX, queue);
    bool is_off = !is_on(it, NICL_RX, queue) && !it->inside.is_wanted[NICL_RX][queue], is_outside;
    about(it, "rx", queue);
    rx_switch(it, queue);
    if (is_off && !has_ring(&ring))
        return;
    is_outside = rx_set_up(it, queue);
    if (!is_outside && ring.head == ring.tail)
        rx_empty(it, queue);
    else if (!is_outside)
        rx_slots(it, &ring, queue);
}

/* --- a transmit queue --- */

/* Reports why a data descriptor causes a fault, if it does. `frame` is the length of its frame's earlier buffers. */
static bool tx_data(struct nicl_why *it, const struct nicl_ring *ring, uint32_t slot, nic_desc d, uint64_t frame)
{
    uint64_t length = nic_desc_field(d.second, NIC_TXD_DTALEN);
    if (d.second & (NIC_TXD_VLE | NIC_TXD_TSE | NIC_TXD_POPTS))
        return nicl_why_tx_offload(it, slot);
    if (frame + length > nicl_why_frame_limit(it))
        return nicl_why_tx_too_long(it, slot) || nicl_why_tx_too_long_for_jumbo(it, slot);
    if (!is_lent(it, d.first, length))
        return not_lent(it, d.first, slot, address_of(ring, slot));
    return false;
}

/* Reports a head write-back to an address that isn't lent. */
static bool tx_back(struct nicl_why *it, const struct nicl_ring *ring, uint32_t slot, nic_desc d, uint16_t queue)
{
    uint64_t low = WORD(NIC_TDWBAL(queue)), at = WORD(NIC_TDWBAH(queue)) << 32 | (low & ~UINT64_C(3));
    if (!(d.second & NIC_TXD_RS) || !(low & NIC_TDWBAL_HEAD_WB_EN) || is_lent(it, at, 4))
        return false;
    return not_lent(it, at, slot, address_of(ring, slot));
}

static bool tx_slot(struct nicl_why *it, const struct nicl_ring *ring, uint32_t slot, uint64_t *frame, uint16_t queue)
{
    nic_desc d;
    uint64_t kind;
    if (!read_slot(it, ring, slot, &d))
        return not_lent(it, address_of(ring, slot), slot, address_of(ring, slot));
    kind = nic_desc_field(d.second, NIC_TXD_DTYP);
    if (!(d.second & NIC_TXD_DEXT))
        return nicl_why_tx_legacy(it, slot);
    if (kind == 2) /* a context descriptor */
        return false;
    if (kind != 3)
        return nicl_why_tx_unknown_type(it, slot);
    if (tx_data(it, ring, slot, d, *frame) || tx_back(it, ring, slot, d, queue))
        return true;
    *frame = d.second & NIC_TXD_EOP ? 0 : *frame + nic_desc_field(d.second, NIC_TXD_DTALEN);
    return false;
}

/* Reports the first slot owned by the device that causes a fault. */
static void tx_slots(struct nicl_why *it, const struct nicl_ring *ring, uint16_t queue)
{
    uint64_t frame = 0;
    for (uint32_t slot = ring->head; slot != ring->tail; slot = slot + 1 == ring->slots ? 0 : slot + 1)
        if (tx_slot(it, ring, slot, &frame, queue))
            return;
}

static bool is_type(nic_desc d, uint64_t kind)
{
    return d.second & NIC_TXD_DEXT && nic_desc_field(d.second, NIC_TXD_DTYP) == kind;
}

/* Returns whether no descriptor in a ring requests or contains a report. */
static bool has_no_report(struct nicl_why *it, const struct nicl_ring *ring)
{
    nic_desc d;
    for (uint32_t slot = 0; slot < ring->slots; slot++)
        if (!read_slot(it, ring, slot, &d) || d.second & (NIC_TXD_RS | NIC_TXWB_DD))
            return false;
    return true;
}

/* Called when the device has processed all slots: reports why a driver may never see the last slot reported. */
static void tx_last(struct nicl_why *it, const struct nicl_ring *ring, uint16_t queue)
{
    uint32_t last = (ring->head ? ring->head : ring->slots) - 1;
    nic_desc d;
    if (!is_on(it, NICL_TX, queue) || !read_slot(it, ring, last, &d) || !(d.second & NIC_TXD_EOP))
        return;
    if (is_type(d, 2)) /* EOP is reserved in a context descriptor */
        nicl_why_tx_context(it, last);
    else if (is_type(d, 3) && has_no_report(it, ring))
        nicl_why_tx_no_report(it, queue);
}

static void tx_switch(struct nicl_why *it, uint16_t queue)
{
    bool is_wanted = it->inside.is_wanted[NICL_TX][queue];
    if (is_on(it, NICL_TX, queue) && !is_wanted)
        nicl_why_tx_asked_off(it, queue);
    else if (is_wanted)
        nicl_why_tx_not_switched(it, queue, "");
    else
        nicl_why_tx_queue_off(it, queue);
}

/* Returns the number of queues in each pool according to GCR_EXT; 0 without pools. */
static unsigned queues_of_pool(struct nicl_why *it)
{
    return nic_pool_queues((uint32_t)WORD(NIC_GCR_EXT));
}

/* Reports what blocks a transmit queue. Having slots to send isn't a reason by itself. */
static void tx_queue(struct nicl_why *it, uint16_t queue, bool sends)
{
    struct nicl_ring ring = ring_of(it, NICL_TX, queue);
    unsigned before = it->lines, pool = queues_of_pool(it);
    bool is_outside = false;
    about(it, "tx", queue);
    tx_switch(it, queue);
    if (!is_on(it, NICL_TX, queue) && !has_ring(&ring))
        return;
    is_outside |= nicl_why_tx_head_outside(it, queue);
    is_outside |= nicl_why_tx_tail_outside(it, queue);
    if (!is_outside && ring.head == ring.tail)
        tx_last(it, &ring, queue);
    if (is_outside || ring.head == ring.tail)
        return;
    if (pool && FIELD(NIC_VT_CTL, NIC_VT_CTL_VT_ENA))
        nicl_why_tx_pool_off(it, queue / pool);
    tx_slots(it, &ring, queue);
    if (it->lines == before)
        (sends ? nicl_why_tx_not_made : nicl_why_tx_waits)(it, queue);
}

/* --- the causes of a group --- */

static bool has_group(struct nicl_why *it, unsigned group)
{
    uint32_t word;
    return !group || nic_vf_peek32(it->of, (uint8_t)(group - 1), NIC_VTEIMS, &word) == NIC_DONE;
}

/* Returns the group in which a queue raises its causes. */
static unsigned group_of(struct nicl_why *it, uint16_t queue)
{
    unsigned pool = queues_of_pool(it), group = pool ? queue / pool + 1u : 0;
    return group && has_group(it, group) ? group : 0;
}

/* Returns the byte of IVAR or PVTIVAR that selects the cause of a queue's side. */
static uint32_t entry_of(struct nicl_why *it, uint16_t queue, int side)
{
    uint64_t word = WORD(group_of(it, queue) ? NIC_PVTIVAR(queue / 2) : NIC_IVAR(queue / 2));
    return (uint32_t)(word >> (16 * (queue % 2) + 8 * side)) & 0xff;
}

/* Return the causes of a group that queues can have, and the ones that vector entries select. */
static uint32_t causes_of_queues(unsigned group)
{
    return group ? 7 : 0xffff;
}

static uint32_t cause_of(uint64_t entry)
{
    uint64_t cause = entry & CAUSE_OF_ENTRY;
    return entry & ENTRY_VALID && cause < 32 ? UINT32_C(1) << cause : 0;
}

static uint32_t causes_of(uint64_t entries)
{
    return cause_of(entries) | cause_of(entries >> 8) | cause_of(entries >> 16) | cause_of(entries >> 24);
}

static uint32_t named_causes(struct nicl_why *it, unsigned group)
{
    unsigned vectors = group ? queues_of_pool(it) / 2 : NIC_IVAR_COUNT, first = group ? (group - 1) * vectors : 0;
    uint32_t named = group ? cause_of(WORD(NIC_PVTIVAR_MISC(group - 1))) : 0;
    for (unsigned k = first; k < first + vectors; k++)
        named |= causes_of(WORD(group ? NIC_PVTIVAR(k) : NIC_IVAR(k)));
    return named;
}

/* Reports a receive queue that raises no cause although queue causes are unmasked in its group. */
static void entry_of_queue(struct nicl_why *it, uint16_t queue, unsigned group)
{
    uint32_t entry = entry_of(it, queue, NICL_RX), cause = entry & CAUSE_OF_ENTRY, index = queue / 2,
             byte = queue % 2 * 2;
    if (!(entry & ENTRY_VALID))
        (group ? nicl_why_vf_entry_off : nicl_why_pf_entry_off)(it, index, byte, "rx", queue);
    else if (!(causes_of_queues(group) & cause_of(entry)))
        (group ? nicl_why_vf_entry_high : nicl_why_pf_entry_high)(it, index, byte, "rx", queue, cause);
}

/* Reports unmasked causes that nothing raises. */
static void unraised(struct nicl_why *it, unsigned group, uint32_t causes, uint32_t masks)
{
    uint32_t unmasked = masks & causes_of_queues(group);
    if (!unmasked)
        return;
    for (uint16_t queue = 0; queue < NICL_QUEUES; queue++)
        if (group_of(it, queue) == group && is_on(it, NICL_RX, queue))
            entry_of_queue(it, queue, group);
    if (!(unmasked & (named_causes(it, group) | causes)))
        (group ? nicl_why_vf_unraised : nicl_why_pf_unraised)(it, unmasked);
}

/* Reports pending causes that have no message. */
static void unreported(struct nicl_why *it, unsigned group, uint32_t causes, uint32_t masks, bool is_stopped)
{
    uint32_t both = causes & masks, lost = group ? 0 : (uint32_t)nicl_why_without_vector(it, both);
    uint32_t due = it->inside.due[group] & both;
    char name[8] = "pf";
    if (group)
        snprintf(name, sizeof name, "%u", group - 1);
    if (group ? nicl_why_vf_masked(it, group - 1) : nicl_why_pf_masked(it))
        return;
    if (group)
        nicl_why_vf_hidden(it, group - 1);
    else
        nicl_why_pf_hidden(it);
    nicl_why_no_vector(it, lost);
    if (it->inside.is_known && both & ~lost & ~due)
        (group ? nicl_why_vf_reported : nicl_why_pf_reported)(it, both & ~lost & ~due);
    if (due && !is_stopped)
        (group ? nicl_why_vf_not_made : nicl_why_pf_not_made)(it, due, name);
}

static void group_of_causes(struct nicl_why *it, unsigned group, bool is_stopped)
{
    uint32_t causes = (uint32_t)WORD(group ? NIC_PVTEICR(group - 1) : NIC_EICR);
    uint32_t masks = (uint32_t)WORD(group ? NIC_PVTEIMS(group - 1) : NIC_EIMS);
    unsigned before = it->lines;
    about(it, group ? "int" : "int pf", group ? (int)group - 1 : -1);
    unraised(it, group, causes, masks);
    if (causes)
        unreported(it, group, causes, masks, is_stopped);
    if (!group && it->lines > before && (masks || named_causes(it, 0) || WORD(NIC_IVAR_MISC))) /* messages are in use */
        nicl_why_no_msix(it);
}

/* --- dropped frames --- */

static void one_drop(struct nicl_why *it, const struct nicl_drops *drops, unsigned kind, uint64_t count)
{
    char to[18];
    const uint8_t *of = drops->to[kind];
    snprintf(to, sizeof to, "%02x:%02x:%02x:%02x:%02x:%02x", of[0], of[1], of[2], of[3], of[4], of[5]);
    switch (kind) {
    case NIC_WHY_LINK_DOWN: nicl_why_dropped_down(it, count); break;
    case NIC_WHY_OFF: nicl_why_dropped_off(it, count); break;
    case NIC_WHY_SHORT: nicl_why_dropped_short(it, count, drops->length[kind]); break;
    case NIC_WHY_LONG: nicl_why_dropped_long(it, count, drops->length[kind]); break;
    case NIC_WHY_FILTER: nicl_why_dropped_one(it, count, to); break;
    case NIC_WHY_NO_POOL: nicl_why_dropped_no_pool(it, count, to); break;
    case NIC_WHY_POOL_OFF: nicl_why_dropped_pool_off(it, count, to); break;
    case NIC_WHY_FULL: nicl_why_dropped_full(it, count); break;
    case NIC_WHY_QUEUE_OFF: nicl_why_dropped_queue_off(it, count); break;
    case NIC_WHY_NO_SLOT: nicl_why_dropped_no_slot(it, count); break;
    case NICL_TO_MANY: nicl_why_dropped_many(it, count, to); break;
    case NICL_TO_ALL: nicl_why_dropped_all(it, count); break;
    default: break;
    }
}

static void drops(struct nicl_why *it)
{
    struct nicl_drops all;
    about(it, "", -1);
    if (!nicl_drops_of(it->of, &all))
        return;
    for (unsigned kind = 0; kind < NICL_DROPS; kind++)
        if (all.count[kind])
            one_drop(it, &all, kind, all.count[kind]);
}

/* --- the explanation --- */

/* Reports what stops all queues, or all on one side, if any of those queues is in use. */
static void rx_side(struct nicl_why *it)
{
    bool is_used = false;
    for (uint16_t queue = 0; queue < NICL_QUEUES; queue++)
        is_used |= is_in_use(it, NICL_RX, queue);
    if (is_used)
        nicl_why_rx_off(it);
}

static bool has_work(struct nicl_why *it, uint16_t queue)
{
    struct nicl_ring ring = ring_of(it, NICL_TX, queue);
    return ring.head != ring.tail;
}

static bool tx_side(struct nicl_why *it)
{
    bool is_used = false;
    for (uint16_t queue = 0; queue < NICL_QUEUES; queue++)
        is_used |= has_work(it, queue);
    return is_used && nicl_why_tx_off(it);
}

static bool link_is_down(struct nicl_why *it)
{
    bool is_used = false;
    for (uint16_t queue = 0; queue < NICL_QUEUES; queue++)
        is_used |= is_in_use(it, NICL_RX, queue) || has_work(it, queue);
    return is_used && nicl_why_link_down(it);
}

/* Returns the number of queues that a pool has for arriving frames according to MRQC; 0 without pools. */
static unsigned rx_queues_of_pool(struct nicl_why *it)
{
    uint64_t code = FIELD(NIC_MRQC, NIC_MRQC_MRQE);
    if (code != 8 && code != 10 && code != 11)
        return 0;
    return FIELD(NIC_GCR_EXT, NIC_GCR_EXT_VT_MODE) == 1 ? 8 : code == 10 ? 4 : 2;
}

/* Reports pools that take no frames although one of their queues is set up. */
static void rx_pools(struct nicl_why *it)
{
    unsigned queues = rx_queues_of_pool(it);
    for (uint16_t queue = 0, reported = UINT16_MAX; queues && queue < NICL_QUEUES; queue++)
        if (queue / queues != reported && is_in_use(it, NICL_RX, queue)) {
            reported = (uint16_t)(queue / queues);
            nicl_why_rx_pool_off(it, reported);
        }
}

/* Reports the waiting frames, and whether something blocks the first one. */
static void frames(struct nicl_why *it, bool is_stopped)
{
    unsigned before = it->lines;
    bool is_in_the_way;
    if (!it->inside.all_waiting)
        return;
    it->is_silent = true;
    rx_queue(it, it->inside.front);
    it->is_silent = false;
    is_in_the_way = is_stopped || it->lines > before;
    about(it, "rx", -1);
    (is_in_the_way ? nicl_why_waiting : nicl_why_rx_not_made)(it, it->inside.all_waiting, it->inside.front);
}

static void tell(struct nicl_why *it)
{
    bool is_stopped = nicl_why_disabled(it), sends = !is_stopped;
    sends &= !link_is_down(it);
    rx_side(it);
    sends &= !tx_side(it);
    rx_pools(it);
    drops(it);
    frames(it, is_stopped);
    for (uint16_t queue = 0; queue < NICL_QUEUES; queue++)
        if (is_in_use(it, NICL_RX, queue))
            rx_queue(it, queue);
    for (uint16_t queue = 0; queue < NICL_QUEUES; queue++)
        if (is_in_use(it, NICL_TX, queue))
            tx_queue(it, queue, sends);
    for (unsigned group = 0; group < NICL_GROUPS && has_group(it, group); group++)
        group_of_causes(it, group, is_stopped);
    about(it, "eestep", -1);
    nicl_why_word_asked(it);
    about(it, "", -1);
    if (!it->inside.is_known)
        nicl_why_no_copy(it);
}

/* Without a copy, assumes that the requested state of a side is its current state. */
static void look(struct nicl_why *it)
{
    nicl_look_inside(it->of, &it->inside);
    for (uint16_t queue = 0; !it->inside.is_known && queue < NICL_QUEUES; queue++)
        for (int side = NICL_RX; side <= NICL_TX; side++)
            it->inside.is_wanted[side][queue] = is_on(it, side, queue);
}

static void begin(struct nicl_why *it, nic *n, char *text, size_t size)
{
    memset(it, 0, sizeof *it);
    it->of = n;
    it->text = text;
    it->room = size;
}

static size_t end(struct nicl_why *it)
{
    if (it->room)
        it->text[it->used] = 0;
    return it->length;
}

size_t nic_why(nic *n, char *text, size_t size)
{
    struct nicl_why it;
    uint32_t word;
    begin(&it, n, text, size);
    if (nic_peek32(n, NIC_STATUS, &word) == NIC_DONE) {
        look(&it);
        tell(&it);
    }
    return end(&it);
}

size_t nicl_why_fault(nic *n, const nic_outcome *reported, bool transmit, char *text, size_t size)
{
    struct nicl_why it;
    struct nicl_ring ring = nicl_ring_of(n, transmit, reported->queue);
    begin(&it, n, text, size);
    if (reported->why == NIC_FAULT_NOT_LENT)
        not_lent(&it, reported->bus, ring.head, address_of(&ring, ring.head));
    else if (!transmit)
        rx_set_up(&it, reported->queue);
    else if (reported->why == NIC_FAULT_TOO_LONG) /* the device no longer owns the frame's first slots */
        (void)(nicl_why_tx_too_long(&it, ring.head) || nicl_why_tx_too_long_for_jumbo(&it, ring.head));
    else if (!nicl_why_tx_head_outside(&it, reported->queue) && !nicl_why_tx_tail_outside(&it, reported->queue))
        tx_slots(&it, &ring, reported->queue);
    return end(&it);
}

size_t nicl_why_drop(nic *n, unsigned kind, uint64_t count, char *text, size_t size)
{
    struct nicl_why it;
    struct nicl_drops all;
    begin(&it, n, text, size);
    nicl_drops_of(n, &all);
    one_drop(&it, &all, kind, count);
    return end(&it);
}
