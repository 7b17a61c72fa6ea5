#include "rings.h"

#include <inttypes.h>
#include <stdio.h>
#include <stdlib.h>
#include <string.h>

#define LEGACY_BUFFER_KB 2u /* the card's SRRCTL after a reset */

/* The layout of the device's memory, in blocks. Block 0 is never lent: a pointer to it is a fault. */
#define HEADS 1u /* block for the heads that transmit queues write back, 16 bytes each */
#define HEAD_BYTES 16u
#define RECEIVE_FIRST 16u
#define RECEIVE_BLOCKS 16u /* for a queue's buffer: SRRCTL's maximum is 31 KB */
#define TRANSMIT_FIRST (RECEIVE_FIRST + RINGS_QUEUES * RECEIVE_BLOCKS)
#define TRANSMIT_BLOCKS 32u /* 65,535 bytes */
#define RINGS_FIRST (TRANSMIT_FIRST + RINGS_QUEUES * TRANSMIT_BLOCKS)

#define BUFFER_MOST (TRANSMIT_BLOCKS * NIC_BLOCK_BYTES)
#define LEAST_BASE 0x7Fu
#define RING_LENGTH 0xFFF80u
#define RELEASE __ATOMIC_RELEASE

enum side { RECEIVE, TRANSMIT };

/* A descriptor that was read ahead. */
struct ahead {
    bool is_there;
    uint32_t slot;
    nic_desc descriptor;
};

struct ring {
    struct dma_address base; /* address in the memory of the client that set up the ring */
    struct dma_address head; /* a transmit queue's head write-back, in the memory of the client that set it */
    uint32_t place, blocks;  /* blocks in the device's memory; 0: none */
    uint32_t lent;           /* the block that is lent; 0: none, or all if the device is recorded */
    uint32_t slots;
    bool is_legacy;  /* receive: the driver selected legacy descriptors */
    bool has_drop;   /* receive: the server set SRRCTL.DROP_EN, not the driver */
    bool is_touched; /* receive: the next slot may be due */
    bool is_given;   /* the device has `slot` */
    uint32_t slot;
    struct dma_address buffer;       /* receive: the buffer of that slot */
    struct dma sizes_of;             /* receive: the client that set the buffer size in SRRCTL */
    struct ahead ahead[RINGS_AHEAD]; /* slot s is at index s % RINGS_AHEAD */
    uint32_t next_ahead;
};

struct rings {
    struct rings_options options;
    struct rings_counts counts;
    uint32_t reported_off, reported_zeros; /* remarks already reported, by client socket */
    struct ring rings[2][RINGS_QUEUES];
    uint16_t owner[RINGS_BLOCKS]; /* rings of the blocks: 1 + 128 * side + queue */
    bool is_lent[RINGS_BLOCKS];
    bool any_touched;
    uint8_t copy[BUFFER_MOST];
};

/* ---- the device's registers and memory ---- */

static uint32_t peek(const struct rings *it, uint32_t address)
{
    uint32_t word = 0;
    nic_peek32(it->options.device, address, &word);
    return word;
}

static uint64_t bus_of(uint32_t block)
{
    return (uint64_t)block * NIC_BLOCK_BYTES;
}

static void lend(struct rings *it, uint32_t first, uint32_t count)
{
    for (uint32_t block = first; block < first + count; block++)
        if (!it->is_lent[block])
            it->is_lent[block] = nic_lend(it->options.device, block) == NIC_DONE;
}

static void take(struct rings *it, uint32_t block)
{
    if (block && it->is_lent[block])
        it->is_lent[block] = nic_take(it->options.device, block) != NIC_DONE;
}

static uint32_t block_of(const struct ring *ring, uint32_t slot)
{
    return ring->place + slot * NIC_DESC_BYTES / NIC_BLOCK_BYTES;
}

/* Lends the device only the block of a ring that contains its next slot. So a device with long rings is no larger than
   a device with short rings, and copying it takes no longer. A recording contains whole rings, so that they can be
   drawn. */
static void lend_slot(struct rings *it, struct ring *ring, uint32_t slot)
{
    uint32_t block = block_of(ring, slot);
    if (it->options.is_recorded || ring->lent == block)
        return;
    take(it, ring->lent);
    lend(it, block, 1);
    ring->lent = block;
}

/* Returns the guest's address of a slot. */
static struct dma_address slot_at(const struct ring *ring, uint32_t slot)
{
    return (struct dma_address){ring->base.of, ring->base.at + (uint64_t)NIC_DESC_BYTES * slot};
}

/* Reports memory that a client's own ring needs but can't access. */
static void refuse(struct rings *it, const char *what, struct dma_address where, uint16_t queue, size_t length)
{
    it->counts.refused++;
    it->options.refused(it->options.of, what, where.of, queue, where, length);
}

/* Reports a client's access to a ring, which may belong to another client. */
static void refuse_ring(struct rings *it, const char *what, struct dma by, const struct ring *ring, uint16_t queue)
{
    it->counts.refused++;
    it->options.refused(it->options.of, what, by, queue, ring->base, ring->slots * NIC_DESC_BYTES);
}

/* Reports a driver's mistake that isn't an access, once for each client. */
static void remark(struct rings *it, uint32_t *seen, const char *what, struct dma by, const struct ring *ring,
                   uint16_t queue)
{
    uint32_t its = 1u << dma_socket(by);
    if (!(*seen & its))
        it->options.refused(it->options.of, what, by, queue, ring->base, ring->slots * NIC_DESC_BYTES);
    *seen |= its;
}

/* ---- places of rings ---- */

static void give_up_place(struct rings *it, struct ring *ring)
{
    for (uint32_t i = 0; i < ring->blocks; i++)
        it->owner[ring->place + i] = 0;
    it->counts.blocks -= ring->blocks;
    take(it, ring->lent);
    memset(ring->ahead, 0, sizeof ring->ahead);
    ring->place = ring->blocks = ring->slots = ring->lent = 0;
}

/* Returns the first of `count` consecutive free blocks; 0 if no such run exists. */
static uint32_t find_blocks(const struct rings *it, uint32_t count)
{
    uint32_t run = 0;
    for (uint32_t block = RINGS_FIRST; block < RINGS_BLOCKS; block++) {
        run = it->owner[block] ? 0 : run + 1;
        if (run == count)
            return block + 1 - count;
    }
    return 0;
}

/* Allocates blocks for a ring of this many bytes, if its length changed. */
static void take_place(struct rings *it, enum side side, uint16_t queue, uint32_t bytes)
{
    struct ring *ring = &it->rings[side][queue];
    uint32_t count = (bytes + NIC_BLOCK_BYTES - 1) / NIC_BLOCK_BYTES, slots = bytes / NIC_DESC_BYTES;
    if (slots == ring->slots)
        return;
    budget_spend(it->options.budget, BUDGET_RING);
    give_up_place(it, ring);
    if (slots == 0)
        return;
    uint32_t place = bytes <= RING_BYTES_MOST ? find_blocks(it, count) : 0;
    if (!place) {
        it->counts.without_room++;
        refuse(it, "no room for the ring (the bench has 116 MiB for all rings, at most 512 KB each): ring base",
               ring->base, queue, bytes);
        return;
    }
    for (uint32_t i = 0; i < count; i++)
        it->owner[place + i] = (uint16_t)(1 + RINGS_QUEUES * side + queue);
    if (it->options.is_recorded)
        lend(it, place, count);
    ring->place = place;
    ring->blocks = count;
    ring->slots = slots;
    it->counts.blocks += count;
    if (it->counts.blocks > it->counts.blocks_most)
        it->counts.blocks_most = it->counts.blocks;
}

/* ---- recordings ---- */

/* Notes in a recording the guest's addresses of a slot and its buffer. The device gets other addresses for both. */
static void note_slot(struct rings *it, enum side side, uint16_t queue, uint32_t slot, uint64_t buffer)
{
    const struct ring *ring = &it->rings[side][queue];
    char text[128];
    if (!it->options.is_recorded)
        return;
    snprintf(text, sizeof text, "guest: %s %u slot %" PRIu32 " at 0x%" PRIx64 ", buffer at 0x%" PRIx64,
             side == TRANSMIT ? "tx" : "rx", queue, slot, slot_at(ring, slot).at, buffer);
    nic_note(it->options.device, text);
}

static void note_ring(struct rings *it, enum side side, uint16_t queue)
{
    const struct ring *ring = &it->rings[side][queue];
    char text[128];
    if (!it->options.is_recorded)
        return;
    snprintf(text, sizeof text, "guest: the ring of %s %u is at 0x%" PRIx64 ", %" PRIu32 " slots, of function %u",
             side == TRANSMIT ? "tx" : "rx", queue, ring->base.at, ring->slots, dma_function(ring->base.of));
    nic_note(it->options.device, text);
}

/* ---- registers ---- */

static bool is_on(const struct rings *it, enum side side, uint16_t queue)
{
    return side == TRANSMIT ? (peek(it, NIC_TXDCTL(queue)) & NIC_TXDCTL_ENABLE) != 0
                            : (peek(it, NIC_RXDCTL(queue)) & NIC_RXDCTL_ENABLE) != 0;
}

static void forget_ahead(struct ring *ring)
{
    memset(ring->ahead, 0, sizeof ring->ahead);
    ring->is_given = false;
}

static void touch(struct rings *it, struct ring *ring)
{
    ring->is_touched = it->any_touched = true;
}

/* ---- owners of rings ---- */

static bool is_nobody(struct dma client)
{
    return dma_is(client, (struct dma){0});
}

/* Discards the offload state of a transmit queue, so that the next client can't see it. */
static void forget_offload(struct rings *it, enum side side, uint16_t queue)
{
    if (it->options.offload && side == TRANSMIT)
        offload_forget(it->options.offload, queue);
}

static void switch_off(struct rings *it, enum side side, uint16_t queue)
{
    uint32_t address = side == TRANSMIT ? NIC_TXDCTL(queue) : NIC_RXDCTL(queue);
    nic_outcome seen;
    nic_write32(it->options.device, address, peek(it, address) & ~NIC_RXDCTL_ENABLE);
    nic_queue_step(it->options.device, side == TRANSMIT, queue, &seen);
}

/* Takes the ring from its owner, so that the ring accesses no memory. The ring's location is kept as long as the device
   may use it: until a reset, or until a client sets up another ring for the queue. */
static void stop(struct rings *it, enum side side, uint16_t queue)
{
    struct ring *ring = &it->rings[side][queue];
    ring->base.of = ring->head.of = ring->buffer.of = (struct dma){0};
    forget_ahead(ring);
    forget_offload(it, side, queue);
    switch_off(it, side, queue);
    it->counts.stopped++;
}

/* Passes a disabled ring to the client that sets it up, and discards everything that belongs to another client. */
static void claim(struct rings *it, enum side side, uint16_t queue, struct dma client)
{
    struct ring *ring = &it->rings[side][queue];
    bool has_head = dma_is(ring->head.of, client);
    bool has_foreign_sizes = !is_nobody(ring->sizes_of) && !dma_is(ring->sizes_of, client);
    if (dma_is(ring->base.of, client))
        return;
    give_up_place(it, ring);
    *ring = (struct ring){.base = {client, 0},
                          .head = ring->head,
                          .is_legacy = ring->is_legacy,
                          .has_drop = ring->has_drop,
                          .sizes_of = ring->sizes_of};
    if (side == TRANSMIT && !has_head) {
        ring->head = (struct dma_address){{0}, 0};
        nic_write32(it->options.device, NIC_TDWBAL(queue), 0);
    }
    if (has_foreign_sizes) {
        ring->is_legacy = ring->has_drop = false;
        nic_write32(it->options.device, NIC_SRRCTL(queue), NIC_SRRCTL_BSIZEPACKET_IS(LEGACY_BUFFER_KB));
    }
    forget_offload(it, side, queue);
    nic_write32(it->options.device, side == TRANSMIT ? NIC_TDBAL(queue) : NIC_RDBAL(queue), 0);
}

/* If the ring belongs to another client, stops the ring and returns false. `what` describes the client's access. */
static bool check_owner(struct rings *it, enum side side, uint16_t queue, struct dma client, const char *what)
{
    const struct ring *ring = &it->rings[side][queue];
    if (dma_is(ring->base.of, client) || (is_nobody(ring->base.of) && ring->slots == 0))
        return true;
    refuse_ring(it, what, client, ring, queue);
    if (!is_nobody(ring->base.of))
        stop(it, side, queue);
    return false;
}

/* ---- register accesses ---- */

/* Makes the device drop frames for a virtual function that has no free descriptor. Waiting in front of the queues, such
   frames would block all others. On the card, the PF's driver prevents that with QDE, which the device doesn't have. */
static uint32_t add_drop(struct ring *ring, struct dma client, uint32_t control)
{
    ring->has_drop = dma_function(client) && !(control & NIC_SRRCTL_DROP_EN);
    return ring->has_drop ? control | NIC_SRRCTL_DROP_EN : control;
}

/* A queue's SRRCTL that was never written has the card's initial value: legacy descriptors, 2 KB. */
static uint32_t add_legacy(struct ring *ring, uint32_t control)
{
    ring->is_legacy = true;
    if (nic_field(control, NIC_SRRCTL_BSIZEPACKET) == 0)
        control |= NIC_SRRCTL_BSIZEPACKET_IS(LEGACY_BUFFER_KB);
    return legacy_receive(control);
}

static void start_receiving(struct rings *it, uint16_t queue, struct dma client)
{
    struct ring *ring = &it->rings[RECEIVE][queue];
    uint32_t before = peek(it, NIC_SRRCTL(queue)), control = before;
    if (it->options.has_legacy && legacy_is_receive(control))
        control = add_legacy(ring, control);
    if (!ring->has_drop)
        control = add_drop(ring, client, control);
    if (control != before)
        nic_write32(it->options.device, NIC_SRRCTL(queue), control);
}

/* A queue that is enabled again begins without old descriptors read ahead and without an unfinished frame's offload. */
static void enable(struct rings *it, enum side side, uint16_t queue, struct dma client, uint32_t word)
{
    struct ring *ring = &it->rings[side][queue];
    if (word & NIC_RXDCTL_ENABLE)
        note_ring(it, side, queue);
    if (!is_on(it, side, queue)) {
        forget_ahead(ring);
        ring->next_ahead = peek(it, side == TRANSMIT ? NIC_TDH(queue) : NIC_RDH(queue));
        if (word & NIC_RXDCTL_ENABLE)
            check_owner(it, side, queue, client, "attempt to enable another client's ring, which is now stopped: ring");
        if (it->options.offload && side == TRANSMIT)
            offload_give_up(it->options.offload, queue);
    }
    if (side == TRANSMIT)
        return;
    touch(it, ring);
    if (word & NIC_RXDCTL_ENABLE)
        start_receiving(it, queue, client);
}

/* Only the ring's client may set its buffer size: another client could set a larger one, and frames would overrun
   buffers in the first client's memory. */
static uint32_t set_control(struct rings *it, uint16_t queue, struct dma client, uint32_t word)
{
    struct ring *ring = &it->rings[RECEIVE][queue];
    check_owner(it, RECEIVE, queue, client, "buffer size set for another client's ring, which is now stopped: ring");
    ring->sizes_of = client;
    ring->is_legacy = it->options.has_legacy && legacy_is_receive(word);
    return add_drop(ring, client, ring->is_legacy ? legacy_receive(word) : word);
}

/* Sets a base or a length while the queue is off. A new length gives the ring new blocks, and so sets the device's base
   too. */
static uint32_t set_place(struct rings *it, const struct bus_access *at, uint32_t word)
{
    struct ring *ring = &it->rings[at->is_transmit][at->queue];
    uint32_t place;
    switch (at->part) {
    case BUS_BASE_LOW: ring->base.at = (ring->base.at & ~(uint64_t)UINT32_MAX) | (word & ~LEAST_BASE); break;
    case BUS_BASE_HIGH: ring->base.at = (ring->base.at & UINT32_MAX) | (uint64_t)word << 32; return 0;
    default: take_place(it, at->is_transmit, at->queue, word & RING_LENGTH); break;
    }
    place = (uint32_t)bus_of(ring->place);
    if (at->part == BUS_BASE_LOW)
        return place;
    nic_write32(it->options.device, at->is_transmit ? NIC_TDBAL(at->queue) : NIC_RDBAL(at->queue), place);
    return word;
}

/* Sets half of the head write-back address. A client can't complete another client's address. */
static uint32_t set_head_address(struct rings *it, const struct bus_access *at, struct dma client, uint32_t word)
{
    struct dma_address *head = &it->rings[TRANSMIT][at->queue].head;
    if (!dma_is(head->of, client))
        *head = (struct dma_address){client, 0};
    if (at->part == BUS_BACK_HIGH) {
        head->at = (head->at & UINT32_MAX) | (uint64_t)word << 32;
        return 0;
    }
    head->at = (head->at & ~(uint64_t)UINT32_MAX) | word;
    lend(it, HEADS, 1);
    return (word & 3) | ((uint32_t)bus_of(HEADS) + HEAD_BYTES * at->queue);
}

uint32_t rings_to_device(struct rings *it, struct dma client, const struct bus_access *at, uint32_t word)
{
    switch (at->part) {
    case BUS_BASE_LOW:
    case BUS_BASE_HIGH:
    case BUS_LENGTH:
        if (is_on(it, at->is_transmit, at->queue)) /* read-only: the device ignores it */
            return word;
        claim(it, at->is_transmit, at->queue, client);
        return set_place(it, at, word);
    case BUS_BACK_LOW:
    case BUS_BACK_HIGH: return set_head_address(it, at, client, word);
    case BUS_SRRCTL: return set_control(it, at->queue, client, word);
    case BUS_SWITCH: enable(it, at->is_transmit, at->queue, client, word); return word;
    default: return word;
    }
}

uint32_t rings_to_driver(const struct rings *it, const struct bus_access *at, uint32_t word)
{
    const struct ring *ring = &it->rings[at->is_transmit][at->queue];
    switch (at->part) {
    case BUS_BASE_LOW: return (uint32_t)ring->base.at;
    case BUS_BASE_HIGH: return (uint32_t)(ring->base.at >> 32);
    case BUS_BACK_LOW: return (uint32_t)ring->head.at;
    case BUS_BACK_HIGH: return (uint32_t)(ring->head.at >> 32);
    case BUS_SRRCTL:
        return word & ~((ring->is_legacy ? NIC_SRRCTL_DESCTYPE : 0) | (ring->has_drop ? NIC_SRRCTL_DROP_EN : 0));
    default: return word;
    }
}

void rings_reset(struct rings *it, uint16_t queue)
{
    for (unsigned int side = 0; side < 2; side++) {
        struct ring *ring = &it->rings[side][queue];
        give_up_place(it, ring);
        *ring = (struct ring){0};
    }
    if (it->options.offload)
        offload_forget(it->options.offload, queue);
}

void rings_head(struct rings *it, bool is_transmit, uint16_t queue, uint32_t head)
{
    struct ring *ring = &it->rings[is_transmit][queue];
    if (is_on(it, is_transmit, queue)) /* read-only while the queue is on */
        return;
    forget_ahead(ring);
    ring->next_ahead = head;
}

void rings_stop_all(struct rings *it, struct dma client)
{
    for (unsigned int side = 0; side < 2; side++)
        for (uint16_t queue = 0; queue < RINGS_QUEUES; queue++) {
            struct ring *ring = &it->rings[side][queue];
            if (dma_is(ring->base.of, client))
                stop(it, side, queue);
            if (dma_is(ring->head.of, client))
                ring->head.of = (struct dma){0};
        }
}

void rings_remapped(struct rings *it, struct dma client)
{
    for (unsigned int side = 0; side < 2; side++)
        for (uint16_t queue = 0; queue < RINGS_QUEUES; queue++) {
            struct ring *ring = &it->rings[side][queue];
            if (ring->slots && dma_is(ring->base.of, client) && !dma_has(ring->base, ring->slots * NIC_DESC_BYTES))
                memset(ring->ahead, 0, sizeof ring->ahead);
        }
}

struct dma rings_owner(const struct rings *it, bool is_transmit, uint16_t queue)
{
    return it->rings[is_transmit][queue].base.of;
}

/* ---- descriptors on their way to the device ---- */

static bool read_slot(const struct ring *ring, uint32_t slot, nic_desc *descriptor)
{
    uint8_t bytes[NIC_DESC_BYTES];
    if (!dma_read(slot_at(ring, slot), bytes, sizeof bytes))
        return false;
    *descriptor = nic_desc_of_bytes(bytes);
    return true;
}

/* Returns the number of slots from `from` up to, but excluding, `to`. */
static uint32_t slots_between(const struct ring *ring, uint32_t from, uint32_t to)
{
    return to >= from ? to - from : ring->slots - from + to;
}

/* Discards old descriptors of slots that are handed over. If `fetches`, reads as many of the new ones as fit. */
static void read_ahead(struct rings *it, struct ring *ring, uint32_t from, uint32_t to, bool fetches)
{
    uint32_t given = slots_between(ring, from, to), reads = given < RINGS_AHEAD ? given : RINGS_AHEAD;
    for (unsigned int i = 0; i < RINGS_AHEAD; i++)
        if (ring->ahead[i].is_there && slots_between(ring, from, ring->ahead[i].slot) < given)
            ring->ahead[i].is_there = false;
    for (uint32_t slot = from; fetches && reads; reads--, slot = slot + 1 < ring->slots ? slot + 1 : 0) {
        struct ahead *ahead = &ring->ahead[slot % RINGS_AHEAD];
        if (ahead->is_there)
            continue;
        ahead->slot = slot;
        ahead->is_there = read_slot(ring, slot, &ahead->descriptor);
        it->counts.ahead++;
    }
}

void rings_tail(struct rings *it, struct dma client, bool is_transmit, uint16_t queue, uint32_t tail, bool fetches)
{
    struct ring *ring = &it->rings[is_transmit][queue];
    if (!is_transmit)
        touch(it, ring);
    if (ring->slots == 0 && tail == 0) /* not reported: drivers also clear registers that they don't use */
        return;
    if (!check_owner(it, is_transmit, queue, client, "tail write to another client's ring, which is now stopped: ring"))
        return;
    if (tail >= ring->slots) {
        it->counts.tails_outside++;
        refuse_ring(it, "tail outside its ring: ring", client, ring, queue);
        return;
    }
    if (!is_on(it, is_transmit, queue) && tail != peek(it, is_transmit ? NIC_TDH(queue) : NIC_RDH(queue))) {
        it->counts.tails_off++;
        const char *what = is_transmit ? "tail write to a disabled transmit ring (only the first is reported): ring"
                                       : "tail write to a disabled receive ring (only the first is reported): ring";
        remark(it, &it->reported_off, what, client, ring, queue);
    }
    budget_spend(it->options.budget, BUDGET_STEP);
    read_ahead(it, ring, ring->next_ahead < ring->slots ? ring->next_ahead : tail, tail, fetches);
    ring->next_ahead = tail;
}

/* State of a ring's next slot. NO_SLOT: head and tail are equal. SLOT_IS_GIVEN: the device has the slot, or can't get
   it. SLOT_TO_GIVE: the slot is due. */
enum next { NO_SLOT, SLOT_IS_GIVEN, SLOT_TO_GIVE };

/* Finds the slot that the device processes next. */
static enum next next_slot(const struct rings *it, enum side side, uint16_t queue, uint32_t *slot)
{
    const struct ring *ring = &it->rings[side][queue];
    uint32_t head = peek(it, side == TRANSMIT ? NIC_TDH(queue) : NIC_RDH(queue));
    uint32_t tail = peek(it, side == TRANSMIT ? NIC_TDT(queue) : NIC_RDT(queue));
    *slot = head;
    if (head == tail)
        return NO_SLOT;
    bool is_given = ring->is_given && ring->slot == head;
    return head < ring->slots && tail < ring->slots && !is_given ? SLOT_TO_GIVE : SLOT_IS_GIVEN;
}

static void put_slot(struct rings *it, struct ring *ring, uint32_t slot, nic_desc descriptor)
{
    lend_slot(it, ring, slot);
    nic_put_desc(it->options.device, bus_of(ring->place), slot, descriptor);
    ring->is_given = true;
    ring->slot = slot;
    it->counts.descriptors++;
}

static bool take_slot(struct rings *it, struct ring *ring, uint16_t queue, uint32_t slot, nic_desc *descriptor)
{
    struct ahead *ahead = &ring->ahead[slot % RINGS_AHEAD];
    bool is_ahead = ahead->is_there && ahead->slot == slot;
    budget_spend(it->options.budget, BUDGET_STEP);
    if (is_ahead) {
        *descriptor = ahead->descriptor;
        ahead->is_there = false;
    } else if (!read_slot(ring, slot, descriptor)) {
        refuse(it, "can't read a descriptor", slot_at(ring, slot), queue, NIC_DESC_BYTES);
        return false;
    }
    if (!descriptor->first && !descriptor->second) {
        it->counts.zeros++;
        remark(it, &it->reported_zeros, "all-zero descriptor; is the guest's memory shared (share=on)? Ring",
               ring->base.of, ring, queue);
    }
    return true;
}

static void give_receive(struct rings *it, uint16_t queue)
{
    struct ring *ring = &it->rings[RECEIVE][queue];
    nic_desc descriptor = {0};
    uint32_t slot, place = RECEIVE_FIRST + RECEIVE_BLOCKS * queue;
    if (next_slot(it, RECEIVE, queue, &slot) != SLOT_TO_GIVE)
        return;
    lend(it, place, RECEIVE_BLOCKS);
    if (take_slot(it, ring, queue, slot, &descriptor)) {
        ring->buffer = (struct dma_address){ring->base.of, descriptor.first & NIC_RXD_BUFFER};
        note_slot(it, RECEIVE, queue, slot, ring->buffer.at);
        descriptor = (nic_desc){bus_of(place), 0};
    }
    /* if the guest's descriptor isn't readable, this one points to nothing, so the device reports a fault */
    put_slot(it, ring, slot, descriptor);
}

/* Translates a guest's data descriptor for the device, and copies its bytes to the queue's buffer. */
static nic_desc data_for_device(struct rings *it, struct ring *ring, uint16_t queue, nic_desc guest)
{
    struct offload *offload = it->options.offload;
    struct legacy_sum sum = {0};
    uint16_t tag = 0;
    bool is_legacy = it->options.has_legacy && legacy_is_transmit(guest.second);
    if (is_legacy)
        guest.second = legacy_transmit(guest.second, &sum, &tag);
    size_t length = guest.second & NIC_TXD_DTALEN;
    uint32_t place = TRANSMIT_FIRST + TRANSMIT_BLOCKS * queue;
    const struct dma_address buffer = {ring->base.of, guest.first};
    if (!dma_read(buffer, it->copy, length)) {
        refuse(it, "can't read a frame's bytes", buffer, queue, length);
        return (nic_desc){0, guest.second & ~(NIC_TXD_POPTS | NIC_TXD_TSE | NIC_TXD_VLE)};
    }
    budget_spend(it->options.budget, length);
    it->counts.frames_bytes += length;
    if (offload)
        guest.second = offload_data(offload, queue, guest.second, it->copy, &length, is_legacy ? &sum : NULL, tag);
    if (length) {
        lend(it, place, (uint32_t)(length + NIC_BLOCK_BYTES - 1) / NIC_BLOCK_BYTES);
        nic_dma_write(it->options.device, bus_of(place), it->copy, length);
    }
    guest.first = bus_of(place);
    return guest;
}

/* Returns false if there is nothing to send. */
static bool give_transmit(struct rings *it, uint16_t queue)
{
    struct ring *ring = &it->rings[TRANSMIT][queue];
    nic_desc descriptor = {0, NIC_TXD_DATA | NIC_TXD_EOP | NIC_TXD_DTALEN_IS(1)};
    uint32_t slot;
    if (it->options.offload && offload_is_cutting(it->options.offload, queue))
        return false;
    enum next next = next_slot(it, TRANSMIT, queue, &slot);
    if (next != SLOT_TO_GIVE)
        return next != NO_SLOT;
    if (take_slot(it, ring, queue, slot, &descriptor)) {
        uint64_t type = (descriptor.second & NIC_TXD_DTYP) >> NIC_TXD_DTYP_SHIFT;
        bool is_legacy = it->options.has_legacy && legacy_is_transmit(descriptor.second);
        if (is_legacy || type == 3)
            note_slot(it, TRANSMIT, queue, slot, descriptor.first);
        if (is_legacy || type == 3)
            descriptor = data_for_device(it, ring, queue, descriptor);
        else if (it->options.offload && type == 2)
            offload_context(it->options.offload, queue, descriptor.first, descriptor.second);
    }
    put_slot(it, ring, slot, descriptor);
    return true;
}

bool rings_step(struct rings *it, bool is_transmit, uint16_t queue)
{
    if (is_transmit)
        return give_transmit(it, queue);
    give_receive(it, queue);
    return true;
}

void rings_prepare_receive(struct rings *it)
{
    if (!it->any_touched)
        return;
    it->any_touched = false;
    for (uint16_t queue = 0; queue < RINGS_QUEUES; queue++) {
        if (it->rings[RECEIVE][queue].is_touched)
            give_receive(it, queue);
        it->rings[RECEIVE][queue].is_touched = false;
    }
}

static void fill(struct rings *it, enum side side, uint16_t queue)
{
    const struct ring *ring = &it->rings[side][queue];
    uint32_t head = peek(it, side == TRANSMIT ? NIC_TDH(queue) : NIC_RDH(queue));
    uint32_t tail = peek(it, side == TRANSMIT ? NIC_TDT(queue) : NIC_RDT(queue));
    uint32_t place = RECEIVE_FIRST + RECEIVE_BLOCKS * queue;
    const nic_desc filler =
        side == TRANSMIT ? (nic_desc){0, NIC_TXD_DEXT | NIC_TXD_DTYP_IS(2)} : (nic_desc){bus_of(place), 0};
    if (head >= ring->slots || tail >= ring->slots)
        return;
    if (side == RECEIVE)
        lend(it, place, RECEIVE_BLOCKS);
    for (uint32_t slot = head; slot != tail; slot = slot + 1 < ring->slots ? slot + 1 : 0) {
        if (ring->is_given && slot == ring->slot)
            continue;
        lend(it, block_of(ring, slot), 1);
        nic_put_desc(it->options.device, bus_of(ring->place), slot, filler);
    }
}

void rings_fill(struct rings *it, nic *device)
{
    it->options.device = device;
    for (uint16_t queue = 0; queue < RINGS_QUEUES; queue++) {
        fill(it, RECEIVE, queue);
        fill(it, TRANSMIT, queue);
    }
}

/* ---- the device's writes on their way to the guest ---- */

/* Returns the ring at a bus address, and the slot; null if there is none. */
static struct ring *ring_at(struct rings *it, uint64_t bus, uint16_t *queue, uint32_t *slot)
{
    unsigned int owner = bus < bus_of(RINGS_BLOCKS) ? it->owner[bus / NIC_BLOCK_BYTES] : 0;
    if (!owner)
        return NULL;
    struct ring *ring = &it->rings[(owner - 1) / RINGS_QUEUES][(owner - 1) % RINGS_QUEUES];
    *queue = (uint16_t)((owner - 1) % RINGS_QUEUES);
    *slot = (uint32_t)((bus - bus_of(ring->place)) / NIC_DESC_BYTES);
    return ring;
}

static void filled(struct rings *it, uint64_t bus)
{
    uint32_t slot;
    uint16_t queue;
    nic_desc descriptor;
    struct ring *ring = ring_at(it, bus, &queue, &slot);
    if (!ring || nic_get_desc(it->options.device, bus_of(ring->place), slot, &descriptor) != NIC_DONE)
        return;
    uint64_t *to = dma_whole(slot_at(ring, slot), NIC_DESC_BYTES);
    if (!to) {
        refuse(it, "can't write back a descriptor", slot_at(ring, slot), queue, NIC_DESC_BYTES);
        return;
    }
    if (ring->is_legacy) {
        __atomic_store_n(&to[1], legacy_written_back(descriptor.second), RELEASE);
        return;
    }
    __atomic_store_n(&to[0], descriptor.first, __ATOMIC_RELAXED);
    __atomic_store_n(&to[1], descriptor.second, RELEASE);
}

void rings_written(struct rings *it, uint64_t bus, size_t length)
{
    uint32_t block = (uint32_t)(bus / NIC_BLOCK_BYTES);
    if (block >= RINGS_FIRST) {
        filled(it, bus);
        return;
    }
    if (block < RECEIVE_FIRST || block >= TRANSMIT_FIRST || length > sizeof it->copy)
        return;
    uint16_t queue = (uint16_t)((block - RECEIVE_FIRST) / RECEIVE_BLOCKS);
    struct ring *ring = &it->rings[RECEIVE][queue];
    struct dma_address to = ring->buffer;
    to.at += bus - bus_of(RECEIVE_FIRST + RECEIVE_BLOCKS * queue);
    if (nic_dma_read(it->options.device, bus, it->copy, length) != NIC_DONE)
        return;
    budget_spend(it->options.budget, length);
    it->counts.frames_bytes += length;
    if (!dma_write(to, it->copy, length))
        refuse(it, "can't write a received frame", to, queue, length);
}

static void head_written_back(struct rings *it, uint16_t queue, uint64_t bus)
{
    struct dma_address address = it->rings[TRANSMIT][queue].head;
    uint8_t bytes[4];
    uint32_t head = 0;
    address.at &= ~UINT64_C(3);
    uint32_t *to = dma_whole(address, sizeof bytes);
    if (nic_dma_read(it->options.device, bus, bytes, sizeof bytes) != NIC_DONE)
        return;
    for (unsigned int i = 0; i < sizeof bytes; i++)
        head |= (uint32_t)bytes[i] << 8 * i;
    if (to)
        __atomic_store_n(to, head, RELEASE);
    else
        refuse(it, "can't write back the head", address, queue, sizeof bytes);
}

/* Only DD is set in a transmit descriptor. */
void rings_written_back(struct rings *it, uint16_t queue, uint64_t bus)
{
    uint32_t slot;
    uint16_t same;
    struct ring *ring = ring_at(it, bus, &same, &slot);
    if (!ring) {
        head_written_back(it, queue, bus);
        return;
    }
    uint64_t *to = dma_whole(slot_at(ring, slot), NIC_DESC_BYTES);
    if (to)
        __atomic_fetch_or(&to[1], NIC_TXWB_DD, RELEASE);
    else
        refuse(it, "can't write back a descriptor", slot_at(ring, slot), queue, NIC_DESC_BYTES);
}

/* ---- creation and copies ---- */

struct rings *rings_new(const struct rings_options *options)
{
    struct rings *it = calloc(1, sizeof *it);
    if (!it)
        return NULL;
    it->options = *options;
    return it;
}

void rings_free(struct rings *it)
{
    free(it);
}

struct rings *rings_copy(const struct rings *it)
{
    struct rings *copy = malloc(sizeof *copy);
    if (copy)
        *copy = *it;
    return copy;
}

void rings_become(struct rings *it, struct rings *copy)
{
    const struct rings_options options = it->options;
    struct rings_counts counts = it->counts;
    uint32_t reported_off = it->reported_off, reported_zeros = it->reported_zeros;
    counts.blocks = copy->counts.blocks;
    *it = *copy;
    it->options = options;
    it->counts = counts;
    it->reported_off = reported_off;
    it->reported_zeros = reported_zeros;
    free(copy);
}

const struct rings_counts *rings_counts(const struct rings *it)
{
    return &it->counts;
}
