/* A minimal device for frames.c, with the same calls, replies and descriptors, but only the registers that frames.c
   uses. It has no pools, virtual functions, IPv6, VLANs, messages, resets or snapshots, no buffers that span blocks,
   and one fault for each ring instead of eight. It is a baseline for the library's frames, not a model of a card. */
#include "nic82599.h"
#include <stdlib.h>
#include <string.h>

enum { QUEUE_COUNT = 128, LIST = 512, BLOCK = 2048, HALF_BYTES = 2 * 40, FRAME_LIMIT = 1518 };
#define MINE __attribute__((noinline))

struct side {
    uint64_t base;
    uint32_t slots, head, tail, control, asked;
    bool on;
};

struct held {
    uint8_t *bytes;
    uint64_t first;
    uint32_t length, offset;
    uint16_t queue;
};

static struct side receivers[QUEUE_COUNT], senders[QUEUE_COUNT];
static struct held waiting[LIST], out[LIST], staged[QUEUE_COUNT];
static uint32_t waits_from, waits, outs_from, outs, causes, words[0x20000 / 4], windows[HALF_BYTES][16];
static uint8_t *blocks[65536];
static bool link_up;

static uint32_t word_at(uint32_t address)
{
    return words[address / 4];
}

static inline void count(uint32_t address)
{
    words[address / 4] += words[address / 4] != UINT32_MAX;
}

/* Returns the bytes at a bus address, or null if they aren't lent or span blocks. */
static inline uint8_t *bytes_at(uint64_t bus, size_t length)
{
    uint64_t block = bus / BLOCK, offset = bus % BLOCK;
    return block < 65536 && blocks[block] && length <= BLOCK - offset ? blocks[block] + offset : NULL;
}

static uint32_t after(const struct side *it)
{
    return it->head + 1 == it->slots ? 0 : it->head + 1;
}

static inline void raise_cause(uint32_t queue, uint32_t side)
{
    uint32_t entry = word_at(NIC_IVAR(queue / 2)) >> (16 * (queue % 2) + 8 * side);
    if (entry & 0x80)
        causes |= UINT32_C(1) << (entry & 0x1f);
}

static uint8_t fault(struct side *it, uint32_t queue, nic_outcome *outcome)
{
    it->on = false;
    causes |= UINT32_C(1) << 18;
    outcome->queue = (uint16_t)queue;
    return outcome->status = NIC_FAULT;
}

static uint8_t dropped(uint8_t why, nic_outcome *outcome)
{
    outcome->why = why;
    return outcome->status = NIC_DROPPED;
}

static bool is_for_us(const uint8_t *frame)
{
    uint32_t low, filters = word_at(NIC_FCTRL);
    uint16_t high;
    memcpy(&low, frame, 4);
    memcpy(&high, frame + 4, 2);
    if (low == UINT32_MAX && high == UINT16_MAX)
        return filters & NIC_FCTRL_BAM;
    if (filters & (frame[0] & 1 ? NIC_FCTRL_MPE : NIC_FCTRL_UPE))
        return true;
    for (uint32_t k = 0; k < 128; k++)
        if (word_at(NIC_RAL(k)) == low && (word_at(NIC_RAH(k)) & 0x8000ffff) == (0x80000000 | high))
            return true;
    return false;
}

/* Returns the first half of a frame's descriptors. Stores the frame's queue, which depends on the IPv4 addresses and
   ports. */
static uint64_t sorted(const uint8_t *frame, size_t length, uint16_t *queue)
{
    const uint8_t *packet = frame + 14;
    uint32_t header = 4 * (packet[0] & 15u), modes = word_at(NIC_MRQC), hash = 0, inputs = 0, type = 0;
    bool ipv4 = frame[12] == 8 && frame[13] == 0 && packet[0] >> 4 == 4 && header >= 20 && 14 + header <= length;
    bool ports = ipv4 && !((packet[6] & 0x3f) | packet[7]) && 14 + header + 4 <= length;
    bool tcp = ports && packet[9] == 6, udp = ports && packet[9] == 17;
    uint8_t input[12];
    if (ipv4 && modes & NIC_MRQC_IPV4) {
        type = 2;
        memcpy(input, packet + 12, inputs = 8);
    }
    if ((tcp && modes & NIC_MRQC_TCPIPV4) || (udp && modes & NIC_MRQC_UDPIPV4)) {
        type = tcp ? 1 : 7;
        memcpy(input, packet + 12, 8);
        memcpy(input + 8, packet + header, 4);
        inputs = 12;
    }
    for (uint32_t k = 0; k < inputs; k++)
        hash ^= windows[2 * k][input[k] >> 4] ^ windows[2 * k + 1][input[k] & 15];
    *queue = type ? word_at(NIC_RETA(hash % 128 / 4)) >> (8 * (hash % 4)) & 15 : 0;
    if (!(word_at(NIC_RXCSUM) & NIC_RXCSUM_PCSD))
        hash = 0;
    return (uint64_t)hash << 32 | type | (uint32_t)ipv4 << 4 | (uint32_t)tcp << 8 | (uint32_t)udp << 9;
}

MINE uint8_t nic_arrive(nic *n, const uint8_t *frame, size_t length, nic_outcome *outcome)
{
    (void)n;
    *outcome = (nic_outcome){0};
    if (!link_up)
        return dropped(NIC_WHY_LINK_DOWN, outcome);
    if (!(word_at(NIC_RXCTRL) & NIC_RXCTRL_RXEN))
        return dropped(NIC_WHY_OFF, outcome);
    if (length < 60) {
        count(NIC_RUC);
        return dropped(NIC_WHY_SHORT, outcome);
    }
    if (length > FRAME_LIMIT) {
        count(NIC_ROC);
        return dropped(NIC_WHY_LONG, outcome);
    }
    if (!is_for_us(frame))
        return dropped(NIC_WHY_FILTER, outcome);
    if (waits == LIST) {
        count(NIC_MPC);
        return dropped(NIC_WHY_FULL, outcome);
    }
    uint8_t *copy = malloc(length);
    if (!copy)
        return outcome->status = NIC_OUT_OF_MEMORY;
    memcpy(copy, frame, length);
    struct held *it = &waiting[(waits_from + waits++) % LIST];
    *it = (struct held){.bytes = copy, .length = (uint32_t)length};
    it->first = sorted(frame, length, &it->queue);
    count(NIC_GPRC);
    return outcome->status = NIC_DONE;
}

static void free_first(void)
{
    free(waiting[waits_from].bytes);
    waits_from = (waits_from + 1) % LIST;
    waits--;
}

/* Completes one buffer of the first frame: advances the head and, if this is the frame's last buffer, counts and frees
   the frame. */
static inline void end_piece(struct side *it, struct held *frame, uint32_t len, bool end)
{
    it->head = after(it);
    frame->offset += len;
    if (end) {
        count(NIC_QPRC(word_at(NIC_RQSMR(frame->queue / 4)) >> (8 * (frame->queue % 4)) & 15));
        raise_cause(frame->queue, 0);
        free_first();
    }
}

/* Writes the next bytes of the first frame to the buffer of the slot at a ring's head. */
static inline uint8_t write_piece(struct side *it, struct held *frame, nic_outcome *outcome)
{
    uint64_t at = it->base + 16 * (uint64_t)it->head, first, second;
    uint8_t *descriptor = bytes_at(at, 16);
    uint32_t size = (it->control & 0x1f) * 1024, left = frame->length - frame->offset, len = left < size ? left : size;
    if (!descriptor || !size || (it->control >> 25 & 7) != 1)
        return fault(it, frame->queue, outcome);
    memcpy(&first, descriptor, 8);
    first &= ~UINT64_C(1);
    uint8_t *to = bytes_at(first, len);
    if (!to)
        return fault(it, frame->queue, outcome);
    bool end = len == left;
    memcpy(to, frame->bytes + frame->offset, len);
    second = 1 | (uint32_t)end << 1 | (uint64_t)len << 32;
    memcpy(descriptor, &frame->first, 8);
    memcpy(descriptor + 8, &second, 8);
    *outcome =
        (nic_outcome){.desc = at, .at = first, .len = len, .queue = frame->queue, .end = end, .status = NIC_WROTE};
    outcome->slot = (uint16_t)it->head;
    end_piece(it, frame, len, end);
    return NIC_WROTE;
}

MINE uint8_t nic_rx_step(nic *n, nic_outcome *outcome)
{
    (void)n;
    *outcome = (nic_outcome){0};
    if (!waits || word_at(NIC_CTRL) & 4)
        return outcome->status = NIC_IDLE;
    struct held *frame = &waiting[waits_from];
    struct side *it = &receivers[frame->queue];
    if (!it->on) {
        free_first();
        return dropped(NIC_WHY_QUEUE_OFF, outcome);
    }
    bool inside = it->head < it->slots && it->tail < it->slots;
    if (inside && it->head == it->tail)
        return outcome->status = NIC_IDLE;
    return inside ? write_piece(it, frame, outcome) : fault(it, frame->queue, outcome);
}

/* Stages bytes of a queue's frame, and pads a short frame when it ends. Returns false if memory runs out. */
static inline bool stage(struct held *frame, const uint8_t *from, uint32_t len, bool end)
{
    uint32_t had = frame->length;
    bool pads = end && word_at(NIC_HLREG0) & NIC_HLREG0_TXPADEN && had + len < 60;
    uint32_t all = pads ? 60 : had + len;
    uint8_t *bytes = had ? realloc(frame->bytes, all) : malloc(all);
    if (!bytes)
        return false;
    memcpy(bytes + had, from, len);
    if (pads)
        memset(bytes + had + len, 0, all - had - len);
    frame->bytes = bytes;
    frame->length = all;
    return true;
}

/* Sends a queue's complete frame. */
static inline uint8_t send_staged(struct held *frame, uint16_t queue, nic_outcome *outcome)
{
    if (outs == LIST)
        return outcome->status = NIC_OUT_OF_MEMORY;
    count(NIC_GPTC);
    count(NIC_QPTC(word_at(NIC_TQSM(queue / 4)) >> (8 * (queue % 4)) & 15));
    outcome->len = frame->length;
    frame->queue = queue;
    out[(outs_from + outs++) % LIST] = *frame;
    *frame = (struct held){0};
    return outcome->status = NIC_SENT;
}

/* Fetches the descriptor at a ring's head. */
static inline uint8_t fetch(struct side *it, uint16_t queue, nic_outcome *outcome)
{
    uint64_t at = it->base + 16 * (uint64_t)it->head, first, second;
    uint8_t *descriptor = bytes_at(at, 16);
    if (!descriptor)
        return fault(it, queue, outcome);
    memcpy(&first, descriptor, 8);
    memcpy(&second, descriptor + 8, 8);
    struct held *frame = &staged[queue];
    uint32_t kind = second >> 20 & 15, len = second & 0xffff;
    bool end = second >> 24 & 1;
    *outcome = (nic_outcome){.queue = queue, .slot = (uint16_t)it->head, .status = NIC_ADVANCED};
    if (!(second >> 29 & 1) || (kind != 2 && kind != 3))
        return fault(it, queue, outcome);
    if (kind == 3) {
        uint8_t *from = bytes_at(first, len);
        if (second >> 30 & 3 || second >> 40 & 0x3f || frame->length + len > FRAME_LIMIT || !from)
            return fault(it, queue, outcome);
        if (!stage(frame, from, len, end))
            return outcome->status = NIC_OUT_OF_MEMORY;
    }
    if (kind == 3 && second >> 27 & 1) {
        second |= UINT64_C(1) << 32;
        memcpy(descriptor + 8, &second, 8);
        outcome->back = 1;
        outcome->at = at;
        raise_cause(queue, 1);
    }
    it->head = after(it);
    return kind == 3 && end ? send_staged(frame, queue, outcome) : NIC_ADVANCED;
}

MINE uint8_t nic_tx_step(nic *n, uint16_t queue, nic_outcome *outcome)
{
    (void)n;
    *outcome = (nic_outcome){0};
    if (queue >= QUEUE_COUNT)
        return outcome->status = NIC_NO_QUEUE;
    struct side *it = &senders[queue];
    bool inside = it->head < it->slots && it->tail < it->slots;
    bool off = word_at(NIC_CTRL) & 4 || !link_up || !(word_at(NIC_DMATXCTL) & NIC_DMATXCTL_TE) || !it->on;
    if (off || (inside && it->head == it->tail))
        return outcome->status = NIC_IDLE;
    return inside ? fetch(it, queue, outcome) : fault(it, queue, outcome);
}

MINE uint8_t nic_collect(nic *n, uint8_t *room, size_t length, nic_outcome *outcome)
{
    (void)n;
    *outcome = (nic_outcome){0};
    struct held *it = &out[outs_from];
    if (!outs)
        return outcome->status = NIC_IDLE;
    if (it->length > length)
        return outcome->status = NIC_NO_ROOM;
    memcpy(room, it->bytes, it->length);
    outcome->queue = it->queue;
    outcome->len = it->length;
    free(it->bytes);
    outs_from = (outs_from + 1) % LIST;
    outs--;
    return outcome->status = NIC_FRAME;
}

/* --- registers: rings by offset, all others by address --- */

static void write_ring(struct side *it, uint32_t offset, uint32_t word)
{
    switch (offset) {
    case 0x00: it->base = (it->base & ~UINT64_C(0xffffffff)) | (word & ~UINT32_C(127)); break;
    case 0x04: it->base = (uint32_t)it->base | (uint64_t)word << 32; break;
    case 0x08: it->slots = (word & 0xfff80) / 16; break;
    case 0x10: it->head = word & 0xffff; break;
    case 0x14: it->control = word; break;
    case 0x18: it->tail = word & 0xffff; break;
    case 0x28: it->asked = word; break;
    default: break;
    }
}

MINE uint8_t nic_write32(nic *n, uint32_t address, uint32_t word)
{
    (void)n;
    if (address % 4 || address >= sizeof words)
        return NIC_STRAY;
    if (address >= 0x1000 && address < 0x2000)
        write_ring(&receivers[(address - 0x1000) / 0x40], address % 0x40, word);
    else if (address >= 0x6000 && address < 0x8000)
        write_ring(&senders[(address - 0x6000) / 0x40], address % 0x40, word);
    else
        words[address / 4] = word;
    return NIC_DONE;
}

/* Returns the 32 bits of the key that start at this bit. */
static uint32_t key_from(uint32_t bit)
{
    uint32_t window = 0;
    for (uint32_t k = bit; k < bit + 32; k++) {
        uint32_t byte = k / 8, of = byte < 40 ? word_at(NIC_RSSRK(byte / 4)) >> (8 * (byte % 4)) : 0;
        window = window << 1 | (of >> (7 - k % 8) & 1);
    }
    return window;
}

uint8_t nic_settle(nic *n, uint16_t queues, nic_outcome *outcome, size_t length, size_t *made)
{
    (void)n, (void)outcome, (void)length;
    for (uint16_t q = 0; q < queues; q++) {
        receivers[q].on = receivers[q].asked >> 25 & 1;
        senders[q].on = senders[q].asked >> 25 & 1;
    }
    for (uint32_t half = 0; half < HALF_BYTES; half++)
        for (uint32_t bits = 0; bits < 16; bits++) {
            windows[half][bits] = 0;
            for (uint32_t k = 0; k < 4; k++)
                windows[half][bits] ^= bits >> (3 - k) & 1 ? key_from(4 * half + k) : 0;
        }
    *made = 0;
    return NIC_DONE;
}

uint8_t nic_lend_memory(nic *n, uint64_t bus, void *memory, size_t bytes)
{
    (void)n;
    for (size_t at = 0; at < bytes; at += BLOCK)
        blocks[(bus + at) / BLOCK] = (uint8_t *)memory + at;
    return NIC_DONE;
}

uint8_t nic_new(uint8_t vfs, uint16_t fifo, uint32_t count_of_blocks, void **device)
{
    (void)vfs, (void)fifo, (void)count_of_blocks;
    link_up = true;
    *device = words;
    return NIC_DONE;
}

void nic_free(nic n)
{
    (void)n;
}
