/* Passes frames through a device, 32 at a time, in the program's own memory. RSS selects one of four queues for each
   frame, which is received, read, sent again from the same buffer, and collected. benchmarks/frames links this with
   each library that it measures, and with least.c, which has the same calls.

   usage: frames LENGTH FRAMES */
#define MEASURE_CLOCK CLOCK_PROCESS_CPUTIME_ID
#include "measure.h"
#include "nic82599.h"
#include <stdlib.h>
#include <string.h>

enum { QUEUES = 4, SLOTS = 128, BUFFER = 2048, BURST = 32, FLOWS = 64, LONGEST = 1514, RING = SLOTS * NIC_DESC_BYTES };
enum { BUFFERS = QUEUES * 2 * RING, MEMORY = BUFFERS + QUEUES * SLOTS * BUFFER };

static _Alignas(4096) uint8_t memory[MEMORY];
static uint8_t frames[FLOWS][LONGEST], room[LONGEST];
static nic n;

/* A queue: the next receive slot to check, the tail, and the next transmit slot. */
static struct queue {
    uint32_t next, tail, out;
} queues[QUEUES];

static void must(int fact, const char *what)
{
    if (!fact) {
        fprintf(stderr, "frames: %s\n", what);
        exit(1);
    }
}

static uint64_t receive_ring(uint32_t q)
{
    return (uint64_t)q * 2 * RING;
}

static uint64_t transmit_ring(uint32_t q)
{
    return receive_ring(q) + RING;
}

static uint64_t buffer(uint32_t q, uint32_t slot)
{
    return BUFFERS + ((uint64_t)q * SLOTS + slot) * BUFFER;
}

static volatile nic_desc *slot_of(uint64_t ring, uint32_t slot)
{
    return (volatile nic_desc *)(memory + ring) + slot;
}

static void put(uint64_t ring, uint32_t slot, nic_desc it)
{
    volatile nic_desc *at = slot_of(ring, slot);
    at->first = it.first;
    at->second = it.second;
}

static void write_register(uint32_t address, uint32_t word)
{
    must(nic_write32(&n, address, word) == NIC_DONE, "nic_write32");
}

/* Builds the frames: TCP over IPv4 from a different address and port for each flow, to 02:00:00:00:00:01. */
static void make_frames(void)
{
    static const uint8_t head[] = {2, 0, 0,  0, 0, 1, 2,  0, 0, 0,  0,  9, 8, 0,  0x45, 0, 5, 0xdc, 0, 0, 0, 0, 64,  6,
                                   0, 0, 10, 0, 0, 1, 10, 0, 0, 99, 18, 0, 0, 80, 0,    0, 0, 0,    0, 0, 0, 0, 0x50};
    for (int flow = 0; flow < FLOWS; flow++) {
        for (int at = 0; at < LONGEST; at++)
            frames[flow][at] = (uint8_t)(at * 31 + flow);
        memcpy(frames[flow], head, sizeof head);
        frames[flow][29] = (uint8_t)(1 + flow);
        frames[flow][35] = (uint8_t)(flow * 7);
    }
}

static void open_device(void)
{
    static nic_outcome outcome[4 * QUEUES];
    size_t count;
    must(nic_open(&n, 0, 512, MEMORY / BUFFER) == NIC_DONE, "nic_open");
    must(nic_lend_memory(&n, 0, memory, MEMORY) == NIC_DONE, "nic_lend_memory");
    write_register(NIC_RAL(0), 2);
    write_register(NIC_RAH(0), 0x80000100);
    write_register(NIC_FCTRL, NIC_FCTRL_BAM);
    for (uint32_t word = 0; word < 10; word++)
        write_register(NIC_RSSRK(word), 0x6d5a56da + 0x01234567 * word);
    for (uint32_t word = 0; word < 32; word++)
        write_register(NIC_RETA(word), 0x03020100);
    write_register(NIC_RXCSUM, NIC_RXCSUM_PCSD);
    write_register(NIC_MRQC, NIC_MRQC_MRQE_IS(1) | NIC_MRQC_TCPIPV4 | NIC_MRQC_IPV4);
    write_register(NIC_RXCTRL, NIC_RXCTRL_RXEN);
    write_register(NIC_DMATXCTL, NIC_DMATXCTL_TE);
    for (uint32_t q = 0; q < QUEUES; q++) {
        write_register(NIC_RDBAL(q), (uint32_t)receive_ring(q));
        write_register(NIC_RDLEN(q), RING);
        write_register(NIC_SRRCTL(q), NIC_SRRCTL_DESCTYPE_IS(1) | NIC_SRRCTL_BSIZEPACKET_IS(2));
        write_register(NIC_RXDCTL(q), NIC_RXDCTL_ENABLE);
        write_register(NIC_TDBAL(q), (uint32_t)transmit_ring(q));
        write_register(NIC_TDLEN(q), RING);
        write_register(NIC_TXDCTL(q), NIC_TXDCTL_ENABLE);
    }
    must(nic_settle(&n, QUEUES, outcome, sizeof outcome / sizeof *outcome, &count) == NIC_DONE, "nic_settle");
    for (uint32_t q = 0; q < QUEUES; q++) {
        for (uint32_t slot = 0; slot < SLOTS; slot++)
            put(receive_ring(q), slot, nic_rx_desc(buffer(q, slot)));
        queues[q] = (struct queue){.tail = SLOTS - 1};
        write_register(NIC_RDT(q), SLOTS - 1);
    }
}

/* Reads the frames that a queue received, and posts each for sending from its buffer. Returns their number. */
static __attribute__((noinline)) uint32_t receive(uint32_t q)
{
    struct queue *it = &queues[q];
    uint32_t frame_count = 0;
    for (;; frame_count++) {
        nic_desc got = *slot_of(receive_ring(q), it->next);
        if (!nic_rx_is_done(got))
            return frame_count;
        uint64_t at = buffer(q, it->next);
        uint16_t length = nic_rx_length(got);
        sink += memory[at + 5] + memory[at + 29];
        put(transmit_ring(q), it->out, nic_tx_desc(at, length, length, NIC_TXD_EOP | NIC_TXD_IFCS | NIC_TXD_RS));
        it->out = (it->out + 1) % SLOTS;
        it->next = (it->next + 1) % SLOTS;
    }
}

/* Sends the posted frames, and collects them. */
static __attribute__((noinline)) void send_all(uint32_t q)
{
    nic_outcome outcome;
    write_register(NIC_TDT(q), queues[q].out);
    while (nic_tx_step(&n, (uint16_t)q, &outcome) == NIC_SENT) {
        must(nic_collect(&n, room, sizeof room, &outcome) == NIC_FRAME, "nic_collect");
        sink += (uint32_t)outcome.len;
    }
}

/* Returns `count` slots to the receive ring. */
static __attribute__((noinline)) void refill(uint32_t q, uint32_t count)
{
    struct queue *it = &queues[q];
    for (; count > 0; count--) {
        put(receive_ring(q), it->tail, nic_rx_desc(buffer(q, it->tail)));
        it->tail = (it->tail + 1) % SLOTS;
    }
    write_register(NIC_RDT(q), it->tail);
}

/* The measured code: receives and sends `count` frames of this length. */
__attribute__((noinline)) void pass(size_t length, uint32_t count)
{
    nic_outcome outcome;
    for (uint32_t done = 0, flow = 0; done < count;) {
        for (int k = 0; k < BURST; k++, flow++)
            must(nic_arrive(&n, frames[flow % FLOWS], length, &outcome) == NIC_DONE, "nic_arrive");
        while (nic_rx_step(&n, &outcome) == NIC_WROTE)
            ;
        for (uint32_t q = 0; q < QUEUES; q++) {
            uint32_t received = receive(q);
            if (received) {
                send_all(q);
                refill(q, received);
            }
            done += received;
        }
    }
}

int main(int argc, char **argv)
{
    must(argc == 3, "usage: frames LENGTH FRAMES");
    size_t length = strtoul(argv[1], NULL, 10);
    uint32_t count = (uint32_t)strtoul(argv[2], NULL, 10);
    must(length >= 60 && length <= LONGEST && count > 0 && count % BURST == 0,
         "LENGTH is 60 to 1514, FRAMES a multiple of 32");
    make_frames();
    open_device();
    MEASURE("frame", count, 1, pass(length, count));
    for (uint32_t q = 0; q < QUEUES; q++)
        must(queues[q].next > 0 || count > BURST * SLOTS, "a queue had no frame");
    nic_close(&n);
    return 0;
}
