/* Measures a C library's calls in CPU time, which other load on the machine hardly affects: register accesses at all
   addresses and at tails, frames received and sent, snapshots and restores, and the hash.
   benchmarks/editions links this with several libraries and runs the programs alternately. */
#define MEASURE_CLOCK CLOCK_PROCESS_CPUTIME_ID
#include "measure.h"
#include "nic82599.h"
#include <stdlib.h>

enum { SLOTS = 64, BLOCK = 2048, TX_RING = 1024, BUFFERS = 2 };

static uint32_t addresses[] = {
#define ADDRESS(address) address,
#include "addresses.inc"
#undef ADDRESS
};
enum { COUNT = sizeof addresses / sizeof *addresses };

static nic n;

static void must(int fact, const char *what)
{
    if (!fact) {
        fprintf(stderr, "edition_calls: check failed: %s\n", what);
        exit(1);
    }
}

/* --- accesses --- */

static void open_with_functions(void)
{
    must(nic_open(&n, 32, 64, 256) == NIC_DONE && nic_write32(&n, NIC_GCR_EXT, 3) == NIC_DONE, "nic_open");
}

static void accesses(void)
{
    uint32_t sum = 0, word = 0;
    shuffle(addresses, COUNT);
    open_with_functions();
    MEASURE("read", COUNT, 400, for (int i = 0; i < COUNT; i++) sum ^= nic_read32(&n, addresses[i], &word) ^ word);
    nic_close(&n);
    open_with_functions();
    MEASURE("write", COUNT, 400, for (int i = 0; i < COUNT; i++) sum += nic_write32(&n, addresses[i], WORD));
    nic_close(&n);
    open_with_functions();
    MEASURE("tails", 256, 10000, for (uint32_t q = 0; q < 64; q++) {
        sum += nic_write32(&n, NIC_RDT(q), q);
        sum ^= nic_read32(&n, NIC_RDT(q), &word) ^ word;
        sum += nic_write32(&n, NIC_TDT(q), q);
        sum ^= nic_read32(&n, NIC_TDT(q), &word) ^ word;
    });
    nic_close(&n);
    sink = sum;
}

/* --- frames --- */

/* Queue 0 receives into the blocks starting at BUFFERS, and sends from block 1. Its rings are in block 0. */
static void open_with_rings(void)
{
    nic_outcome outcome;
    must(nic_open(&n, 0, 64, BUFFERS + SLOTS) == NIC_DONE && nic_lend_all(&n) == NIC_DONE, "nic_open");
    nic_write32(&n, NIC_RXCTRL, 1);
    nic_write32(&n, NIC_FCTRL, 0x700);
    nic_write32(&n, NIC_DMATXCTL, 1);
    nic_write32(&n, NIC_RDLEN(0), SLOTS * NIC_DESC_BYTES);
    nic_write32(&n, NIC_SRRCTL(0), 0x02000002);
    nic_write32(&n, NIC_RXDCTL(0), NIC_RXDCTL_ENABLE);
    nic_write32(&n, NIC_TDBAL(0), TX_RING);
    nic_write32(&n, NIC_TDLEN(0), SLOTS * NIC_DESC_BYTES);
    nic_write32(&n, NIC_TXDCTL(0), NIC_TXDCTL_ENABLE);
    must(nic_queue_step(&n, false, 0, &outcome) == NIC_DONE, "the receive side is on");
    must(nic_queue_step(&n, true, 0, &outcome) == NIC_DONE, "the transmit side is on");
}

static void receive(uint32_t round, size_t length)
{
    static uint8_t frame[1600] = {2, 0, 0, 0, 0, 1, 2, 0, 0, 0, 0, 2, 8, 0, 0x45}, room[1600];
    uint32_t slot = round % SLOTS;
    uint64_t buffer = BLOCK * (uint64_t)(BUFFERS + slot);
    nic_outcome outcome;
    nic_desc desc;
    nic_put_desc(&n, 0, slot, nic_rx_desc(buffer));
    nic_write32(&n, NIC_RDT(0), (slot + 1) % SLOTS);
    frame[20] = (uint8_t)round;
    must(nic_arrive(&n, frame, length, &outcome) == NIC_DONE && nic_rx_step(&n, &outcome) == NIC_WROTE,
         "a frame is received");
    must(nic_get_desc(&n, 0, slot, &desc) == NIC_DONE && nic_rx_is_done(desc), "its descriptor is done");
    must(nic_dma_read(&n, buffer, room, length) == NIC_DONE && room[20] == frame[20], "its bytes are in the buffer");
}

static void send(uint32_t round, size_t length)
{
    static uint8_t frame[1600], room[1600];
    uint32_t slot = round % SLOTS;
    nic_outcome outcome;
    frame[20] = (uint8_t)round;
    nic_dma_write(&n, BLOCK, frame, length);
    nic_put_desc(&n, TX_RING, slot, nic_tx_desc(BLOCK, (uint16_t)length, (uint32_t)length, NIC_TXD_EOP | NIC_TXD_RS));
    nic_write32(&n, NIC_TDT(0), (slot + 1) % SLOTS);
    must(nic_tx_step(&n, 0, &outcome) == NIC_SENT, "a frame is sent");
    must(nic_collect(&n, room, sizeof room, &outcome) == NIC_FRAME && room[20] == frame[20], "its bytes are collected");
}

static void frames(void)
{
    open_with_rings();
    MEASURE("received60", 1, 200000, receive(round, 60));
    MEASURE("received1514", 1, 100000, receive(round, 1514));
    MEASURE("sent60", 1, 200000, send(round, 60));
    MEASURE("sent1514", 1, 100000, send(round, 1514));
    nic_close(&n);
}

/* --- snapshots, and the hash --- */

/* Measures snapshots of a controller with `lent` of its 256 blocks lent, no two of them with the same contents. */
static void snapshots(const char *kept_name, const char *restored_name, uint32_t lent, unsigned rounds)
{
    uint8_t bytes[60] = {0};
    nic_kept kept, other;
    open_with_functions();
    for (uint32_t block = 0; block < lent; block++) {
        bytes[0] = (uint8_t)block;
        must(nic_lend(&n, block) == NIC_DONE, "nic_lend");
        must(nic_dma_write(&n, BLOCK * (uint64_t)block, bytes, sizeof bytes) == NIC_DONE, "nic_dma_write");
    }
    must(nic_snapshot(&n, &kept) == NIC_DONE, "nic_snapshot");
    MEASURE(kept_name, 1, rounds, {
        must(nic_snapshot(&n, &other) == NIC_DONE, "nic_snapshot");
        nic_drop_snapshot(&other);
    });
    MEASURE(restored_name, 1, rounds, {
        bytes[0] = (uint8_t)~round;
        nic_write32(&n, NIC_RDT(0), 1);
        nic_dma_write(&n, 0, bytes, sizeof bytes);
        must(nic_restore(&n, &kept) == NIC_DONE, "nic_restore");
    });
    nic_drop_snapshot(&kept);
    nic_close(&n);
}

static void hashes(const char *name, size_t length)
{
    uint8_t key[40] = {1, 2, 3}, input[36] = {5, 6, 7};
    uint32_t sum = 0, word = 0;
    MEASURE(name, 1, 100000, {
        input[0] = (uint8_t)round;
        sum ^= nic_hash(key, input, length, &word) ^ word;
    });
    sink = sum;
}

int main(void)
{
    accesses();
    frames();
    snapshots("kept2", "restored2", 2, 10000);
    snapshots("kept128", "restored128", 128, 4000);
    hashes("hash12", 12);
    hashes("hash36", 36);
    return 0;
}
