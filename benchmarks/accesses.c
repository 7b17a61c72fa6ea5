/* Measures register reads and writes through the C library: at all register addresses in random order, and at the tails
   of 64 queues. benchmarks/frames counts the instructions of `reads`, `writes` and `tails`. */
#define MEASURE_CLOCK CLOCK_PROCESS_CPUTIME_ID
#include "measure.h"
#include "nic82599.h"
#include <stdlib.h>

enum { SPACE = 0x20000, QUEUES = 64, ROUNDS = 4 };

static uint32_t addresses[SPACE / 4], address_count;
static nic n;

/* Opens a new controller with 32 virtual functions that have their own queues. */
static void open_device(void)
{
    if (nic_open(&n, 32, 64, 256) != NIC_DONE || nic_write32(&n, NIC_GCR_EXT, 3) != NIC_DONE)
        exit(1);
}

static void find_addresses(void)
{
    uint32_t word;
    for (uint32_t address = 0; address < SPACE; address += 4)
        if (nic_peek32(&n, address, &word) == NIC_DONE)
            addresses[address_count++] = address;
    shuffle(addresses, address_count);
}

__attribute__((noinline)) void reads(void)
{
    uint32_t word = 0;
    for (uint32_t i = 0; i < address_count; i++)
        sink ^= nic_read32(&n, addresses[i], &word) ^ word;
}

__attribute__((noinline)) void writes(void)
{
    for (uint32_t i = 0; i < address_count; i++)
        sink += nic_write32(&n, addresses[i], WORD);
}

__attribute__((noinline)) void tails(void)
{
    uint32_t word = 0;
    for (uint32_t q = 0; q < QUEUES; q++) {
        sink += nic_write32(&n, NIC_RDT(q), q);
        sink ^= nic_read32(&n, NIC_RDT(q), &word) ^ word;
        sink += nic_write32(&n, NIC_TDT(q), q);
        sink ^= nic_read32(&n, NIC_TDT(q), &word) ^ word;
    }
}

int main(void)
{
    open_device();
    find_addresses();
    MEASURE("reads", address_count, ROUNDS, reads());
    nic_close(&n);
    open_device();
    MEASURE("writes", address_count, ROUNDS, writes());
    nic_close(&n);
    open_device();
    MEASURE("tails", 4 * QUEUES, ROUNDS, tails());
    nic_close(&n);
    return 0;
}
