/* Measures the C library's calls: register reads and writes at all addresses in random order, and at the tails of 64
   queues; snapshots and restores, both with the C library's default allocator settings and with freed memory kept in
   the process; taking the lowest block and lending it again. It also prints whether the library is proved (1 or 0), in
   place of nanoseconds. benchmarks/run prints the table. */
#include "measure.h"
#include "nic82599.h"
#include "same_table.h"
#include <stdlib.h>
#ifdef __GLIBC__
#include <malloc.h>
#endif

/* Opens a new card with 32 virtual functions that have their own queues, as each measurement of the device does. */
static int opened(nic *n)
{
    return nic_open(n, 32, 64, 256) == NIC_DONE && nic_write32(n, NIC_GCR_EXT, 3) == NIC_DONE;
}

/* Keeps freed memory in the process, to avoid requesting its pages from the system again and again. */
static void keep_pages(void)
{
#ifdef __GLIBC__
    mallopt(M_TRIM_THRESHOLD, 64 << 20);
#endif
}

/* Measures a snapshot of a card with 256 blocks, `lent` of them lent, no two with the same contents. Then measures a
   restore after a register write and a 60-byte memory write. */
static int snapshots(const char *kept_name, const char *restored_name, uint32_t lent)
{
    static uint8_t bytes[60];
    nic n;
    nic_kept kept, other;
    if (!opened(&n))
        return 0;
    for (uint32_t block = 0; block < lent; block++) {
        bytes[0] = (uint8_t)block;
        if (nic_lend(&n, block) != NIC_DONE || nic_dma_write(&n, 2048 * block, bytes, sizeof bytes) != NIC_DONE)
            return 0;
    }
    if (nic_snapshot(&n, &kept) != NIC_DONE)
        return 0;
    MEASURE(kept_name, 1, 10000, {
        if (nic_snapshot(&n, &other) != NIC_DONE)
            return 0;
        nic_drop_snapshot(&other);
    });
    MEASURE(restored_name, 1, 10000, {
        bytes[0] = (uint8_t)~round;
        if (nic_write32(&n, NIC_RDT(0), 1) != NIC_DONE || nic_dma_write(&n, 0, bytes, sizeof bytes) != NIC_DONE ||
            nic_restore(&n, &kept) != NIC_DONE)
            return 0;
    });
    nic_drop_snapshot(&kept);
    nic_close(&n);
    return 1;
}

/* Takes block 0 and lends it again, while the only other lent block is 65,535. */
static int lowest(void)
{
    nic n;
    if (nic_open(&n, 0, 64, 65536) != NIC_DONE || nic_lend(&n, 65535) != NIC_DONE || nic_lend(&n, 0) != NIC_DONE)
        return 0;
    MEASURE("lowest", 1, 10000, {
        if (nic_take(&n, 0) != NIC_DONE || nic_lend(&n, 0) != NIC_DONE)
            return 0;
    });
    nic_close(&n);
    return 1;
}

int main(void)
{
    static uint32_t order[ENTRIES];
    uint32_t sum = 0, word = 0;
    nic n;
    for (uint32_t i = 0; i < ENTRIES; i++)
        order[i] = table[i].address;
    shuffle(order, ENTRIES);
    if (!opened(&n))
        return 1;
    MEASURE("read", ENTRIES, 2000, for (int i = 0; i < ENTRIES; i++) sum ^= nic_read32(&n, order[i], &word) ^ word);
    nic_close(&n);
    if (!opened(&n))
        return 1;
    MEASURE("write", ENTRIES, 2000, for (int i = 0; i < ENTRIES; i++) sum += nic_write32(&n, order[i], WORD));
    nic_close(&n);
    if (!opened(&n))
        return 1;
    MEASURE("tails", 256, 10000, for (uint32_t q = 0; q < 64; q++) {
        sum += nic_write32(&n, NIC_RDT(q), q);
        sum ^= nic_read32(&n, NIC_RDT(q), &word) ^ word;
        sum += nic_write32(&n, NIC_TDT(q), q);
        sum ^= nic_read32(&n, NIC_TDT(q), &word) ^ word;
    });
    nic_close(&n);
    sink = sum;
    printf("proved 1 %d\n", nic_is_proved());
    if (!lowest() || !snapshots("kept2", "restored2", 2) || !snapshots("kept128", "restored128", 128))
        return 1;
    keep_pages();
    return !snapshots("tuned_kept2", "tuned_restored2", 2) || !snapshots("tuned_kept128", "tuned_restored128", 128);
}
