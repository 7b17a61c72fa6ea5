/* Memory lent by the caller when memory runs out, in turn at each allocation of nic_lend_memory and of nic_restore.
   A refused call changes nothing, and keeps no memory. */
#include <string.h>

#include "check.h"
#include "short.h"

enum { BLOCK = NIC_BLOCK_BYTES, BLOCKS = 8, AT = 2, OWN = 4, MOST = 80 };

static bool all_are(const uint8_t *bytes, uint8_t value)
{
    for (size_t k = 0; k < OWN * BLOCK; k++)
        if (bytes[k] != value)
            return false;
    return true;
}

/* Returns whether a lend was refused because an allocation failed. Afterwards everything is lent. */
static bool lend_refused(nic *n, uint8_t *host, long allowed)
{
    memset(host, 3, OWN * BLOCK);
    left = allowed;
    uint8_t status = nic_lend_memory(n, AT * BLOCK, host, OWN * BLOCK);
    left = -1;
    CHECK(all_are(host, 3));
    if (status == NIC_DONE)
        return false;
    CHECK(status == NIC_OUT_OF_MEMORY);
    for (uint32_t block = 0; block < BLOCKS; block++)
        ANSWERS(NIC_NOT_LENT, nic_take(n, block));
    ANSWERS(NIC_DONE, nic_lend_memory(n, AT * BLOCK, host, OWN * BLOCK));
    return true;
}

/* The memory is in place, whatever the restore returned. */
static void is_in_place(nic *n, uint8_t *host)
{
    uint8_t seen[BLOCK];
    host[BLOCK + 7] = 9;
    ANSWERS(NIC_DONE, nic_dma_read(n, (AT + 1) * BLOCK, seen, BLOCK));
    CHECK(memcmp(seen, host + BLOCK, BLOCK) == 0);
    ANSWERS(NIC_DONE, nic_unlend_memory(n, AT * BLOCK, OWN * BLOCK));
}

/* Restores a snapshot with a different number of blocks, which allocates everything again. Returns whether the restore
   was refused. */
static bool restore_refused(nic *n, const nic_kept *kept, uint8_t *host, long allowed)
{
    uint8_t seen;
    memset(host, 5, OWN * BLOCK);
    left = allowed;
    uint8_t status = nic_restore(n, kept);
    left = -1;
    if (status == NIC_OUT_OF_MEMORY) {
        CHECK(all_are(host, 5));
        ANSWERS(NIC_NOT_LENT, nic_dma_read(n, 0, &seen, 1));
    } else {
        ANSWERS(NIC_DONE, status);
        CHECK(all_are(host, 0));
        ANSWERS(NIC_DONE, nic_dma_read(n, 0, &seen, 1));
    }
    is_in_place(n, host);
    return status != NIC_DONE;
}

int main(void)
{
    uint8_t *host = malloc(OWN * BLOCK);
    unsigned lends = 0, restores = 0;
    CHECK(host);
    for (long allowed = 0; allowed < MOST; allowed++) {
        nic n, other;
        nic_kept kept = {NULL};
        ANSWERS(NIC_DONE, nic_open(&n, 0, 16, BLOCKS));
        ANSWERS(NIC_DONE, nic_open(&other, 2, 16, BLOCKS + 4));
        ANSWERS(NIC_DONE, nic_lend_all(&other));
        lends += lend_refused(&n, host, allowed);
        ANSWERS(NIC_DONE, nic_snapshot(&other, &kept));
        restores += restore_refused(&n, &kept, host, allowed);
        nic_drop_snapshot(&kept);
        nic_close(&other);
        nic_close(&n);
    }
    CHECK(lends >= 3 && lends < MOST && restores >= 12 && restores < MOST);
    printf("%u lends and %u restores refused\n", lends, restores);
    free(host);
    return 0;
}
