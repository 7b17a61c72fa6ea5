/* Snapshots: a restored controller returns the same for the same calls, even if its state was a different one before. A
   snapshot can be restored any number of times. A restore that finds no memory changes nothing. */
#define _XOPEN_SOURCE 700
#include <string.h>
#include <sys/resource.h>

#include "check.h"

enum { RX = 0, TX = 1, RING = 0, TX_RING = 0x1000, TX_BUFFER = 0x1800, BLOCKS = 6, CALLS = 4000, MANY = 32768 };

static const uint32_t addresses[] = {
#define ADDRESS(address) address,
#include "addresses.inc"
#undef ADDRESS
};

/* --- a controller's answers, as one number --- */

static uint64_t mixed(uint64_t sum, uint64_t number)
{
    return (sum ^ number) * UINT64_C(0x100000001B3) ^ sum >> 29;
}

static uint64_t mixed_bytes(uint64_t sum, const uint8_t *bytes, size_t length)
{
    for (size_t k = 0; k < length; k++)
        sum = mixed(sum, bytes[k]);
    return sum;
}

static uint64_t mixed_outcome(uint64_t sum, const nic_outcome *t)
{
    const uint64_t fields[] = {t->desc, t->at,     t->len,  t->bus, t->queue, t->slot, t->group,
                               t->of,   t->status, t->step, t->end, t->back,  t->why,  t->vector};
    for (size_t k = 0; k < sizeof fields / sizeof *fields; k++)
        sum = mixed(sum, fields[k]);
    return sum;
}

/* Digests all that is visible without side effects: each register, the lent memory, and the sent frame. */
static uint64_t looked(nic *n)
{
    uint8_t bytes[NIC_BLOCK_BYTES];
    uint32_t word;
    uint64_t sum = nic_next_out(n);
    for (size_t k = 0; k < sizeof addresses / sizeof *addresses; k++) {
        word = 0;
        sum = mixed(sum, nic_peek32(n, addresses[k], &word));
        sum = mixed(sum, word);
    }
    for (unsigned block = 0; block < BLOCKS + 2; block++) {
        memset(bytes, 0, sizeof bytes);
        sum = mixed(sum, nic_dma_read(n, (uint64_t)block * NIC_BLOCK_BYTES, bytes, sizeof bytes));
        sum = mixed_bytes(sum, bytes, sizeof bytes);
    }
    return sum;
}

/* Makes a random call and returns its answer. */
static uint64_t one_call(nic *n)
{
    uint8_t bytes[600] = {0};
    nic_outcome outcome;
    uint32_t word = 0, address = addresses[below(sizeof addresses / sizeof *addresses)];
    size_t length = 40 + below(400);
    memset(&outcome, 0, sizeof outcome);
    for (size_t k = 0; k < 60; k++)
        bytes[k] = (uint8_t)chance();
    switch (below(16)) {
    case 0: return mixed(nic_read32(n, address, &word), word);
    case 1: return address == NIC_CTRL ? 0 : nic_write32(n, address, (uint32_t)chance());
    case 2: return mixed(nic_vf_read32(n, (uint8_t)below(4), below(0x2100) & ~3u, &word), word);
    case 3: return nic_lend(n, below(BLOCKS + 2));
    case 4: return below(4) ? 0 : nic_take(n, below(BLOCKS + 2));
    case 5: return mixed(nic_dma_read(n, below(BLOCKS * NIC_BLOCK_BYTES), bytes, length), mixed_bytes(1, bytes, 600));
    case 6: return nic_dma_write(n, below(BLOCKS * NIC_BLOCK_BYTES), bytes, length);
    case 7: bytes[0] = 2; return mixed_outcome(nic_arrive(n, bytes, length, &outcome), &outcome);
    case 8: return nic_write32(n, NIC_RDT(RX), below(8));
    case 9: return mixed_outcome(nic_rx_step(n, &outcome), &outcome);
    case 10: return nic_write32(n, NIC_TDT(TX), below(8));
    case 11: return mixed_outcome(nic_tx_step(n, TX, &outcome), &outcome);
    case 12: return mixed_outcome(nic_int_step(n, (uint8_t)below(4), &outcome), &outcome);
    case 13: return mixed_outcome(nic_queue_step(n, below(2), (uint16_t)below(4), &outcome), &outcome);
    case 14: return mixed(nic_collect(n, bytes, sizeof bytes, &outcome), mixed_bytes(outcome.len, bytes, sizeof bytes));
    default: return nic_next_out(n);
    }
}

/* Makes the calls that the seed determines, and collects their answers. */
static void course(nic *n, uint64_t seed, uint64_t *answers)
{
    chance_state = seed;
    for (size_t k = 0; k < CALLS; k++)
        answers[k] = one_call(n);
}

/* --- a busy controller --- */

/* Opens a controller in which two frames are waiting, one was written, half a frame is staged, and two were sent. */
static void set_off(nic *n)
{
    static const uint8_t frame[60] = {2, 0, 0, 0, 0, 1, 2, 0, 0, 0, 0, 2, 8, 0};
    nic_outcome outcome;
    ANSWERS(NIC_DONE, nic_open(n, 2, 8, BLOCKS));
    for (uint32_t block = 0; block < 4; block++)
        ANSWERS(NIC_DONE, nic_lend(n, block));
    ANSWERS(NIC_DONE, nic_write32(n, NIC_RXCTRL, NIC_RXCTRL_RXEN));
    ANSWERS(NIC_DONE, nic_write32(n, NIC_FCTRL, NIC_FCTRL_UPE));
    ANSWERS(NIC_DONE, nic_write32(n, NIC_RDLEN(RX), 128));
    ANSWERS(NIC_DONE, nic_write32(n, NIC_SRRCTL(RX), NIC_SRRCTL_DESCTYPE_IS(1) | NIC_SRRCTL_BSIZEPACKET_IS(2)));
    ANSWERS(NIC_DONE, nic_write32(n, NIC_RXDCTL(RX), NIC_RXDCTL_ENABLE));
    ANSWERS(NIC_DONE, nic_queue_step(n, false, RX, &outcome));
    ANSWERS(NIC_DONE, nic_write32(n, NIC_DMATXCTL, NIC_DMATXCTL_TE));
    ANSWERS(NIC_DONE, nic_write32(n, NIC_TDBAL(TX), TX_RING));
    ANSWERS(NIC_DONE, nic_write32(n, NIC_TDLEN(TX), 128));
    ANSWERS(NIC_DONE, nic_write32(n, NIC_TXDCTL(TX), NIC_TXDCTL_ENABLE));
    ANSWERS(NIC_DONE, nic_queue_step(n, true, TX, &outcome));
    ANSWERS(NIC_DONE, nic_dma_write(n, TX_BUFFER, frame, sizeof frame));
    for (unsigned slot = 0; slot < 7; slot++) {
        uint64_t command = slot == 2 ? UINT64_C(0x0008000022300020) : UINT64_C(0x000800002b300020);
        ANSWERS(NIC_DONE, nic_put64(n, TX_RING + 16 * slot, TX_BUFFER));
        ANSWERS(NIC_DONE, nic_put64(n, TX_RING + 16 * slot + 8, command));
        ANSWERS(NIC_DONE, nic_put64(n, RING + 16 * slot, 0x800));
    }
    ANSWERS(NIC_DONE, nic_write32(n, NIC_TDT(TX), 5));
    ANSWERS(NIC_SENT, nic_tx_step(n, TX, &outcome));
    ANSWERS(NIC_SENT, nic_tx_step(n, TX, &outcome));
    ANSWERS(NIC_ADVANCED, nic_tx_step(n, TX, &outcome));
    for (unsigned k = 0; k < 3; k++)
        ANSWERS(NIC_DONE, nic_arrive(n, frame, sizeof frame, &outcome));
    ANSWERS(NIC_DONE, nic_write32(n, NIC_RDT(RX), 4));
    ANSWERS(NIC_WROTE, nic_rx_step(n, &outcome));
    CHECK(nic_next_out(n) == 60);
}

/* --- the tests --- */

/* A controller continues in the same way from a snapshot, however often it is restored. */
static void goes_on_alike(nic *n, const nic_kept *kept, uint64_t before)
{
    static uint64_t first[CALLS], again[CALLS];
    for (uint64_t seed = 1; seed < 9; seed++) {
        course(n, seed, first);
        ANSWERS(NIC_DONE, nic_restore(n, kept));
        CHECK(looked(n) == before);
        course(n, seed, again);
        CHECK(memcmp(first, again, sizeof first) == 0);
        ANSWERS(NIC_DONE, nic_restore(n, kept));
        ANSWERS(NIC_DONE, nic_restore(n, kept));
    }
}

/* Another controller, with different sizes, gets the snapshot's state. */
static void becomes_another(nic *n, nic *other, const nic_kept *kept, uint64_t before)
{
    static uint64_t first[CALLS], again[CALLS];
    ANSWERS(NIC_DONE, nic_open(other, 63, 1, 40000));
    ANSWERS(NIC_DONE, nic_lend(other, 39999));
    ANSWERS(NIC_DONE, nic_restore(other, kept));
    CHECK(looked(other) == before);
    ANSWERS(NIC_NOT_LENT, nic_take(other, 39999));
    ANSWERS(NIC_NO_BLOCK, nic_lend(other, BLOCKS));
    ANSWERS(NIC_NO_BLOCK, nic_lend(other, 3));
    course(n, 99, first);
    course(other, 99, again);
    CHECK(memcmp(first, again, sizeof first) == 0);
}

static void restored(void)
{
    nic n, other;
    nic_kept kept = {NULL}, later = {NULL};
    set_off(&n);
    uint64_t before = looked(&n);
    ANSWERS(NIC_DONE, nic_snapshot(&n, &kept));
    CHECK(looked(&n) == before);
    goes_on_alike(&n, &kept, before);
    becomes_another(&n, &other, &kept, before);
    /* a snapshot outlives the controller that it was taken from, and other snapshots */
    ANSWERS(NIC_DONE, nic_snapshot(&other, &later));
    nic_close(&n);
    nic_drop_snapshot(&kept);
    nic_drop_snapshot(&kept);
    uint64_t end = looked(&other);
    ANSWERS(NIC_DONE, nic_open(&n, 0, 1, 1));
    ANSWERS(NIC_DONE, nic_restore(&n, &later));
    CHECK(looked(&n) == end);
    nic_close(&other);
    nic_drop_snapshot(&later);
    CHECK(looked(&n) == end);
    nic_close(&n);
}

/* The smallest and the largest controller. */
static void sizes(void)
{
    nic n;
    nic_kept kept;
    uint8_t byte = 77;
    ANSWERS(NIC_DONE, nic_open(&n, 63, 4096, 65536));
    ANSWERS(NIC_DONE, nic_lend(&n, 65535));
    ANSWERS(NIC_DONE, nic_dma_write(&n, UINT64_C(65535) * NIC_BLOCK_BYTES, &byte, 1));
    ANSWERS(NIC_DONE, nic_snapshot(&n, &kept));
    ANSWERS(NIC_DONE, nic_take(&n, 65535));
    ANSWERS(NIC_DONE, nic_restore(&n, &kept));
    byte = 0;
    ANSWERS(NIC_DONE, nic_dma_read(&n, UINT64_C(65535) * NIC_BLOCK_BYTES, &byte, 1));
    CHECK(byte == 77);
    nic_drop_snapshot(&kept);
    nic_close(&n);
    ANSWERS(NIC_DONE, nic_open(&n, 0, 1, 1));
    ANSWERS(NIC_DONE, nic_snapshot(&n, &kept));
    ANSWERS(NIC_DONE, nic_restore(&n, &kept));
    ANSWERS(NIC_DONE, nic_lend(&n, 0));
    nic_drop_snapshot(&kept);
    nic_close(&n);
}

/* Writes into blocks 1 and 3, which the snapshot has lent. Also lends other blocks and writes into block 0. */
static void lend_others(nic *n)
{
    ANSWERS(NIC_DONE, nic_put64(n, NIC_BLOCK_BYTES, 99));
    ANSWERS(NIC_DONE, nic_put64(n, 3 * NIC_BLOCK_BYTES, 99));
    ANSWERS(NIC_DONE, nic_put64(n, 4 * NIC_BLOCK_BYTES - 8, 99));
    ANSWERS(NIC_DONE, nic_lend(n, 0));
    ANSWERS(NIC_DONE, nic_lend(n, 2));
    ANSWERS(NIC_DONE, nic_lend(n, BLOCKS - 1));
    ANSWERS(NIC_DONE, nic_put64(n, 0, 99));
}

/* Blocks 1 and 3 have their words again, the other blocks are no longer lent, and a newly lent block is filled with
   zeros. */
static void has_two_blocks(nic *n)
{
    uint64_t got = 0;
    ANSWERS(NIC_DONE, nic_get64(n, NIC_BLOCK_BYTES, &got));
    CHECK(got == 11);
    ANSWERS(NIC_DONE, nic_get64(n, 4 * NIC_BLOCK_BYTES - 8, &got));
    CHECK(got == 33);
    ANSWERS(NIC_NOT_LENT, nic_take(n, 0));
    ANSWERS(NIC_NOT_LENT, nic_take(n, 2));
    ANSWERS(NIC_NOT_LENT, nic_take(n, BLOCKS - 1));
    ANSWERS(NIC_DONE, nic_lend(n, 0));
    ANSWERS(NIC_DONE, nic_get64(n, 0, &got));
    CHECK(got == 0);
    ANSWERS(NIC_DONE, nic_take(n, 0));
}

/* A controller with the same number of blocks keeps its packet memory: blocks get their bytes back, and blocks lent
   after the snapshot are no longer lent. */
static void keeps_its_blocks(void)
{
    nic n;
    nic_kept kept;
    ANSWERS(NIC_DONE, nic_open(&n, 0, 8, BLOCKS));
    ANSWERS(NIC_DONE, nic_lend(&n, 1));
    ANSWERS(NIC_DONE, nic_lend(&n, 3));
    ANSWERS(NIC_DONE, nic_put64(&n, NIC_BLOCK_BYTES, 11));
    ANSWERS(NIC_DONE, nic_put64(&n, 4 * NIC_BLOCK_BYTES - 8, 33));
    ANSWERS(NIC_DONE, nic_snapshot(&n, &kept));
    uint64_t before = looked(&n);
    for (unsigned round = 0; round < 3; round++) {
        lend_others(&n);
        /* (if a block lent in the snapshot isn't lent now, the controller gets new packet memory) */
        if (round == 2)
            ANSWERS(NIC_DONE, nic_take(&n, 3));
        ANSWERS(NIC_DONE, nic_restore(&n, &kept));
        CHECK(looked(&n) == before);
        has_two_blocks(&n);
    }
    nic_drop_snapshot(&kept);
    nic_close(&n);
}

/* Returns the bytes of address space that the process uses, or 0 if the system doesn't report them. */
static size_t space(void)
{
    size_t pages = 0;
    FILE *file = fopen("/proc/self/statm", "r");
    if (!file)
        return 0;
    if (fscanf(file, "%zu", &pages) != 1)
        pages = 0;
    fclose(file);
    return pages * 4096;
}

/* Returns the last word of packet memory. */
static uint64_t last_word(nic *n)
{
    uint64_t word = 0;
    ANSWERS(NIC_DONE, nic_get64(n, (uint64_t)(MANY - 1) * NIC_BLOCK_BYTES, &word));
    return word;
}

/* Limits the process's address space to this many bytes. */
static void set_space(rlim_t most)
{
    struct rlimit limit;
    CHECK(getrlimit(RLIMIT_AS, &limit) == 0);
    limit.rlim_cur = most;
    CHECK(setrlimit(RLIMIT_AS, &limit) == 0);
}

/* Returns whether a limit of address space is enforced: QEMU's user emulation accepts one but doesn't enforce it. */
static bool is_kept_to(void)
{
    struct rlimit limit;
    CHECK(getrlimit(RLIMIT_AS, &limit) == 0);
    set_space(space());
    void *volatile more = malloc((size_t)64 << 20);
    set_space(limit.rlim_cur);
    free(more);
    return !more;
}

/* Takes another snapshot and restores one, under a limit. Returns the restore's status. */
static uint8_t restore_below(nic *n, const nic_kept *kept, rlim_t limit, rlim_t most)
{
    nic_kept spare = {NULL};
    set_space(limit);
    uint8_t keeps = nic_snapshot(n, &spare);
    CHECK(keeps == NIC_OUT_OF_MEMORY ? !spare.kept : keeps == NIC_DONE);
    nic_drop_snapshot(&spare);
    uint8_t status = nic_restore(n, kept);
    set_space(most);
    return status;
}

/* Raises a limit step by step: each call that finds no memory changes nothing. Returns the number of these calls. The
   controller has one block less than the snapshot, so that a restore allocates packet memory. */
static unsigned refused(void)
{
    struct rlimit limit;
    nic n;
    nic_kept kept = {NULL};
    unsigned count = 0;
    uint64_t mark = UINT64_C(0x0123456789ABCDEF);
    ANSWERS(NIC_DONE, nic_open(&n, 0, 64, MANY + 1));
    ANSWERS(NIC_DONE, nic_lend_all(&n));
    ANSWERS(NIC_DONE, nic_snapshot(&n, &kept));
    nic_close(&n);
    ANSWERS(NIC_DONE, nic_open(&n, 0, 64, MANY));
    ANSWERS(NIC_DONE, nic_lend_all(&n));
    ANSWERS(NIC_DONE, nic_put64(&n, (uint64_t)(MANY - 1) * NIC_BLOCK_BYTES, mark));
    ANSWERS(NIC_DONE, nic_write32(&n, NIC_RDBAL(RX), 0x800));
    uint64_t before = looked(&n);
    size_t least = space();
    CHECK(getrlimit(RLIMIT_AS, &limit) == 0);
    for (;; least += (size_t)4 << 20, count++) {
        uint8_t status = restore_below(&n, &kept, least, limit.rlim_cur);
        if (status == NIC_DONE)
            break;
        CHECK(status == NIC_OUT_OF_MEMORY);
        CHECK(looked(&n) == before);
        CHECK(last_word(&n) == mark);
    }
    CHECK(looked(&n) != before);
    CHECK(last_word(&n) == 0);
    nic_drop_snapshot(&kept);
    nic_close(&n);
    return count;
}

int main(int count, char **words)
{
    restored();
    sizes();
    keeps_its_blocks();
    /* (a sanitizer uses more address space than any limit would allow) */
    if (count > 1 && strcmp(words[1], "limited") == 0) {
        if (space() && is_kept_to())
            CHECK(refused() > 0);
        else
            puts("address space limits aren't enforced here");
    }
    return 0;
}
