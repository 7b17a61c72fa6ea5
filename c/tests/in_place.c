/* Memory lent by the caller: its rings and buffers are plain memory, which it reads and writes between calls. A
   controller with this memory returns the same as one with copies. It never frees, keeps or writes memory that isn't
   lent to it. */
#define _DEFAULT_SOURCE
#include <pthread.h>
#include <string.h>
#include <sys/mman.h>
#include <sys/wait.h>
#include <unistd.h>

#include "check.h"

enum { BLOCK = NIC_BLOCK_BYTES, BLOCKS = 8, AT = 3, OWN = 4, SLOTS = 8, ROUNDS = 3000, TX_RING = 1024, PIECE = 320 };

/* a slot as a driver sees it: little-endian halves */
struct slot {
    uint64_t first, second;
};

/* --- two controllers, one with copies, and one with the driver's memory --- */

/* The receive ring, the transmit ring, and, starting with the second block, the buffers. */
struct twins {
    nic copies, place;
    uint8_t *host;
    unsigned receive_tail, transmit_tail, wrote, collected;
};

static uint64_t buffer(unsigned number)
{
    return (AT + 1) * (uint64_t)BLOCK + number * (uint64_t)PIECE;
}

static uint8_t *at(const struct twins *t, uint64_t bus)
{
    return t->host + (bus - AT * (uint64_t)BLOCK);
}

static void bring_up(nic *n)
{
    nic_outcome outcome;
    nic_write32(n, NIC_RXCTRL, NIC_RXCTRL_RXEN);
    nic_write32(n, NIC_FCTRL, NIC_FCTRL_UPE);
    nic_write32(n, NIC_DMATXCTL, NIC_DMATXCTL_TE);
    nic_write32(n, NIC_RDBAL(0), AT * BLOCK);
    nic_write32(n, NIC_RDLEN(0), NIC_DESC_BYTES * SLOTS);
    nic_write32(n, NIC_SRRCTL(0), NIC_SRRCTL_DESCTYPE_IS(1) | NIC_SRRCTL_BSIZEPACKET_IS(1));
    nic_write32(n, NIC_RXDCTL(0), NIC_RXDCTL_ENABLE);
    ANSWERS(NIC_DONE, nic_queue_step(n, false, 0, &outcome));
    nic_write32(n, NIC_TDBAL(0), AT * BLOCK + TX_RING);
    nic_write32(n, NIC_TDLEN(0), NIC_DESC_BYTES * SLOTS);
    nic_write32(n, NIC_TXDCTL(0), NIC_TXDCTL_ENABLE);
    ANSWERS(NIC_DONE, nic_queue_step(n, true, 0, &outcome));
}

static void make(struct twins *t, uint8_t *host)
{
    *t = (struct twins){{NULL}, {NULL}, host, 0, 0, 0, 0};
    memset(host, 0xA5, OWN * BLOCK);
    ANSWERS(NIC_DONE, nic_open(&t->copies, 0, 16, BLOCKS));
    ANSWERS(NIC_DONE, nic_open(&t->place, 0, 16, BLOCKS));
    for (uint32_t block = AT; block < AT + OWN; block++)
        ANSWERS(NIC_DONE, nic_lend(&t->copies, block));
    ANSWERS(NIC_DONE, nic_dma_write(&t->copies, AT * BLOCK, host, OWN * BLOCK));
    ANSWERS(NIC_DONE, nic_lend_memory(&t->place, AT * BLOCK, host, OWN * BLOCK));
    bring_up(&t->copies);
    bring_up(&t->place);
}

/* The driver stores bytes: with a call to one controller, with a plain store to the other. */
static void store(struct twins *t, uint64_t bus, const void *bytes, size_t length)
{
    memcpy(at(t, bus), bytes, length);
    ANSWERS(NIC_DONE, nic_dma_write(&t->copies, bus, bytes, length));
}

static void tail(struct twins *t, uint32_t address, unsigned *value)
{
    *value = (*value + 1) % SLOTS;
    nic_write32(&t->copies, address, *value);
    nic_write32(&t->place, address, *value);
}

static void post_buffer(struct twins *t)
{
    struct slot slot = {buffer(t->receive_tail), 0};
    store(t, AT * BLOCK + NIC_DESC_BYTES * t->receive_tail, &slot, sizeof slot);
    tail(t, NIC_RDT(0), &t->receive_tail);
}

static void send_frame(struct twins *t)
{
    uint8_t frame[300];
    uint64_t length = 60 + below(240);
    struct slot slot = {buffer(SLOTS + t->transmit_tail), 0};
    slot.second = NIC_TXD_DTYP_IS(3) | NIC_TXD_DEXT | NIC_TXD_EOP | NIC_TXD_IFCS | NIC_TXD_RS | length | length << 46;
    for (size_t k = 0; k < sizeof frame; k++)
        frame[k] = (uint8_t)chance();
    store(t, slot.first, frame, sizeof frame);
    store(t, AT * BLOCK + TX_RING + NIC_DESC_BYTES * t->transmit_tail, &slot, sizeof slot);
    tail(t, NIC_TDT(0), &t->transmit_tail);
}

static void one_arrives(struct twins *t, nic_outcome *a, nic_outcome *b)
{
    uint8_t frame[660];
    size_t length = 60 + below(600);
    for (size_t k = 0; k < length; k++)
        frame[k] = (uint8_t)chance();
    frame[0] = 2;
    CHECK(nic_arrive(&t->copies, frame, length, a) == nic_arrive(&t->place, frame, length, b));
}

static void collect(struct twins *t, nic_outcome *a, nic_outcome *b)
{
    uint8_t sent[2][2048];
    CHECK(nic_collect(&t->copies, sent[0], 2048, a) == nic_collect(&t->place, sent[1], 2048, b));
    CHECK(a->status != NIC_FRAME || memcmp(sent[0], sent[1], a->len) == 0);
    t->collected += a->status == NIC_FRAME;
}

static void alike(const nic_outcome *a, const nic_outcome *b)
{
    CHECK(a->status == b->status && a->desc == b->desc && a->at == b->at && a->len == b->len && a->bus == b->bus);
    CHECK(a->queue == b->queue && a->slot == b->slot && a->end == b->end && a->back == b->back && a->why == b->why);
}

static void settle(struct twins *t)
{
    static nic_outcome outcome[2][100];
    size_t count[2];
    CHECK(nic_settle(&t->copies, 1, outcome[0], 100, &count[0]) ==
          nic_settle(&t->place, 1, outcome[1], 100, &count[1]));
    CHECK(count[0] == count[1]);
    for (size_t k = 0; k < count[0]; k++) {
        alike(&outcome[0][k], &outcome[1][k]);
        t->wrote += outcome[0][k].status == NIC_WROTE;
    }
}

/* Runs the same steps with single calls. */
static void step_by_step(struct twins *t)
{
    nic_settling where[2] = {{1, 0}, {1, 0}};
    nic_outcome outcomes[2];
    while (nic_next_step(&t->copies, &where[0], &outcomes[0]) == NIC_MORE) {
        ANSWERS(NIC_MORE, nic_next_step(&t->place, &where[1], &outcomes[1]));
        alike(&outcomes[0], &outcomes[1]);
        t->wrote += outcomes[0].status == NIC_WROTE;
    }
    ANSWERS(NIC_DONE, nic_next_step(&t->place, &where[1], &outcomes[1]));
}

/* Disables a side of the queue and requests its enable again. The next settle enables it and reads the ring's slots. */
static void restart(struct twins *t)
{
    nic_outcome outcome;
    bool transmit = below(2);
    uint32_t address = transmit ? NIC_TXDCTL(0) : NIC_RXDCTL(0);
    for (unsigned k = 0; k < 2; k++) {
        nic *n = k ? &t->place : &t->copies;
        nic_write32(n, address, 0);
        nic_queue_step(n, transmit, 0, &outcome);
        nic_write32(n, address, NIC_RXDCTL_ENABLE);
    }
}

static void one_call(struct twins *t)
{
    nic_outcome a = {0}, b = {0};
    switch (below(40) ? below(8) : 8) {
    case 0: post_buffer(t); break;
    case 1: one_arrives(t, &a, &b); break;
    case 2: CHECK(nic_rx_step(&t->copies, &a) == nic_rx_step(&t->place, &b)); break;
    case 3: send_frame(t); break;
    case 4: CHECK(nic_tx_step(&t->copies, 0, &a) == nic_tx_step(&t->place, 0, &b)); break;
    case 5: collect(t, &a, &b); break;
    case 6: settle(t); break;
    case 7: step_by_step(t); break;
    default: restart(t); break;
    }
    alike(&a, &b);
    t->wrote += a.status == NIC_WROTE;
}

/* Checks that both controllers have the caller's bytes. */
static void same_bytes(struct twins *t, bool reads_in_place)
{
    uint8_t seen[OWN * BLOCK];
    ANSWERS(NIC_DONE, nic_dma_read(reads_in_place ? &t->place : &t->copies, AT * BLOCK, seen, sizeof seen));
    CHECK(memcmp(seen, t->host, sizeof seen) == 0);
}

static void same_answers(uint8_t *host)
{
    struct twins t;
    make(&t, host);
    for (unsigned round = 0; round < ROUNDS; round++) {
        one_call(&t);
        same_bytes(&t, false);
        if (round % 8 == 0)
            same_bytes(&t, true);
    }
    CHECK(t.collected > 100 && t.wrote > 100);
    printf("equal results of %d calls: %u frames in, %u out\n", ROUNDS, t.wrote, t.collected);
    nic_close(&t.place);
    same_bytes(&t, false);
    nic_close(&t.copies);
}

/* Makes calls for a recording, which contains only the memory that the steps read. A snapshot and reads of all memory
   follow at the end. */
static void recorded(uint8_t *host, uint64_t seed)
{
    enum { CALLS = 260 };
    struct twins t;
    nic_kept kept = {NULL};
    uint8_t seen[64];
    chance_state = seed;
    make(&t, host);
    for (unsigned round = 0; round < CALLS; round++)
        one_call(&t);
    memset(host + 3 * BLOCK, 0x33, 64);
    ANSWERS(NIC_DONE, nic_snapshot(&t.place, &kept));
    ANSWERS(NIC_DONE, nic_restore(&t.place, &kept));
    for (unsigned k = 0; k < OWN * BLOCK / 64; k++)
        ANSWERS(NIC_DONE, nic_dma_read(&t.place, AT * BLOCK + 64 * k, seen, sizeof seen));
    nic_drop_snapshot(&kept);
    nic_close(&t.place);
    nic_close(&t.copies);
}

/* --- refused calls change nothing, and memory taken back keeps its bytes --- */

static void refused(nic *n, uint8_t *host)
{
    ANSWERS(NIC_BAD_MEMORY, nic_lend_memory(n, 16, host, BLOCK));
    ANSWERS(NIC_BAD_MEMORY, nic_lend_memory(n, 0, host, 100));
    ANSWERS(NIC_BAD_MEMORY, nic_unlend_memory(n, 16, BLOCK));
    ANSWERS(NIC_BAD_MEMORY, nic_unlend_memory(n, 0, 1));
    ANSWERS(NIC_NO_BLOCK, nic_lend_memory(n, (BLOCKS - 1) * BLOCK, host, 2 * BLOCK));
    ANSWERS(NIC_NO_BLOCK, nic_lend_memory(n, UINT64_MAX - BLOCK + 1, host, BLOCK));
    ANSWERS(NIC_NO_BLOCK, nic_lend_memory(n, 0, host, SIZE_MAX - BLOCK + 1));
    ANSWERS(NIC_NO_BLOCK, nic_lend_memory(n, UINT64_C(65535) * BLOCK, host, BLOCK));
    ANSWERS(NIC_NO_BLOCK, nic_lend_memory(n, UINT64_C(65535) * BLOCK, host, 2 * BLOCK));
    ANSWERS(NIC_NOT_LENT, nic_unlend_memory(n, 0, BLOCK));
    ANSWERS(NIC_NOT_LENT, nic_unlend_memory(n, UINT64_MAX - BLOCK + 1, BLOCK));
    ANSWERS(NIC_DONE, nic_lend_memory(n, 0, host, 0));
    ANSWERS(NIC_DONE, nic_unlend_memory(n, 0, 0));
    ANSWERS(NIC_DONE, nic_lend(n, 2));
    ANSWERS(NIC_NO_BLOCK, nic_lend_memory(n, 0, host, 4 * BLOCK));
    ANSWERS(NIC_NOT_LENT, nic_unlend_memory(n, 2 * BLOCK, BLOCK));
    for (uint32_t block = 0; block < BLOCKS; block++)
        ANSWERS(block == 2 ? NIC_DONE : NIC_NOT_LENT, nic_take(n, block));
    ANSWERS(NIC_DONE, nic_lend(n, 2));
}

/* A block that was taken back has the controller's own memory again, filled with zeros. */
static void is_own(nic *n, uint32_t block)
{
    uint8_t bytes[BLOCK];
    ANSWERS(NIC_NOT_LENT, nic_dma_read(n, block * (uint64_t)BLOCK, bytes, 1));
    ANSWERS(NIC_DONE, nic_lend(n, block));
    ANSWERS(NIC_DONE, nic_dma_read(n, block * (uint64_t)BLOCK, bytes, BLOCK));
    for (unsigned k = 0; k < BLOCK; k++)
        CHECK(bytes[k] == 0);
}

static void parts(uint8_t *host)
{
    nic n;
    uint8_t was[OWN * BLOCK], bytes[BLOCK] = {1};
    memset(host, 0x5A, OWN * BLOCK);
    memcpy(was, host, sizeof was);
    ANSWERS(NIC_DONE, nic_open(&n, 0, 16, BLOCKS));
    refused(&n, host);
    ANSWERS(NIC_DONE, nic_lend_memory(&n, 3 * BLOCK, host, 3 * BLOCK));
    ANSWERS(NIC_BAD_MEMORY, nic_lend_memory(&n, 0, host + 3 * BLOCK - 1, BLOCK));
    ANSWERS(NIC_BAD_MEMORY, nic_lend_memory(&n, 0, host - BLOCK + 1, BLOCK));
    ANSWERS(NIC_NO_BLOCK, nic_lend(&n, 3));
    ANSWERS(NIC_NOT_LENT, nic_unlend_memory(&n, 2 * BLOCK, 2 * BLOCK));
    ANSWERS(NIC_NOT_LENT, nic_unlend_memory(&n, 5 * BLOCK, 2 * BLOCK));
    ANSWERS(NIC_DONE, nic_unlend_memory(&n, 4 * BLOCK, BLOCK));
    is_own(&n, 4);
    /* the other blocks remain in place, and the middle's memory may be lent elsewhere */
    ANSWERS(NIC_DONE, nic_lend_memory(&n, 7 * BLOCK, host + BLOCK, BLOCK));
    ANSWERS(NIC_DONE, nic_dma_write(&n, 7 * BLOCK, bytes, 1));
    CHECK(host[BLOCK] == 1);
    ANSWERS(NIC_DONE, nic_unlend_memory(&n, 7 * BLOCK, BLOCK));
    ANSWERS(NIC_DONE, nic_take(&n, 3));
    is_own(&n, 3);
    ANSWERS(NIC_DONE, nic_lend_all(&n));
    host[BLOCK] = 0x5A;
    CHECK(memcmp(was, host, sizeof was) == 0);
    ANSWERS(NIC_DONE, nic_dma_write(&n, 5 * BLOCK, bytes, 1));
    CHECK(host[2 * BLOCK] == 1 && host[2 * BLOCK + 1] == 0x5A);
    nic_close(&n);
    CHECK(host[2 * BLOCK] == 1 && host[2 * BLOCK + 1] == 0x5A);
}

/* Lends and takes back many pieces in any order: each block has the memory that it was lent with. */
static void many(void)
{
    enum { MANY = 300, LENT = 40 };
    nic n;
    uint8_t *host = malloc(MANY * BLOCK), byte;
    int lent[LENT];
    CHECK(host);
    ANSWERS(NIC_DONE, nic_open(&n, 0, 1, LENT));
    for (unsigned k = 0; k < LENT; k++)
        lent[k] = -1;
    for (unsigned round = 0; round < 4000; round++) {
        uint32_t block = below(LENT);
        unsigned piece = below(MANY);
        bool is_taken = false;
        for (unsigned k = 0; k < LENT; k++)
            is_taken |= lent[k] == (int)piece;
        if (lent[block] >= 0) {
            host[(unsigned)lent[block] * BLOCK + 77] = (uint8_t)round;
            ANSWERS(NIC_DONE, nic_dma_read(&n, block * (uint64_t)BLOCK + 77, &byte, 1));
            CHECK(byte == (uint8_t)round);
            ANSWERS(NIC_DONE, nic_unlend_memory(&n, block * (uint64_t)BLOCK, BLOCK));
            lent[block] = -1;
        } else {
            uint8_t status = nic_lend_memory(&n, block * (uint64_t)BLOCK, host + piece * BLOCK, BLOCK);
            CHECK(status == (is_taken ? NIC_BAD_MEMORY : NIC_DONE));
            lent[block] = is_taken ? -1 : (int)piece;
        }
    }
    nic_close(&n);
    free(host);
}

/* --- snapshots: a restore writes its bytes in place --- */

static void restored_into_itself(nic *n, uint8_t *host, const nic_kept *early, const nic_kept *late)
{
    uint8_t byte;
    ANSWERS(NIC_DONE, nic_restore(n, late));
    CHECK(host[0] == 8 && host[3 * BLOCK - 1] == 8 && host[3 * BLOCK] == 9);
    host[BLOCK] = 10;
    ANSWERS(NIC_DONE, nic_dma_read(n, 2 * BLOCK, &byte, 1));
    CHECK(byte == 10);
    /* two of the blocks aren't lent in the early snapshot */
    ANSWERS(NIC_DONE, nic_restore(n, early));
    CHECK(host[0] == 7 && host[BLOCK - 1] == 7 && host[BLOCK] == 10 && host[BLOCK + 1] == 8);
    ANSWERS(NIC_NOT_LENT, nic_dma_read(n, 2 * BLOCK, &byte, 1));
    /* all are lent in the late snapshot, but only the first is in place now */
    ANSWERS(NIC_DONE, nic_restore(n, late));
    CHECK(host[0] == 8 && host[BLOCK] == 10);
    ANSWERS(NIC_DONE, nic_dma_read(n, 2 * BLOCK, &byte, 1));
    CHECK(byte == 8);
    ANSWERS(NIC_NOT_LENT, nic_unlend_memory(n, BLOCK, 2 * BLOCK));
}

/* A snapshot of another controller with a different number of blocks: all of the controller's own memory is new. */
static void restored_from_another(nic *n, nic *other, uint8_t *host)
{
    nic third;
    nic_kept kept = {NULL};
    ANSWERS(NIC_DONE, nic_take(other, 3));
    ANSWERS(NIC_DONE, nic_snapshot(other, &kept));
    memset(host, 11, OWN * BLOCK);
    ANSWERS(NIC_DONE, nic_open(&third, 0, 16, 1));
    ANSWERS(NIC_DONE, nic_lend_memory(&third, 0, host + 3 * BLOCK, BLOCK));
    ANSWERS(NIC_DONE, nic_restore(&third, &kept));
    ANSWERS(NIC_NOT_LENT, nic_unlend_memory(&third, 0, BLOCK));
    ANSWERS(NIC_DONE, nic_restore(n, &kept));
    CHECK(host[0] == 8 && host[BLOCK] == 11 && host[3 * BLOCK] == 11);
    nic_drop_snapshot(&kept);
    nic_close(&third);
}

static void snapshots(uint8_t *host)
{
    nic n, other;
    nic_kept early = {NULL}, late = {NULL};
    uint8_t bytes[BLOCK];
    memset(host, 7, OWN * BLOCK);
    ANSWERS(NIC_DONE, nic_open(&n, 0, 16, BLOCKS));
    ANSWERS(NIC_DONE, nic_open(&other, 1, 16, BLOCKS + 1));
    ANSWERS(NIC_DONE, nic_lend_memory(&n, BLOCK, host, BLOCK));
    ANSWERS(NIC_DONE, nic_snapshot(&n, &early));
    ANSWERS(NIC_DONE, nic_lend_memory(&n, 2 * BLOCK, host + BLOCK, 2 * BLOCK));
    memset(host, 8, OWN * BLOCK);
    ANSWERS(NIC_DONE, nic_snapshot(&n, &late));
    memset(host, 9, OWN * BLOCK);
    /* into another controller, which has copies */
    ANSWERS(NIC_DONE, nic_restore(&other, &late));
    ANSWERS(NIC_DONE, nic_dma_read(&other, 3 * BLOCK, bytes, BLOCK));
    CHECK(bytes[0] == 8 && bytes[BLOCK - 1] == 8 && host[2 * BLOCK] == 9);
    restored_into_itself(&n, host, &early, &late);
    restored_from_another(&n, &other, host);
    nic_drop_snapshot(&early);
    nic_drop_snapshot(&late);
    nic_close(&other);
    nic_close(&n);
}

/* --- two controllers, threads and forks --- */

/* Two controllers with the same memory: each finds the bytes that the other writes. */
static void shared(uint8_t *host)
{
    nic one, two;
    uint8_t bytes[4] = {1, 2, 3, 4}, seen[4];
    ANSWERS(NIC_DONE, nic_open(&one, 0, 16, BLOCKS));
    ANSWERS(NIC_DONE, nic_open(&two, 0, 16, BLOCKS));
    ANSWERS(NIC_DONE, nic_lend_memory(&one, 0, host, OWN * BLOCK));
    ANSWERS(NIC_DONE, nic_lend_memory(&two, AT * BLOCK, host, OWN * BLOCK));
    ANSWERS(NIC_DONE, nic_dma_write(&one, BLOCK - 2, bytes, 4));
    ANSWERS(NIC_DONE, nic_dma_read(&two, (AT + 1) * BLOCK - 2, seen, 4));
    CHECK(memcmp(bytes, seen, 4) == 0);
    nic_close(&one);
    ANSWERS(NIC_DONE, nic_dma_write(&two, AT * BLOCK, bytes, 4));
    CHECK(host[3] == 4);
    nic_close(&two);
}

static int is_over;

/* Lends and takes back memory endlessly, with a separate controller, and frees other memory in between. */
static void *lends_on(void *unused)
{
    nic n;
    nic_outcome outcome;
    uint8_t *low = malloc(BLOCK), frame[60] = {2}, *high = NULL;
    (void)unused;
    CHECK(low);
    ANSWERS(NIC_DONE, nic_open(&n, 0, 8, 4));
    high = malloc(BLOCK);
    CHECK(high);
    nic_write32(&n, NIC_RXCTRL, NIC_RXCTRL_RXEN);
    nic_write32(&n, NIC_FCTRL, NIC_FCTRL_UPE);
    while (!__atomic_load_n(&is_over, __ATOMIC_RELAXED)) {
        ANSWERS(NIC_DONE, nic_lend_memory(&n, 0, low, BLOCK));
        ANSWERS(NIC_DONE, nic_lend_memory(&n, BLOCK, high, BLOCK));
        ANSWERS(NIC_DONE, nic_arrive(&n, frame, sizeof frame, &outcome));
        ANSWERS(NIC_DROPPED, nic_rx_step(&n, &outcome));
        ANSWERS(NIC_DONE, nic_unlend_memory(&n, 0, BLOCK));
        ANSWERS(NIC_DONE, nic_take(&n, 1));
    }
    nic_close(&n);
    free(low);
    free(high);
    return NULL;
}

/* In a child the memory is lent as in its parent: private memory is the child's own, shared memory is common to
   both. */
static void in_child(nic *n, uint8_t *own, const uint8_t *both)
{
    uint8_t bytes[2] = {21, 22}, seen;
    own[0] = 20;
    ANSWERS(NIC_DONE, nic_dma_read(n, 0, &seen, 1));
    CHECK(seen == 20);
    ANSWERS(NIC_DONE, nic_dma_write(n, 1, bytes, 1));
    ANSWERS(NIC_DONE, nic_dma_write(n, BLOCK, bytes + 1, 1));
    CHECK(own[1] == 21 && both[0] == 22);
    nic_close(n);
    CHECK(own[1] == 21);
    _exit(0);
}

static void forks(uint8_t *own)
{
    nic n;
    int status;
    uint8_t seen, *both = mmap(NULL, BLOCK, PROT_READ | PROT_WRITE, MAP_SHARED | MAP_ANONYMOUS, -1, 0);
    CHECK(both != MAP_FAILED);
    ANSWERS(NIC_DONE, nic_open(&n, 0, 8, 4));
    own[0] = own[1] = 19;
    ANSWERS(NIC_DONE, nic_lend_memory(&n, 0, own, BLOCK));
    ANSWERS(NIC_DONE, nic_lend_memory(&n, BLOCK, both, BLOCK));
    pid_t child = fork();
    CHECK(child >= 0);
    if (child == 0)
        in_child(&n, own, both);
    CHECK(waitpid(child, &status, 0) == child && status == 0);
    ANSWERS(NIC_DONE, nic_dma_read(&n, 1, &seen, 1));
    CHECK(own[0] == 19 && seen == 19);
    ANSWERS(NIC_DONE, nic_dma_read(&n, BLOCK, &seen, 1));
    CHECK(seen == 22);
    nic_close(&n);
    munmap(both, BLOCK);
}

/* Forks while other threads lend: no child finds a table locked or half changed. */
static void forks_beside_threads(uint8_t *own)
{
    pthread_t threads[2];
    is_over = 0;
    for (unsigned k = 0; k < 2; k++)
        CHECK(pthread_create(&threads[k], NULL, lends_on, NULL) == 0);
    for (unsigned k = 0; k < 60; k++)
        forks(own);
    __atomic_store_n(&is_over, 1, __ATOMIC_RELAXED);
    for (unsigned k = 0; k < 2; k++)
        CHECK(pthread_join(threads[k], NULL) == 0);
}

/* Arguments: `without-forks`, for valgrind, because the memory of other threads is lost in a child; or `record SEED`,
   which makes a recording. */
int main(int count, char **words)
{
    uint8_t *bytes = malloc(OWN * BLOCK + 1);
    CHECK(bytes);
    alarm(3600); /* only a hang takes this long */
    if (count == 3) {
        recorded(bytes + 1, strtoull(words[2], NULL, 10));
        free(bytes);
        return 0;
    }
    same_answers(bytes);
    same_answers(bytes + 1); /* even at an odd address */
    parts(bytes + 1);
    many();
    snapshots(bytes + 1);
    shared(bytes);
    if (count == 1) {
        forks(bytes);
        forks_beside_threads(bytes);
    }
    free(bytes);
    return 0;
}
