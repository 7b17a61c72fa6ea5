/* `orders STATES SEED`: from this many random states, runs pairs of steps in both orders, for each row of the table of
   independent steps and each pair of kinds in a row. Both orders must have the same results and lead to the same state:
   all registers, lent memory, frames. States are first compared byte by byte; if they differ, by everything that calls
   can observe. */
#include <stdio.h>
#include <stdlib.h>
#include <string.h>

#include "../engine/chance.h"
#include "../engine/heap.h"
#include "../engine/independent.h"

enum { QUEUES = 4, BLOCKS = 12, VFS = 2, FIFO = 6, RING = 128, MOST_ROWS = 64, MOST_OUT = 4096 };

static const uint32_t addresses[] = {
#define ADDRESS(address) address,
#include "addresses.inc"
#undef ADDRESS
};

enum { ADDRESSES = sizeof addresses / sizeof *addresses };

static nic n;
static struct chance chance;
static uint64_t tried[MOST_ROWS][STEP_LINK + 1][STEP_LINK + 1];

static uint32_t below(uint32_t bound)
{
    return chance_below(&chance, bound);
}

static void fail(int row, const char *what)
{
    printf("row \"%s\" (%s): %s\n", nicxi_row_name(row), nicxi_law(row), what);
    exit(1);
}

/* --- a random state, in which most queues are ready --- */

static uint64_t some_bus(void)
{
    return (uint64_t)below(BLOCKS + 1) * NIC_BLOCK_BYTES + 16 * below(128);
}

static uint64_t ring_of(unsigned queue, unsigned side)
{
    return RING * (2 * queue + side);
}

static void bring_up_queue(unsigned queue)
{
    nic_outcome outcome;
    nic_write32(&n, NIC_RDBAL(queue), (uint32_t)ring_of(queue, 0));
    nic_write32(&n, NIC_RDLEN(queue), RING);
    nic_write32(&n, NIC_SRRCTL(queue), 0x02000002 | (below(4) ? 0 : 1u << 28));
    nic_write32(&n, NIC_TDBAL(queue), (uint32_t)ring_of(queue, 1));
    nic_write32(&n, NIC_TDLEN(queue), RING);
    if (!below(3))
        nic_write32(&n, NIC_TDWBAL(queue), (uint32_t)some_bus() | 1);
    nic_write32(&n, NIC_RXDCTL(queue), below(5) ? 1u << 25 : 0);
    nic_write32(&n, NIC_TXDCTL(queue), below(5) ? 1u << 25 : 0);
    if (below(5))
        nic_queue_step(&n, false, (uint16_t)queue, &outcome);
    if (below(5))
        nic_queue_step(&n, true, (uint16_t)queue, &outcome);
}

static void fill_rings(unsigned queue)
{
    for (unsigned slot = 0; slot < 8; slot++) {
        nic_put64(&n, ring_of(queue, 0) + 16 * slot, some_bus());
        nic_put64(&n, ring_of(queue, 1) + 16 * slot, some_bus());
        nic_put64(&n, ring_of(queue, 1) + 16 * slot + 8,
                  below(6) ? 0x2000000000300000u | (0x20u | below(12)) << 24 | (20 + below(200))
                           : chance_next(&chance));
    }
    nic_write32(&n, NIC_RDT(queue), below(9));
    nic_write32(&n, NIC_TDT(queue), below(9));
}

static void bring_up_interrupts(void)
{
    for (unsigned k = 0; k < 2; k++)
        nic_write32(&n, NIC_IVAR(k), (uint32_t)chance_next(&chance) | 0x80808080u);
    for (unsigned k = 0; k < 2; k++)
        nic_write32(&n, NIC_PVTIVAR(k), 0x81828081u + below(4));
    nic_write32(&n, NIC_IVAR_MISC, 0x8580u + below(16) + (below(16) << 8));
    nic_write32(&n, NIC_EIAC, (uint32_t)chance_next(&chance));
    nic_write32(&n, NIC_EIAM, (uint32_t)chance_next(&chance));
    nic_write32(&n, NIC_GPIE, (uint32_t)chance_next(&chance));
    nic_write32(&n, NIC_EIMS, (uint32_t)chance_next(&chance) | 0x00FFFFFFu);
    nic_write32(&n, NIC_EICS, below(2) ? (uint32_t)chance_next(&chance) : 0);
    for (unsigned v = 0; v < VFS; v++) {
        nic_write32(&n, NIC_PVTEIMS(v), 7);
        nic_write32(&n, NIC_PVTEICS(v), below(8));
        nic_write32(&n, NIC_PVTEIAC(v), below(8));
        nic_write32(&n, NIC_PVTEIAM(v), below(8));
    }
}

static void some_frame(uint8_t frame[400], size_t *length)
{
    *length = below(12) ? 60 + below(340) : below(60);
    for (size_t k = 0; k < *length; k++)
        frame[k] = (uint8_t)below(256);
    frame[0] &= 0xFE;
    if (*length > 14 && below(2)) {
        frame[12] = 8;
        frame[13] = 0;
        frame[14] = 0x45;
    }
}

static void settings(void)
{
    static const uint32_t modes[] = {1, 8, 10, 11, 0};
    nic_write32(&n, NIC_RXCTRL, below(8) != 0);
    nic_write32(&n, NIC_DMATXCTL, below(8) != 0);
    nic_write32(&n, NIC_FCTRL, 0x300 | below(2) << 10);
    nic_write32(&n, NIC_GCR_EXT, below(4));
    nic_write32(&n, NIC_MRQC, modes[below(5)] | 0x00030000);
    for (unsigned k = 0; k < 32; k++)
        nic_write32(&n, NIC_RETA(k), 0x03020100u);
    for (unsigned k = 0; k < 10; k++)
        nic_write32(&n, NIC_RSSRK(k), (uint32_t)chance_next(&chance));
    nic_write32(&n, NIC_VFRE(0), (uint32_t)chance_next(&chance) | 3);
    nic_write32(&n, NIC_VFTE(0), (uint32_t)chance_next(&chance) | 3);
    nic_write32(&n, NIC_VT_CTL, below(3) ? 0 : below(2) | below(4) << 7);
    nic_write32(&n, NIC_RXCSUM, below(2) << 13);
    nic_write32(&n, NIC_RQSMR(0), (uint32_t)chance_next(&chance));
    nic_write32(&n, NIC_TQSM(0), (uint32_t)chance_next(&chance));
    nic_write32(&n, NIC_MAXFRS, (below(6) ? 1518u : 100u) << 16);
}

static void some_steps(void)
{
    uint8_t frame[400];
    size_t length;
    nic_outcome outcome;
    for (unsigned k = below(24); k > 0; k--)
        switch (below(8)) {
        case 0: nic_rx_step(&n, &outcome); break;
        case 1: nic_tx_step(&n, (uint16_t)below(QUEUES), &outcome); break;
        case 2: nic_int_step(&n, (uint8_t)below(VFS + 1), &outcome); break;
        case 3:
            nic_write32(&n, addresses[below(ADDRESSES - 1) + 1], (uint32_t)chance_next(&chance) & ~(1u << 26));
            break;
        default: some_frame(frame, &length); nic_arrive(&n, frame, length, &outcome);
        }
}

static void some_state(void)
{
    for (unsigned block = 0; block < BLOCKS; block++)
        if (block < 2 || below(8))
            nic_lend(&n, block);
    settings();
    for (unsigned queue = 0; queue < QUEUES; queue++) {
        fill_rings(queue);
        bring_up_queue(queue);
        nic_write32(&n, NIC_RDT(queue), below(9));
        nic_write32(&n, NIC_TDT(queue), below(9));
    }
    bring_up_interrupts();
    some_steps();
    for (unsigned queue = 0; queue < QUEUES; queue++) {
        if (!below(3))
            nic_write32(&n, NIC_RXDCTL(queue), below(2) << 25);
        if (!below(3))
            nic_write32(&n, NIC_TXDCTL(queue), below(2) << 25);
    }
    nic_write32(&n, NIC_EERD, below(3) ? 1 | below(80) << 2 : 0);
    nic_link(&n, below(4) != 0);
    if (!below(20))
        nic_write32(&n, NIC_CTRL, 4);
}

/* --- random steps --- */

struct pick {
    struct step step;
    uint8_t bytes[400];
    size_t length;
};

/* Registers of a queue's side, as offsets from its first one. */
static const uint32_t of_side[] = {0, 4, 8, 0x10, 0x14, 0x18, 0x28, 0x38, 0x3C};

/* Returns a random offset of a virtual function: in a queue's side, its mailbox, or its interrupts. */
static uint32_t some_offset(void)
{
    static const uint32_t of_group[] = {NIC_VTEICR, NIC_VTEICS, NIC_VTEIMS,     NIC_VTEIMC,
                                        NIC_VTEIAC, NIC_VTEIAM, NIC_VTIVAR_MISC};
    switch (below(6)) {
    case 0:
    case 1:
    case 2: return (below(2) ? NIC_VFRDBAL(0) : NIC_VFTDBAL(0)) + 0x40 * below(QUEUES) + of_side[below(9)];
    case 3: return NIC_VFMBMEM(below(16));
    case 4: return NIC_VFMAILBOX;
    default: return of_group[below(7)];
    }
}

/* Returns a random address of the physical function's interrupt registers, or of a mailbox's memory. */
static uint32_t some_part(void)
{
    static const uint32_t interrupts[] = {NIC_EICR, NIC_EICS, NIC_EIAC,    NIC_EIMS,
                                          NIC_EIMC, NIC_EIAM, NIC_IVAR(0), NIC_GPIE};
    return below(2) ? interrupts[below(8)] : NIC_PFMBMEM(below(32));
}

static void pick(struct pick *it, uint8_t kind)
{
    struct step *step = &it->step;
    unsigned queue = below(QUEUES);
    memset(it, 0, sizeof *it);
    step->kind = kind;
    some_frame(it->bytes, &it->length);
    switch (kind) {
    case STEP_VF_READ:
    case STEP_VF_WRITE:
        step->vf = (uint8_t)below(VFS);
        step->address = some_offset();
        step->word = below(2) ? below(9) : (uint32_t)chance_next(&chance);
        break;
    case STEP_READ:
    case STEP_WRITE:
        step->address = below(4) ? (below(2) ? NIC_RDBAL(queue) : NIC_TDBAL(queue)) + of_side[below(9)] : some_part();
        step->word = below(2) ? below(9) : (uint32_t)chance_next(&chance);
        break;
    case STEP_PEEK:
    case STEP_POKE:
        step->bus = below(3) ? some_bus() : ring_of(queue, below(2)) + 8 * below(16);
        step->length = 1 + below(64);
        break;
    case STEP_INT: step->of = (uint16_t)below(VFS + 1); break;
    case STEP_LINK: step->word = below(2); break;
    default: step->of = (uint16_t)queue;
    }
}

/* Returns the value that the physical function sees at the address of a virtual function's access. */
static uint32_t physical_now(const struct step *step)
{
    uint32_t mode = 0, own = 0, word = 0;
    nic_peek32(&n, NIC_GCR_EXT, &mode);
    uint32_t address = nicxi_physical(mode, step->vf, step->address);
    if (address == NO_ADDRESS || nic_vf_peek32(&n, step->vf, step->address, &own) != NIC_DONE)
        return address;
    if (nic_peek32(&n, address, &word) != NIC_DONE || own != word) {
        printf("offset 0x%04x of function %u isn't at 0x%05x\n", step->address, step->vf, address);
        exit(1);
    }
    return address;
}

/* Runs a step, and stores its result in it; the bytes of a memory read go to `bytes`. */
static void make(struct pick *it)
{
    struct step *step = &it->step;
    memset(&step->outcome, 0, sizeof step->outcome);
    switch (step->kind) {
    case STEP_READ: step->status = nic_read32(&n, step->address, &step->word); break;
    case STEP_WRITE: step->status = nic_write32(&n, step->address, step->word); break;
    case STEP_VF_READ:
        step->physical = physical_now(step);
        step->status = nic_vf_read32(&n, step->vf, step->address, &step->word);
        break;
    case STEP_VF_WRITE:
        step->physical = physical_now(step);
        step->status = nic_vf_write32(&n, step->vf, step->address, step->word);
        break;
    case STEP_PEEK: step->status = nic_dma_read(&n, step->bus, it->bytes, step->length); break;
    case STEP_POKE: step->status = nic_dma_write(&n, step->bus, it->bytes, step->length); break;
    case STEP_RX: step->status = nic_rx_step(&n, &step->outcome); break;
    case STEP_TX: step->status = nic_tx_step(&n, step->of, &step->outcome); break;
    case STEP_RX_ENABLE: step->status = nic_queue_step(&n, false, step->of, &step->outcome); break;
    case STEP_TX_ENABLE: step->status = nic_queue_step(&n, true, step->of, &step->outcome); break;
    case STEP_INT: step->status = nic_int_step(&n, (uint8_t)step->of, &step->outcome); break;
    case STEP_EEPROM: step->status = nic_eeprom_step(&n, &step->outcome); break;
    case STEP_ARRIVE: step->status = nic_arrive(&n, it->bytes, it->length, &step->outcome); break;
    case STEP_LINK: step->status = nic_link(&n, step->word != 0); break;
    default: break;
    }
}

/* --- what a state shows --- */

static uint64_t sum_of_bytes(uint64_t sum, const uint8_t *bytes, size_t length)
{
    for (size_t k = 0; k < length; k++)
        sum = chance_mixed(sum, bytes[k]);
    return sum;
}

static uint64_t sum_of_frames_out(uint64_t sum)
{
    static uint8_t frame[20000];
    nic_outcome outcome;
    while (nic_collect(&n, frame, sizeof frame, &outcome) == NIC_FRAME)
        sum = sum_of_bytes(chance_mixed(sum, outcome.queue), frame, (size_t)outcome.len);
    return sum;
}

/* Frames that wait in the device show only when they are received. State that no register shows, such as the bits
   already reported, affects later steps, so all steps are run and compared. */
static uint64_t sum_of_going_on(uint64_t sum)
{
    static nic_outcome outcome[MOST_OUT];
    size_t count = 0;
    nic_settle(&n, QUEUES, outcome, MOST_OUT, &count);
    for (size_t k = 0; k < count; k++) {
        sum = chance_mixed(sum, (uint64_t)outcome[k].status << 40 | (uint64_t)outcome[k].step << 32 |
                                    outcome[k].queue << 16 | outcome[k].slot);
        sum = chance_mixed(sum, outcome[k].at ^ outcome[k].desc << 20 ^ outcome[k].len << 40 ^ outcome[k].why ^
                                    outcome[k].vector << 8);
    }
    return sum;
}

static uint64_t sum_of_registers(uint64_t sum)
{
    uint32_t word = 0;
    for (size_t k = 0; k < ADDRESSES; k++) {
        nic_peek32(&n, addresses[k], &word);
        sum = chance_mixed(sum, word);
    }
    return sum;
}

static uint64_t sum_of_memory(uint64_t sum)
{
    uint8_t bytes[NIC_BLOCK_BYTES];
    for (uint64_t block = 0; block < BLOCKS; block++)
        if (nic_dma_read(&n, block * NIC_BLOCK_BYTES, bytes, sizeof bytes) == NIC_DONE)
            sum = sum_of_bytes(chance_mixed(sum, block), bytes, sizeof bytes);
    return sum;
}

/* Returns a hash of everything that the state shows. Changes the device. */
static uint64_t sum_of_all(void)
{
    uint64_t sum = sum_of_frames_out(sum_of_memory(sum_of_registers(1)));
    return sum_of_frames_out(sum_of_memory(sum_of_registers(sum_of_going_on(sum))));
}

/* --- both orders --- */

static bool are_same(const struct pick *a, const struct pick *b)
{
    return a->step.status == b->step.status && a->step.word == b->step.word &&
           !memcmp(&a->step.outcome, &b->step.outcome, sizeof a->step.outcome) &&
           !memcmp(a->bytes, b->bytes, sizeof a->bytes);
}

static void in_order(struct pick *first, struct pick *second)
{
    nicxi_heap_back();
    make(first);
    make(second);
}

static void try_pair(const struct pick *left, const struct pick *right, void *room)
{
    struct pick a = *left, b = *right, c = *left, d = *right, e = *left, f = *right;
    nicxi_heap_back();
    make(&a);
    nicxi_heap_back();
    make(&b);
    int row = nicxi_row_of(&a.step, &b.step);
    if (row < 0)
        return;
    tried[row][a.step.kind][b.step.kind]++;
    in_order(&c, &d);
    size_t size = nicxi_heap_size();
    nicxi_heap_copy(room);
    in_order(&f, &e);
    if (!are_same(&a, &c) || !are_same(&a, &e) || !are_same(&b, &d) || !are_same(&b, &f))
        fail(row, "a step's result depends on the order");
    if (nicxi_heap_is(room, size))
        return;
    uint64_t sum = sum_of_all();
    in_order(&c, &d);
    if (sum != sum_of_all())
        fail(row, "the two orders lead to different states");
}

static const uint8_t kinds[] = {STEP_LOCAL,     STEP_READ, STEP_WRITE,  STEP_VF_READ, STEP_VF_WRITE,
                                STEP_PEEK,      STEP_POKE, STEP_RX,     STEP_TX,      STEP_RX_ENABLE,
                                STEP_TX_ENABLE, STEP_INT,  STEP_EEPROM, STEP_ARRIVE,  STEP_LINK};

enum { KINDS = sizeof kinds / sizeof *kinds };

/* Tries two steps for every pair of kinds. */
static void try_all(void *room)
{
    struct pick a, b;
    for (size_t k = 0; k < KINDS; k++)
        for (size_t j = k; j < KINDS; j++) {
            pick(&a, kinds[k]);
            pick(&b, kinds[j]);
            if (k == j && !below(3)) {
                b.step.address = a.step.address;
                b.step.vf = a.step.vf;
            }
            try_pair(&a, &b, room);
        }
}

/* Checks that each row was tried for each of its pairs of kinds, in at least some of the states. */
static void tell(unsigned states, bool all)
{
    uint64_t pairs = 0;
    unsigned few = 0, cells = 0, least = states / 100;
    for (int row = 0; row < nicxi_rows(); row++)
        for (size_t cell = 0; cell < KINDS * KINDS; cell++) {
            uint8_t a = kinds[cell / KINDS], b = kinds[cell % KINDS];
            if (a > b || !nicxi_row_has(row, a, b))
                continue;
            cells++;
            pairs += tried[row][a][b];
            few += tried[row][a][b] < least;
            if (all || tried[row][a][b] < least)
                printf("%8llu pairs of kinds %u and %u: %s\n", (unsigned long long)tried[row][a][b], a, b,
                       nicxi_row_name(row));
        }
    printf("%d rows of %u pairs of kinds, %llu pairs in both orders\n", nicxi_rows(), cells, (unsigned long long)pairs);
    if (few) {
        printf("%u pairs of kinds were tried too rarely\n", few);
        exit(1);
    }
}

int main(int argc, char **argv)
{
    unsigned states = argc > 1 ? (unsigned)strtoul(argv[1], NULL, 10) : 10000;
    uint64_t seed = argc > 2 ? strtoull(argv[2], NULL, 10) : 1;
    for (unsigned k = 0; k < states; k++) {
        chance = chance_of(seed, k);
        if (!nicxi_heap_open() || nic_open(&n, VFS, FIFO, BLOCKS) != NIC_DONE)
            return 2;
        some_state();
        void *room = malloc(4 * nicxi_heap_size());
        if (!room || !nicxi_heap_keep())
            return 2;
        try_all(room);
        free(room);
        nicxi_heap_close();
    }
    tell(states, argc > 3);
    return 0;
}
