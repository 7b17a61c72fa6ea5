/* Another driver owns the queue after the driver's last one, with its own memory, vector and mask. */
#include "../engine/drive.h"

enum { VECTOR = 15, SLOTS = 8, RING = OTHERS * NIC_BLOCK_BYTES };

static const uint8_t mark = 0x5C;

static unsigned others(void)
{
    return nicd.base + nicd.setup.queues;
}

static void move_in(void)
{
    unsigned queue = others(), shift = 16 * (queue % 2);
    uint8_t bytes[64];
    for (unsigned k = 0; k < sizeof bytes; k++)
        bytes[k] = mark;
    nicd.by_card = true;
    for (uint32_t block = OTHERS; block < OTHERS + 2; block++)
        nicx_lend(block);
    nicx_dma_write(RING + NIC_BLOCK_BYTES, bytes, sizeof bytes);
    nicx_write32(NIC_RDBAL(queue), RING);
    nicx_write32(NIC_RDLEN(queue), NIC_DESC_BYTES * SLOTS);
    nicx_write32(NIC_SRRCTL(queue), NIC_SRRCTL_DESCTYPE_IS(1) | NIC_SRRCTL_BSIZEPACKET_IS(2));
    nicx_write32(NIC_RXDCTL(queue), NIC_RXDCTL_ENABLE);
    nicx_write32(NIC_TDBAL(queue), RING + 1024);
    nicx_write32(NIC_TDLEN(queue), NIC_DESC_BYTES * SLOTS);
    nicx_write32(NIC_TXDCTL(queue), NIC_TXDCTL_ENABLE);
    nicx_write32(NIC_IVAR(queue / 2), (nicd_peek(NIC_IVAR(queue / 2)) & ~(0xFFFFu << shift)) |
                                          (uint32_t)(0x80 | VECTOR) << shift |
                                          (uint32_t)(0x80 | VECTOR) << (shift + 8));
    nicx_write32(NIC_EIMS, 1u << VECTOR);
    while (!(nicx_read32(NIC_RXDCTL(queue)) & nicx_read32(NIC_TXDCTL(queue)) & NIC_RXDCTL_ENABLE))
        nicx_wait();
    nicd.by_card = false;
}

/* Whether the driver shares the device's causes and masks. One that doesn't may mask all causes in its handler. */
static bool shares_causes(void)
{
    return nicd.driver->can & NICD_SHARED_DEVICE;
}

/* Checks at the end that the other driver's queue, interrupt and memory are unchanged. */
static const char *judge(void)
{
    unsigned queue = others(), shift = 16 * (queue % 2);
    uint8_t byte = 0;
    if (!(nicd_peek(NIC_RXDCTL(queue)) & nicd_peek(NIC_TXDCTL(queue)) & NIC_RXDCTL_ENABLE))
        return nicd_words("another driver's queue %u is off: RXDCTL is 0x%08x, TXDCTL 0x%08x", queue,
                          (unsigned)nicd_peek(NIC_RXDCTL(queue)), (unsigned)nicd_peek(NIC_TXDCTL(queue)));
    if (nicd_peek(NIC_RDBAL(queue)) != RING || nicd_peek(NIC_TDBAL(queue)) != RING + 1024)
        return nicd_words("the rings of another driver's queue %u moved: RDBAL is 0x%x, TDBAL 0x%x", queue,
                          (unsigned)nicd_peek(NIC_RDBAL(queue)), (unsigned)nicd_peek(NIC_TDBAL(queue)));
    if ((nicd_peek(NIC_IVAR(queue / 2)) >> shift & 0xFFFF) != (0x80 | VECTOR) * 0x101u)
        return nicd_words("the IVAR bytes of another driver's queue %u changed: IVAR(%u) is 0x%08x", queue, queue / 2,
                          (unsigned)nicd_peek(NIC_IVAR(queue / 2)));
    if (shares_causes() && !(nicd_peek(NIC_EIMS) >> VECTOR & 1))
        return nicd_words("another driver's cause %u is masked: EIMS is 0x%08x", VECTOR, (unsigned)nicd_peek(NIC_EIMS));
    nic_dma_read(nicx_device(), RING + NIC_BLOCK_BYTES, &byte, 1);
    return byte == mark ? NULL
                        : nicd_words("the byte at 0x%llx in another driver's memory changed to 0x%02x from 0x%02x",
                                     (unsigned long long)(RING + NIC_BLOCK_BYTES), byte, mark);
}

static bool is_in_set(uint32_t address, uint32_t first)
{
    return address >= first && address < first + 0x40;
}

static void see_causes(const nicxo_step *step)
{
    uint32_t address = step->address;
    if (!shares_causes() || step->kind != STEP_WRITE || !(step->word >> VECTOR & 1))
        return;
    if (address == NIC_EICR && step->word != 0x7FFFFFFF)
        nicd_note("EICR is written with 0x%08x, which clears another driver's cause %u", (unsigned)step->word, VECTOR);
    if (address == NIC_EIMS || address == NIC_EIMC)
        nicd_note("the driver writes the mask of another driver's cause: 0x%08x", (unsigned)step->word);
}

static void see(const nicxo_step *step, bool is_drivers)
{
    char name[NICXO_NAME];
    uint32_t address = step->address;
    if (!is_drivers || !nicd.is_open)
        return;
    if (step->kind == STEP_WRITE &&
        (is_in_set(address, NIC_RDBAL(others())) || is_in_set(address, NIC_TDBAL(others()))))
        nicd_note("the driver writes %s, which doesn't belong to its queue", nicxo_register(address, name));
    if ((step->kind == STEP_POKE || step->kind == STEP_PEEK || step->kind == STEP_TAKE) && step->bus >= RING)
        nicd_note("the driver accesses 0x%llx, another driver's memory", (unsigned long long)step->bus);
    see_causes(step);
}

static void close_it(void)
{
    nicd_hold();
    nicd_close();
}

static void resize_it(void)
{
    nicd_hold();
    nicd_resize(16);
    nicd_go_on();
}

static const char rule[] = "A driver leaves other drivers' resources alone: queues, IVAR bytes and memory; if it "
                           "declares NICD_SHARED_DEVICE, also causes and masks";

const struct scenario nicd_neighbours[] = {
    ROW("neighbour-traffic", "traffic while another driver uses a queue", rule, "the adapter's open",
        RECEIVES | PHYSICAL, .ways = NEIGHBOUR, .begin = move_in, .takes = true, .rings = 1, .sends = 2, .comes = 2,
        .end = judge, .see = see),
    ROW("neighbour-interrupts", "traffic with interrupts while another driver uses a queue", rule, "the adapter's open",
        RECEIVES | PHYSICAL | INTERRUPTS, .ways = NEIGHBOUR, .setup = {.interrupts = true}, .begin = move_in,
        .takes = true, .sends = 10, .comes = 10, .end = judge, .see = see),
    ROW("neighbour-close", "close while another driver uses a queue", rule, "NICD_SHARED_DEVICE",
        RECEIVES | PHYSICAL | SHARED_DEVICE, .ways = NEIGHBOUR | LOSSY | DROPS, .control = close_it, .begin = move_in,
        .takes = true, .comes = 3, .end = judge, .see = see),
    ROW("neighbour-resize", "new rings while another driver uses a queue", rule, "NICD_SHARED_DEVICE",
        RECEIVES | PHYSICAL | SHARED_DEVICE | RESIZE, .ways = NEIGHBOUR | LOSSY | DROPS, .control = resize_it,
        .begin = move_in, .takes = true, .comes = 3, .end = judge, .see = see),
    {0}};
