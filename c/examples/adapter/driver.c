#include "driver.h"

#include <stdlib.h>
#include <string.h>

#include "os.h"

/* With -fsanitize=address, reports each access to a packet that the device owns, or that is free. */
#if defined __has_feature
#if __has_feature(address_sanitizer)
#define __SANITIZE_ADDRESS__ 1 /* as gcc defines it */
#endif
#endif
#ifdef __SANITIZE_ADDRESS__
#include <sanitizer/asan_interface.h>
#define POISON(place, bytes) ASAN_POISON_MEMORY_REGION(place, bytes)
#define UNPOISON(place, bytes) ASAN_UNPOISON_MEMORY_REGION(place, bytes)
#else
#define POISON(place, bytes) ((void)(place))
#define UNPOISON(place, bytes) ((void)(place))
#endif

enum { HEADER = 64, LARGE = 2048, VECTOR = 0, CAUSE = 1 << VECTOR };

/* --- registers of the 82599 --- */

enum {
    CTRL = 0x00000,
    CTRL_EXT = 0x00018,
    EICR = 0x00800,
    EIAC = 0x00810,
    EIMS = 0x00880,
    EIMC = 0x00888,
    EIAM = 0x00890,
    GPIE = 0x00898,
    IVAR0 = 0x00900,
    RDBAL0 = 0x01000,
    RDBAH0 = 0x01004,
    RDLEN0 = 0x01008,
    RDH0 = 0x01010,
    SRRCTL0 = 0x01014,
    RDT0 = 0x01018,
    RXDCTL0 = 0x01028,
    RDRXCTL = 0x02F00,
    RXCTRL = 0x03000,
    HLREG0 = 0x04240,
    DMATXCTL = 0x04A80,
    FCTRL = 0x05080,
    TDBAL0 = 0x06000,
    TDBAH0 = 0x06004,
    TDLEN0 = 0x06008,
    TDH0 = 0x06010,
    TDT0 = 0x06018,
    TXDCTL0 = 0x06028,
    RAL0 = 0x0A200,
    RAH0 = 0x0A204
};

#define CTRL_RST (1u << 26)
#define CTRL_EXT_DRV_LOAD (1u << 28)
#define GPIE_MSIX (1u << 4)
#define GPIE_OCD (1u << 5)
#define GPIE_EIAME (1u << 30)
#define GPIE_PBA (1u << 31)
#define QUEUE_ENABLE (1u << 25)
#define TXDCTL_THRESHOLDS (1u << 8 | 32u)
#define SRRCTL_ADVANCED (1u << 25)
#define RDRXCTL_WANTED (1u << 1 | 1u << 25 | 1u << 26) /* CRCSTRIP, RSCACKC, FCOE_WRFIX */
#define HLREG0_WANTED (1u << 0 | 1u << 1 | 1u << 10)   /* TXCRCEN, RXCRCSTRP, TXPADEN */
#define FCTRL_BAM (1u << 10)
#define RAH_AV (1u << 31)

/* --- descriptors, as the device reads and writes them --- */

struct descriptor {
    volatile uint64_t address; /* bus address of the packet; the driver ignores what the device writes here */
    volatile uint32_t command; /* transmit: length and commands; receive write-back: DD and EOP */
    volatile uint32_t status;  /* transmit: DD and the frame's length; receive write-back: the length */
};

#define TX_DATA (3u << 20 | 1u << 29)             /* an advanced data descriptor */
#define TX_WHOLE (1u << 24 | 1u << 25 | 1u << 27) /* EOP, IFCS, RS */
#define DONE 1u
#define RX_LENGTH 0xFFFFu

/* --- packets --- */

/* All packets of one side, in one block of memory, and a list of the free ones. */
struct pool {
    struct packet *packets;
    uint64_t bus;
    unsigned count, free_count;
    struct packet *free[2 * MOST_SLOTS];
};

struct ring {
    struct descriptor *slots;
    uint64_t bus;
    unsigned next, oldest, used;
    struct packet *packets[MOST_SLOTS];
    struct pool pool;
};

static struct ring rx, tx;
static unsigned slots;

static void put_back(struct pool *pool, struct packet *packet)
{
    pool->free[pool->free_count++] = packet;
    POISON(packet, sizeof *packet);
}

static struct packet *take(struct pool *pool)
{
    if (!pool->free_count)
        return NULL;
    struct packet *packet = pool->free[--pool->free_count];
    UNPOISON(packet, sizeof *packet);
    return packet;
}

static bool open_pool(struct pool *pool, unsigned count)
{
    pool->packets = os_dma_alloc(count * sizeof *pool->packets, &pool->bus);
    if (!pool->packets)
        return false;
    for (unsigned k = 0; k < count; k++) {
        pool->packets[k].bus = pool->bus + k * sizeof *pool->packets + HEADER;
        put_back(pool, &pool->packets[k]);
    }
    pool->count = count;
    return true;
}

static void close_pool(struct pool *pool)
{
    if (!pool->packets)
        return;
    UNPOISON(pool->packets, pool->count * sizeof *pool->packets);
    os_dma_free(pool->packets, pool->bus);
}

/* Hands a packet to the device. Its header stays poisoned until the device returns it, to catch an overflow of the
   packet before it. */
static uint64_t give(struct ring *ring, unsigned slot, struct packet *packet)
{
    uint64_t bus = packet->bus;
    ring->packets[slot] = packet;
    POISON(packet, HEADER);
    return bus;
}

static struct packet *take_back(struct ring *ring, unsigned slot)
{
    struct packet *packet = ring->packets[slot];
    UNPOISON(packet, HEADER);
    return packet;
}

/* --- rings --- */

static unsigned after(unsigned slot)
{
    return (slot + 1) % slots;
}

static void post(unsigned slot, struct packet *packet)
{
    rx.slots[slot].address = give(&rx, slot, packet);
    rx.slots[slot].command = 0;
    rx.slots[slot].status = 0;
}

static bool open_ring(struct ring *ring)
{
    memset(ring, 0, sizeof *ring);
    ring->slots = os_dma_alloc(slots * sizeof *ring->slots, &ring->bus);
    return ring->slots && open_pool(&ring->pool, 2 * slots);
}

static void close_ring(struct ring *ring)
{
    if (ring->slots)
        os_dma_free(ring->slots, ring->bus);
    close_pool(&ring->pool);
    memset(ring, 0, sizeof *ring);
}

/* Enables or disables a queue, and waits until its register shows the change. */
static void switch_queue(uint32_t offset, uint32_t word)
{
    os_write32(offset, word);
    while ((os_read32(offset) & QUEUE_ENABLE) != (word & QUEUE_ENABLE))
        continue;
}

static void start_receive(void)
{
    for (unsigned slot = 0; slot < slots; slot++)
        post(slot, take(&rx.pool));
    os_write32(RDBAL0, (uint32_t)rx.bus);
    os_write32(RDBAH0, (uint32_t)(rx.bus >> 32));
    os_write32(RDLEN0, slots * (uint32_t)sizeof *rx.slots);
    os_write32(RDH0, 0);
    os_write32(RDT0, 0);
    os_write32(SRRCTL0, SRRCTL_ADVANCED | LARGE >> 10);
    switch_queue(RXDCTL0, QUEUE_ENABLE);
    os_wmb();
    os_write32(RDT0, slots - 1);
}

static void start_transmit(void)
{
    os_write32(TDBAL0, (uint32_t)tx.bus);
    os_write32(TDBAH0, (uint32_t)(tx.bus >> 32));
    os_write32(TDLEN0, slots * (uint32_t)sizeof *tx.slots);
    os_write32(TDH0, 0);
    os_write32(TDT0, 0);
    switch_queue(TXDCTL0, QUEUE_ENABLE | TXDCTL_THRESHOLDS);
}

/* --- the device --- */

static void mask_all(void)
{
    os_write32(EIMC, 0x7FFFFFFF);
}

static void set_up_device(const uint8_t address[6])
{
    mask_all();
    os_write32(CTRL, CTRL_RST);
    while (os_read32(CTRL) & CTRL_RST)
        continue;
    mask_all();
    os_write32(CTRL_EXT, CTRL_EXT_DRV_LOAD);
    os_write32(RAL0, address[0] | (uint32_t)address[1] << 8 | (uint32_t)address[2] << 16 | (uint32_t)address[3] << 24);
    os_write32(RAH0, address[4] | (uint32_t)address[5] << 8 | RAH_AV);
    os_write32(FCTRL, FCTRL_BAM);
    os_write32(HLREG0, os_read32(HLREG0) | HLREG0_WANTED);
    os_write32(RDRXCTL, os_read32(RDRXCTL) | RDRXCTL_WANTED);
    os_write32(DMATXCTL, os_read32(DMATXCTL) | 1);
}

static void start_interrupts(void)
{
    os_write32(GPIE, GPIE_MSIX | GPIE_OCD | GPIE_EIAME | GPIE_PBA);
    os_write32(IVAR0, 0x8080 | VECTOR << 8 | VECTOR); /* both sides of queue 0 */
    os_write32(EIAC, CAUSE);
    os_write32(EIAM, CAUSE);
    os_write32(EIMS, CAUSE);
}

bool driver_open(const uint8_t address[6], unsigned wanted, bool interrupts)
{
    slots = wanted;
    bool has_memory = open_ring(&rx);
    if (!open_ring(&tx) || !has_memory) {
        close_ring(&rx);
        close_ring(&tx);
        return false;
    }
    set_up_device(address);
    start_receive();
    start_transmit();
    if (interrupts)
        start_interrupts(); /* before receive is enabled, so that the first frame already has its vector */
    os_write32(RXCTRL, 1);
    return true;
}

void driver_close(void)
{
    mask_all();
    switch_queue(RXDCTL0, 0);
    switch_queue(TXDCTL0, 0);
    os_write32(RXCTRL, 0);
    os_write32(CTRL_EXT, 0);
    os_write32(EICR, 0x7FFFFFFF);
    close_ring(&rx);
    close_ring(&tx);
}

void driver_rearm(void)
{
    os_write32(EIMS, CAUSE);
}

/* --- receiving --- */

struct packet *driver_receive(void)
{
    unsigned slot = rx.next;
    if (!(rx.slots[slot].command & DONE))
        return NULL;
    os_rmb();
    struct packet *fresh = take(&rx.pool);
    if (!fresh)
        return NULL;
    struct packet *packet = take_back(&rx, slot);
    packet->length = rx.slots[slot].status & RX_LENGTH;
    post(slot, fresh);
    os_wmb();
    os_write32(RDT0, slot);
    rx.next = after(slot);
    return packet;
}

void driver_release(struct packet *packet)
{
    put_back(&rx.pool, packet);
}

/* --- sending --- */

struct packet *driver_packet(void)
{
    return take(&tx.pool);
}

void driver_discard(struct packet *packet)
{
    put_back(&tx.pool, packet);
}

unsigned driver_reclaim(void)
{
    for (; tx.used && tx.slots[tx.oldest].status & DONE; tx.oldest = after(tx.oldest), tx.used--)
        put_back(&tx.pool, take_back(&tx, tx.oldest));
    return tx.used;
}

bool driver_send(struct packet *packet)
{
    unsigned slot = tx.next;
    if (packet->length > LONGEST || driver_reclaim() == slots - 1)
        return false;
    uint32_t length = packet->length;
    tx.slots[slot].address = give(&tx, slot, packet);
    tx.slots[slot].command = length | TX_DATA | TX_WHOLE;
    tx.slots[slot].status = length << 14;
    tx.used++;
    tx.next = after(slot);
    os_wmb();
    os_write32(TDT0, tx.next);
    return true;
}
