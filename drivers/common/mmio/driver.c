/* A driver that accesses its registers with volatile loads and stores, and contains no reference to the bench: its
   register names are its own. */
#include "driver.h"

enum { SLOTS = 8, BUFFER = 2048, RX_RING = 0, TX_RING = 0x400, BUFFERS = 0x1000 };
enum {
    CTRL = 0x0,
    RDBAL = 0x1000,
    RDBAH = 0x1004,
    RDLEN = 0x1008,
    SRRCTL = 0x1014,
    RDT = 0x1018,
    RXDCTL = 0x1028,
    RXCTRL = 0x3000,
    DMATXCTL = 0x4A80,
    FCTRL = 0x5080,
    TDBAL = 0x6000,
    TDBAH = 0x6004,
    TDLEN = 0x6008,
    TDT = 0x6018,
    TXDCTL = 0x6028
};
#define RESET (1u << 26)      /* CTRL */
#define ENABLE (1u << 25)     /* RXDCTL, TXDCTL */
#define BROADCAST (1u << 10)  /* FCTRL */
#define ONE_BUFFER (1u << 25) /* SRRCTL.DESCTYPE */
#define DONE 1u
#define WHOLE_FRAME (1u << 24 | 1u << 25 | 1u << 27 | 1u << 29 | 3u << 20) /* EOP, IFCS, RS, DEXT, data */

struct descriptor {
    volatile uint64_t address, rest;
};

static volatile unsigned char *registers;
static struct descriptor *rx, *tx;
static uint64_t buffers;
static unsigned int received, sent; /* the next slots to receive from, and to give back */

static volatile uint32_t *at(uint32_t offset)
{
    return (volatile uint32_t *)(registers + offset);
}

static void set_up_receiving(uint64_t bus)
{
    *at(RDBAL) = (uint32_t)bus;
    *at(RDBAH) = (uint32_t)(bus >> 32);
    *at(RDLEN) = SLOTS * sizeof *rx;
    *at(SRRCTL) = BUFFER / 1024 | ONE_BUFFER;
    *at(RXDCTL) |= ENABLE;
    while (!(*at(RXDCTL) & ENABLE))
        continue;
    for (unsigned int slot = 0; slot < SLOTS; slot++)
        rx[slot] = (struct descriptor){buffers + slot * BUFFER, 0};
    *at(FCTRL) |= BROADCAST;
    *at(RXCTRL) |= 1;
    *at(RDT) = SLOTS - 1;
}

static void set_up_sending(uint64_t bus)
{
    *at(DMATXCTL) |= 1;
    *at(TDBAL) = (uint32_t)bus;
    *at(TDBAH) = (uint32_t)(bus >> 32);
    *at(TDLEN) = SLOTS * sizeof *tx;
    *at(TXDCTL) |= ENABLE;
    while (!(*at(TXDCTL) & ENABLE))
        continue;
}

void driver_open(volatile void *bar, void *memory, uint64_t bus)
{
    registers = bar;
    rx = (struct descriptor *)((char *)memory + RX_RING);
    tx = (struct descriptor *)((char *)memory + TX_RING);
    buffers = bus + BUFFERS;
    *at(CTRL) |= RESET;
    while (*at(CTRL) & RESET)
        continue;
    set_up_receiving(bus + RX_RING);
    set_up_sending(bus + TX_RING);
}

/* Gives the slots of all frames that are sent back to the card. */
static void give_back(void)
{
    for (; sent != received && tx[sent].rest >> 32 & DONE; sent = (sent + 1) % SLOTS) {
        rx[sent] = (struct descriptor){buffers + sent * BUFFER, 0};
        *at(RDT) = sent;
    }
}

void driver_poll(void)
{
    give_back();
    for (uint64_t rest; (rest = rx[received].rest) & DONE; give_back()) {
        uint64_t length = rest >> 32 & 0xFFFF;
        tx[received] = (struct descriptor){buffers + received * BUFFER, length << 46 | WHOLE_FRAME | length};
        received = (received + 1) % SLOTS;
        *at(TDT) = received;
    }
}
