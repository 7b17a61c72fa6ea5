#include "card.h"

#include "nic82599_desc.h"
#include "nic82599_regs.h"

enum {
    VENDOR = 0x8086,
    COMMAND = 0x04,
    BAR0 = 0x10,
    CAPABILITIES = 0x34,
    LINE = 0x3C,
    COMMANDS = 0x0006, /* memory space and bus master */
    NO_LINE = 0x0400,
    MSI = 0x05,
    MSI_ON = 0x00010000,   /* in the capability's first word, with MSI's number and the next capability's place */
    MSI_WIDE = 0x00800000, /* its address has 64 bits */
    SLOTS = 64,
    QUEUE_CAUSE = 0, /* for RTxQ: both sides of queue 0 raise this cause */
    MOST_WAITS = 100000
};

/* Device IDs of the 82599's physical function. */
static const uint16_t devices[] = {0x10F7, 0x10FB, 0x10F8, 0x10F9, 0x10FC};

/* A descriptor as four words. A 64-bit read takes two loads on this processor, in any order, so the length could be
   read before DD and be stale. */
struct slot {
    volatile uint32_t words[4];
};

/* DMA memory. There is no paging, so a pointer is a bus address. */
static struct slot receives[SLOTS] __attribute__((aligned(128)));
static struct slot sends[SLOTS] __attribute__((aligned(128)));
static uint8_t received[SLOTS][FRAME_ROOM], sent[SLOTS][FRAME_ROOM];

static struct {
    volatile uint8_t *window;
    struct pci_function function;
    uint8_t line, address[6]; /* line: MESSAGE with MSI */
    uint16_t next;            /* the receive slot for the next frame */
    uint16_t free, oldest;    /* the transmit slot to fill, and the oldest in flight */
    uint32_t causes;
} card;

/* --- registers --- */

static uint32_t read(uint32_t address)
{
    return *(volatile uint32_t *)(card.window + address);
}

static void write(uint32_t address, uint32_t word)
{
    /* Earlier stores must be in memory first, because after a tail write the card reads memory. x86 keeps stores in
       order, so a compiler barrier is enough. */
    __asm__ volatile("" : : : "memory");
    *(volatile uint32_t *)(card.window + address) = word;
}

/* Waits until these bits of a register are all set, or all clear. Returns false on timeout. */
static bool wait_for(uint32_t address, uint32_t bits, bool set)
{
    for (unsigned count = 0; count < MOST_WAITS; count++) {
        if ((read(address) & bits) == (set ? bits : 0))
            return true;
        wait_us(10);
    }
    say("card: register ");
    say_hex(address, 5);
    say(" doesn't change\n");
    return false;
}

/* --- setup, in the datasheet's order --- */

static bool find(void)
{
    struct pci_function it = {0};
    for (unsigned k = 0; k < sizeof devices / sizeof *devices && !it.found; k++)
        it = pci_find(VENDOR, devices[k]);
    if (!it.found)
        return false;
    /* BAR0 is a 64-bit BAR; the firmware places it below 4 GB if there is room. */
    uint32_t low = pci_read(it, BAR0), high = pci_read(it, BAR0 + 4);
    if ((low & 1) || high || !(low & ~UINT32_C(0xF)))
        return false;
    card.window = (volatile uint8_t *)(low & ~UINT32_C(0xF));
    card.line = (uint8_t)pci_read(it, LINE);
    uint32_t command = pci_read(it, COMMAND) & 0xFFFF;
    pci_write(it, COMMAND, (command | COMMANDS) & ~(uint32_t)NO_LINE);
    card.function = it;
    return true;
}

static bool reset(void)
{
    write(NIC_EIMC, 0x7FFFFFFF);
    write(NIC_CTRL, read(NIC_CTRL) | NIC_CTRL_RST);
    wait_us(10000); /* the datasheet requires 10 ms */
    if (!wait_for(NIC_CTRL, NIC_CTRL_RST, false))
        return false;
    write(NIC_EIMC, 0x7FFFFFFF);
    (void)read(NIC_EICR); /* clears earlier causes */
    return wait_for(NIC_EEC, NIC_EEC_AUTO_RD, true) && wait_for(NIC_RDRXCTL, NIC_RDRXCTL_DMAIDONE, true);
}

static void take_address(void)
{
    uint32_t low = read(NIC_RAL(0)), high = read(NIC_RAH(0));
    for (unsigned k = 0; k < 4; k++)
        card.address[k] = (uint8_t)(low >> 8 * k);
    card.address[4] = (uint8_t)high;
    card.address[5] = (uint8_t)(high >> 8);
}

static void put(struct slot *slot, nic_desc d)
{
    slot->words[0] = (uint32_t)d.first;
    slot->words[1] = (uint32_t)(d.first >> 32);
    slot->words[2] = (uint32_t)d.second;
    slot->words[3] = (uint32_t)(d.second >> 32);
}

/* Reads the second half of a descriptor, its low word (with DD) first. */
static nic_desc get(const struct slot *slot)
{
    uint64_t low = slot->words[2];
    return (nic_desc){0, low | (uint64_t)slot->words[3] << 32};
}

static void give(uint16_t slot)
{
    put(&receives[slot], nic_rx_desc((uint32_t)received[slot]));
}

static bool start_receiving(void)
{
    for (uint16_t slot = 0; slot < SLOTS; slot++)
        give(slot);
    write(NIC_FCTRL, NIC_FCTRL_BAM);
    write(NIC_HLREG0, read(NIC_HLREG0) | NIC_HLREG0_RXCRCSTRP | NIC_HLREG0_TXCRCEN | NIC_HLREG0_TXPADEN);
    write(NIC_RDRXCTL, read(NIC_RDRXCTL) | NIC_RDRXCTL_CRCSTRIP | NIC_RDRXCTL_RSCACKC | NIC_RDRXCTL_FCOE_WRFIX);
    write(NIC_RDBAL(0), (uint32_t)receives);
    write(NIC_RDBAH(0), 0);
    write(NIC_RDLEN(0), sizeof receives);
    write(NIC_SRRCTL(0), NIC_SRRCTL_BSIZEPACKET_IS(FRAME_ROOM / 1024) | NIC_SRRCTL_DESCTYPE_IS(1));
    write(NIC_RDH(0), 0);
    write(NIC_RDT(0), 0);
    write(NIC_RXDCTL(0), read(NIC_RXDCTL(0)) | NIC_RXDCTL_ENABLE);
    if (!wait_for(NIC_RXDCTL(0), NIC_RXDCTL_ENABLE, true))
        return false;
    write(NIC_RXCTRL, read(NIC_RXCTRL) | NIC_RXCTRL_RXEN);
    write(NIC_RDT(0), SLOTS - 1); /* all slots but one: in an empty ring, head and tail are equal */
    return true;
}

static bool start_sending(void)
{
    write(NIC_DMATXCTL, read(NIC_DMATXCTL) | NIC_DMATXCTL_TE);
    write(NIC_TDBAL(0), (uint32_t)sends);
    write(NIC_TDBAH(0), 0);
    write(NIC_TDLEN(0), sizeof sends);
    write(NIC_TDH(0), 0);
    write(NIC_TDT(0), 0);
    write(NIC_TXDCTL(0), read(NIC_TXDCTL(0)) | NIC_TXDCTL_ENABLE);
    return wait_for(NIC_TXDCTL(0), NIC_TXDCTL_ENABLE, true);
}

/* Has the card send its only message (MSI) in place of the line. Returns false if it has no MSI. */
static bool use_message(void)
{
    struct pci_function it = card.function;
    uint8_t at = (uint8_t)pci_read(it, CAPABILITIES);
    while (at && (uint8_t)pci_read(it, at) != MSI)
        at = (uint8_t)(pci_read(it, at) >> 8);
    if (!at)
        return false;
    uint32_t first = pci_read(it, at);
    struct message message = take_message();
    pci_write(it, at + 4, message.address);
    if (first & MSI_WIDE)
        pci_write(it, at + 8, 0);
    pci_write(it, at + (first & MSI_WIDE ? 12 : 8), message.data);
    pci_write(it, at, first | MSI_ON);
    card.line = MESSAGE;
    return true;
}

/* Both sides of queue 0 raise cause 0. Every unmasked cause raises the only interrupt line until EICR is read; without
   the line, each cause that becomes set and unmasked sends the message. */
static bool start_interrupts(void)
{
    write(NIC_IVAR(0), NIC_IVAR_INT_ALLOC_0_IS(QUEUE_CAUSE) | NIC_IVAR_INT_ALLOC_VAL_0 |
                           NIC_IVAR_INT_ALLOC_1_IS(QUEUE_CAUSE) | NIC_IVAR_INT_ALLOC_VAL_1);
    if (!use_message()) {
        if (card.line >= 16)
            return false;
        take_line(card.line);
    }
    card_unmask();
    return true;
}

bool card_open(void)
{
    if (!find() || !reset())
        return false;
    take_address();
    if (!start_receiving() || !start_sending() || !start_interrupts())
        return false;
    write(NIC_CTRL_EXT, read(NIC_CTRL_EXT) | NIC_CTRL_EXT_DRV_LOAD);
    return true;
}

const uint8_t *card_address(void)
{
    return card.address;
}

bool card_has_link(void)
{
    return (read(NIC_LINKS) & NIC_LINKS_LINK_UP) != 0;
}

/* --- frames --- */

uint8_t *card_frame(uint16_t *length)
{
    nic_desc d = get(&receives[card.next]);
    if (!nic_rx_is_done(d))
        return NULL;
    __asm__ volatile("" : : : "memory"); /* read the bytes only after DD */
    *length = nic_rx_length(d);
    return received[card.next];
}

void card_next(void)
{
    give(card.next);
    /* The tail is the slot taken last, so the card never owns all slots. */
    write(NIC_RDT(0), card.next);
    card.next = (card.next + 1) % SLOTS;
}

/* Frees the slots of sent frames. */
static void reclaim(void)
{
    while (card.oldest != card.free && nic_tx_is_done(get(&sends[card.oldest])))
        card.oldest = (card.oldest + 1) % SLOTS;
}

bool card_send(const uint8_t *frame, uint16_t length)
{
    uint16_t slot = card.free, next = (slot + 1) % SLOTS;
    reclaim();
    if (next == card.oldest || length > FRAME_ROOM)
        return false;
    for (uint16_t k = 0; k < length; k++)
        sent[slot][k] = frame[k];
    put(&sends[slot], nic_tx_desc((uint32_t)sent[slot], length, length, NIC_TXD_EOP | NIC_TXD_IFCS | NIC_TXD_RS));
    card.free = next;
    write(NIC_TDT(0), next);
    return true;
}

/* --- interrupts --- */

/* Reading EICR clears the causes and lowers the line. The causes stay masked until card_unmask, so the main loop can
   poll. */
void line_is_up(void)
{
    uint32_t causes = read(NIC_EICR);
    write(NIC_EIMC, 0x7FFFFFFF);
    card.causes |= causes;
    end_of_interrupt(card.line);
}

unsigned card_causes(void)
{
    uint32_t causes = card.causes;
    card.causes = 0;
    return (causes & NIC_EICR_RTXQ ? CARD_FRAMES : 0) | (causes & NIC_EICR_LSC ? CARD_LINK : 0);
}

void card_unmask(void)
{
    write(NIC_EIMS, NIC_EIMS_RTXQ_IS(1u << QUEUE_CAUSE) | NIC_EIMS_LSC);
}
