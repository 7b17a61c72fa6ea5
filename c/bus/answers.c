/* Answers that the bus returns in the device's place, with the reasons. */
#include <string.h>

#include "inside.h"

#define SWSM 0x10140u
#define SWSM_SMBI 0x1u /* the semaphore between drivers: a read returns it and sets it */
#define SW_FW_SYNC 0x10160u
#define SYNC_SOFTWARE 0x1Fu /* bits 4:0, what drivers own */
#define SYNC_BITS 0x3FFu    /* also bits 9:5, what the firmware would own */
#define ANLP1 0x042B0u
#define FWSM 0x10148u
#define FWSM_VALID 0x8000u
#define RXPBSIZE 0x03C00u
#define RXPBSIZE_ALL 0x80000u /* bits 19:10: 512 KB */
#define SECTXSTAT 0x08804u
#define SECRXSTAT 0x08D04u
#define SECURITY_READY 0x1u  /* security block is idle */
#define SECURITY_OFF 0x2u    /* no IPsec: on the card, a fuse or a pin disables it */
#define ANLP1_STATE 0x10000u /* bits 19:16, the state of autonegotiation: nonzero while it is in progress */

static const struct {
    const char *name;
    unsigned int bit;
    const char *what, *why;
} answers[] = {
    {"SWSM", BUS_SWSM, "reads of SWSM (0x10140) with the value last written; each read sets bit 0",
     "the register table lacks it, and drivers wait for it"},
    {"ANLP1", BUS_ANLP1, "reads of ANLP1 (0x042B0) with 1 in bits 19:16",
     "the register table lacks it, and drivers treat 0 as an error"},
    {"EICS", BUS_EICS, "reads of EICS (0x00808) with the causes in EICR, without clearing any",
     "the bench returns 0, but Linux looks there for the causes of its other vector"},
    {"EERD", BUS_EERD, "EEPROM reads (EERD, 0x10014) during master disable: it clears CTRL bit 2 for the EEPROM step",
     "the bench then completes no read, but drivers still read their EEPROM"},
    {"ABSENT", BUS_ABSENT,
     "accesses to status, link, mailbox and interrupt registers by virtual functions without a pool",
     "the bench returns all ones, which Linux takes for a removed card"},
    {"FWSM", BUS_FWSM, "reads of FWSM (0x10148) with bit 15 set: the firmware is valid",
     "the register table lacks it, and Linux 6.12 warns of a firmware error every two seconds"},
    {"RXPBSIZE", BUS_RXPBSIZE, "reads of RXPBSIZE[0] (0x03C00) with 0x80000: 512 KB",
     "the register table lacks it, and Linux warns about missing headroom"},
    {"IPSEC", BUS_IPSEC, "reads of SECTXSTAT (0x08804) and SECRXSTAT (0x08D04) with 3: ready, IPsec off",
     "the register table lacks them, and Linux takes 0 for a card that supports IPsec"},
    {"SW_FW_SYNC", BUS_SYNC, "reads of SW_FW_SYNC (0x10160) with the value last written; a reset clears bits 4:0",
     "the register table lacks it, and a driver that reads back what it wrote sees 0"},
};

static bool given(struct bus *it, enum bus_answer answer)
{
    if (!(it->options.answers & answer))
        return false;
    for (unsigned int i = 0; i < sizeof answers / sizeof *answers; i++)
        it->counts.answered[i] += answers[i].bit == answer;
    return true;
}

unsigned int bus_answers(const struct bus *it)
{
    return it->options.answers;
}

unsigned int bus_answer_named(const char *name)
{
    for (size_t i = 0; i < sizeof answers / sizeof *answers; i++)
        if (strcmp(answers[i].name, name) == 0)
            return answers[i].bit;
    return 0;
}

void bus_tell_answers(unsigned int which)
{
    for (size_t i = 0; i < sizeof answers / sizeof *answers; i++)
        if (which & answers[i].bit)
            printf("the shim answers %s\n", answers[i].what);
}

/* Returns the answer to reads of a register that the device lacks; 0: none. */
static enum bus_answer answer_at(uint32_t address)
{
    switch (address) {
    case SWSM: return BUS_SWSM;
    case SW_FW_SYNC: return BUS_SYNC;
    case ANLP1: return BUS_ANLP1;
    case FWSM: return BUS_FWSM;
    case RXPBSIZE: return BUS_RXPBSIZE;
    case SECTXSTAT:
    case SECRXSTAT: return BUS_IPSEC;
    default: return 0;
    }
}

bool bus_answers_at(const struct bus *it, uint32_t address)
{
    return (it->options.answers & answer_at(address)) != 0;
}

static uint32_t take_semaphore(struct bus *it)
{
    uint32_t word = it->semaphore;
    it->semaphore |= SWSM_SMBI;
    return word;
}

uint32_t answer_stray(struct bus *it, uint32_t address, uint32_t word)
{
    if (!given(it, answer_at(address)))
        return word;
    switch (address) {
    case SWSM: return take_semaphore(it);
    case SW_FW_SYNC: return it->sync;
    case ANLP1: return ANLP1_STATE;
    case FWSM: return FWSM_VALID;
    case RXPBSIZE: return RXPBSIZE_ALL;
    default: return SECURITY_READY | SECURITY_OFF;
    }
}

void answer_stray_write(struct bus *it, uint32_t address, uint32_t word)
{
    if (address == SWSM)
        it->semaphore = word;
    else if (address == SW_FW_SYNC)
        it->sync = word & SYNC_BITS;
}

void answer_reset(struct bus *it)
{
    it->sync &= ~SYNC_SOFTWARE;
}

uint32_t answer_read(struct bus *it, uint32_t address, uint32_t word)
{
    return address == NIC_EICS && given(it, BUS_EICS) ? bus_peek(it, NIC_EICR) : word;
}

void answer_eeprom(struct bus *it)
{
    nic_outcome outcome;
    uint32_t control = bus_peek(it, NIC_CTRL);
    bool lifts = control & NIC_CTRL_MASTER_DISABLE && bus_peek(it, NIC_EERD) & NIC_EERD_START && given(it, BUS_EERD);
    if (lifts)
        nic_write32(&it->device, NIC_CTRL, control & ~NIC_CTRL_MASTER_DISABLE);
    it->counts.eeprom_words += nic_eeprom_step(&it->device, &outcome) == NIC_DONE;
    if (lifts)
        nic_write32(&it->device, NIC_CTRL, control);
}

/* ---- virtual functions without a pool ---- */

/* Returns the physical function's address of a virtual function's register that belongs to no queue; BUS_SPACE if there
   is none. */
static uint32_t own_address(unsigned int function, uint32_t offset)
{
    unsigned int vf = function - 1;
    switch (offset) {
    case NIC_VFCTRL: return NIC_PVFCTRL(vf);
    case NIC_VFSTATUS: return NIC_STATUS;
    case NIC_VFLINKS: return NIC_LINKS;
    case NIC_VTEICR: return NIC_PVTEICR(vf);
    case NIC_VTEICS: return NIC_PVTEICS(vf);
    case NIC_VTEIMS: return NIC_PVTEIMS(vf);
    case NIC_VTEIMC: return NIC_PVTEIMC(vf);
    case NIC_VTEIAC: return NIC_PVTEIAC(vf);
    case NIC_VTEIAM: return NIC_PVTEIAM(vf);
    case NIC_VTIVAR_MISC: return NIC_PVTIVAR_MISC(vf);
    case NIC_VFMAILBOX: return NIC_PVFMAILBOX(vf);
    default:
        return offset >= NIC_VFMBMEM(0) && offset < NIC_VFMBMEM(16) ? NIC_PFMBMEM(16 * vf) + offset - NIC_VFMBMEM(0)
                                                                    : BUS_SPACE;
    }
}

bool answer_absent_read(struct bus *it, unsigned int function, uint32_t offset, uint32_t *word)
{
    if (!given(it, BUS_ABSENT))
        return false;
    uint32_t address = own_address(function, offset);
    *word = 0;
    return address != BUS_SPACE && nic_read32(&it->device, address, word) == NIC_DONE;
}

void answer_absent_write(struct bus *it, unsigned int function, uint32_t offset, uint32_t word)
{
    uint32_t address = own_address(function, offset);
    if (address != BUS_SPACE && given(it, BUS_ABSENT))
        nic_write32(&it->device, address, word);
}
