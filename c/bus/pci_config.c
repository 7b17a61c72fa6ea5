#include "pci_config.h"

#include <string.h>

#include "bus.h"

#define COMMAND 0x04u
#define COMMAND_LINE_OFF 0x04u /* in the command register's high byte */
#define STATUS 0x06u
#define STATUS_CAPABILITIES 0x0010u
#define STATUS_LINE 0x08u /* in the status register's low byte */
#define FIRST_CAPABILITY 0x34u
#define BAR(bar) (0x10u + 4 * (bar))
#define BAR_64_PREFETCHABLE 0x0000000Cu

#define INTERRUPT 0x3Cu /* interrupt line and pin */
#define PIN_A 1u

#define ID_POWER 0x01u
#define ID_MSI 0x05u
#define ID_MSIX 0x11u
#define ID_EXPRESS 0x10u
#define ID_SRIOV 0x0010u

#define MSI_ENABLE 0x01u    /* in the control field's low byte */
#define MSI_CONTROL 0x0180u /* 64-bit addresses, a mask bit for the vector */
#define MSIX_ENABLE 0x80u   /* in the control field's high byte */
#define EXPRESS_CONTROL 0x08u
#define EXPRESS_RESET 0x80u /* in the control field's high byte: initiate function level reset */

void pci_field(struct pci_config *it, unsigned int at, unsigned int bytes, uint32_t value, uint32_t mask)
{
    for (unsigned int i = 0; i < bytes; i++) {
        it->bytes[at + i] = (uint8_t)(value >> 8 * i);
        it->mask[at + i] = (uint8_t)(mask >> 8 * i);
    }
}

uint32_t pci_get(const struct pci_config *it, unsigned int at, unsigned int bytes)
{
    uint32_t value = 0;
    for (unsigned int i = 0; i < bytes; i++)
        value |= (uint32_t)it->bytes[at + i] << 8 * i;
    return value;
}

void pci_begin(struct pci_config *it, const struct pci_identity *identity)
{
    memset(it, 0, sizeof *it);
    it->size = PCI_CONFIG_BYTES;
    pci_field(it, 0x00, 2, identity->vendor, 0);
    pci_field(it, 0x02, 2, identity->device, 0);
    pci_field(it, COMMAND, 2, 0, identity->command_mask);
    pci_field(it, STATUS, 2, STATUS_CAPABILITIES, 0);
    pci_field(it, 0x08, 4, identity->class_revision, 0);
    pci_field(it, 0x0C, 1, 0, 0xFF); /* cache line size */
    pci_field(it, 0x2C, 2, identity->subsystem_vendor, 0);
    pci_field(it, 0x2E, 2, identity->subsystem, 0);
    it->chain = FIRST_CAPABILITY;
}

static void chain(struct pci_config *it, unsigned int at, uint8_t id)
{
    pci_field(it, it->chain, 1, at, 0);
    pci_field(it, at, 2, id, 0);
    it->chain = at + 1;
}

/* A pair of registers for a 64-bit base, in the header or in the SR-IOV capability. */
static void bar_pair(struct pci_config *it, unsigned int at, uint32_t bytes)
{
    uint32_t mask = bytes ? ~(bytes - 1) : 0;
    pci_field(it, at, 4, BAR_64_PREFETCHABLE, mask);
    pci_field(it, at + 4, 4, 0, bytes ? UINT32_MAX : 0);
}

void pci_add_bar64(struct pci_config *it, unsigned int bar, uint32_t bytes)
{
    bar_pair(it, BAR(bar), bytes);
}

void pci_add_power(struct pci_config *it, unsigned int at)
{
    chain(it, at, ID_POWER);
    pci_field(it, at + 2, 2, 0x0003, 0);      /* version 3 */
    pci_field(it, at + 4, 4, 0x0008, 0x0103); /* no reset on the transition from D3; power state, and wake-up */
}

void pci_add_pin(struct pci_config *it)
{
    pci_field(it, INTERRUPT, 2, PIN_A << 8, 0x00FF);
}

void pci_add_msi(struct pci_config *it, unsigned int at)
{
    chain(it, at, ID_MSI);
    pci_field(it, at + 2, 2, MSI_CONTROL, MSI_ENABLE);
    pci_field(it, at + 4, 4, 0, 0xFFFFFFFC); /* message address */
    pci_field(it, at + 8, 4, 0, 0xFFFFFFFF);
    pci_field(it, at + 12, 2, 0, 0xFFFF); /* message data */
    pci_field(it, at + 16, 4, 0, 1);      /* mask bits */
    pci_field(it, at + 20, 4, 0, 0);      /* pending bits */
    it->msi = at;
}

void pci_add_msix(struct pci_config *it, unsigned int at, unsigned int vectors, unsigned int bar, uint32_t table,
                  uint32_t pending)
{
    chain(it, at, ID_MSIX);
    pci_field(it, at + 2, 2, vectors - 1, 0xC000); /* enable bit and function mask */
    pci_field(it, at + 4, 4, table | bar, 0);
    pci_field(it, at + 8, 4, pending | bar, 0);
    it->msix = at;
}

void pci_add_express(struct pci_config *it, unsigned int at)
{
    chain(it, at, ID_EXPRESS);
    pci_field(it, at + 2, 2, 0x0002, 0);                    /* version 2, an endpoint */
    pci_field(it, at + 4, 4, 0x10008002, 0);                /* function level reset, 512 bytes */
    pci_field(it, at + EXPRESS_CONTROL, 2, 0x2810, 0xFFFF); /* 512-byte read requests */
    pci_field(it, at + 0x0C, 4, 0x00000082, 0);             /* link capabilities, control, status */
    pci_field(it, at + 0x10, 2, 0, 0xFFFF);
    pci_field(it, at + 0x12, 2, 0x0082, 0);
    pci_field(it, at + 0x28, 2, 0, 0xFFFF); /* control 2 */
    it->express = at;
}

void pci_add_sriov(struct pci_config *it, unsigned int at, const struct pci_sriov *sriov)
{
    pci_field(it, at, 4, 1u << 16 | ID_SRIOV, 0);     /* the only extended capability */
    pci_field(it, at + 0x08, 2, 0, 0x0019);           /* control */
    pci_field(it, at + 0x0C, 2, sriov->functions, 0); /* initial and total VFs */
    pci_field(it, at + 0x0E, 2, sriov->functions, 0);
    pci_field(it, at + 0x10, 2, 0, 0xFFFF); /* requested VFs */
    pci_field(it, at + 0x14, 2, sriov->first, 0);
    pci_field(it, at + 0x16, 2, sriov->stride, 0);
    pci_field(it, at + 0x1A, 2, sriov->device, 0);
    pci_field(it, at + 0x1C, 4, 0x00000553, 0); /* supported page sizes; in use: 4 KB */
    pci_field(it, at + 0x20, 4, 1, UINT32_MAX);
    for (unsigned int i = 0; i < 2; i++)
        bar_pair(it, at + 0x24 + 4 * sriov->bars[i], sriov->bar_bytes[i]);
    it->sriov = at;
}

void pci_read(const struct pci_config *it, unsigned int at, uint8_t *bytes, unsigned int length)
{
    memcpy(bytes, it->bytes + at, length);
}

void pci_write(struct pci_config *it, unsigned int at, const uint8_t *bytes, unsigned int length)
{
    for (unsigned int i = 0; i < length; i++)
        it->bytes[at + i] = (uint8_t)((it->bytes[at + i] & ~it->mask[at + i]) | (bytes[i] & it->mask[at + i]));
}

bool pci_msi_is_on(const struct pci_config *it)
{
    return it->msi && it->bytes[it->msi + 2] & MSI_ENABLE;
}

bool pci_line_is_on(const struct pci_config *it)
{
    return !(it->bytes[COMMAND + 1] & COMMAND_LINE_OFF);
}

void pci_line_status(struct pci_config *it, bool level)
{
    it->bytes[STATUS] = (uint8_t)((it->bytes[STATUS] & ~STATUS_LINE) | (level ? STATUS_LINE : 0));
}

bool pci_msix_is_on(const struct pci_config *it)
{
    return it->msix && it->bytes[it->msix + 3] & MSIX_ENABLE;
}

bool pci_takes_reset(struct pci_config *it)
{
    uint8_t *high = it->express ? &it->bytes[it->express + EXPRESS_CONTROL + 1] : NULL;
    if (!high || !(*high & EXPRESS_RESET))
        return false;
    *high &= (uint8_t)~EXPRESS_RESET;
    return true;
}

/* ---- the space of a function for a driver in this process ---- */

enum { INTEL = 0x8086, PHYSICAL_DEVICE = 0x10FB, VIRTUAL_DEVICE = 0x10ED, SUBSYSTEM = 0x000C };
enum { AT_POWER = 0x40, AT_EXPRESS = 0xA0 };

#define COMMAND_MEMORY 0x0002u
#define COMMAND_WRITABLE 0x0547u
#define CLASS_ETHERNET 0x02000001u /* network controller, Ethernet; revision 1 */
#define BAR_64 0x4u

void pci_config_of_82599(struct pci_config *it, unsigned int function, uint64_t registers)
{
    uint32_t bytes = function == BUS_PHYSICAL ? BUS_SPACE : BUS_FUNCTION_SPACE;
    const struct pci_identity identity = {
        .vendor = INTEL,
        .device = function == BUS_PHYSICAL ? PHYSICAL_DEVICE : VIRTUAL_DEVICE,
        .subsystem_vendor = INTEL,
        .subsystem = SUBSYSTEM,
        .class_revision = CLASS_ETHERNET,
    };
    pci_begin(it, &identity);
    it->size = PCI_PLAIN_BYTES;
    pci_field(it, COMMAND, 2, COMMAND_MEMORY, COMMAND_WRITABLE);
    pci_field(it, BAR(0), 4, (uint32_t)registers | BAR_64, ~(bytes - 1));
    pci_field(it, BAR(1), 4, (uint32_t)(registers >> 32), UINT32_MAX);
    pci_field(it, INTERRUPT, 2, 0x0105, 0xFF); /* line 5, pin A */
    pci_add_power(it, AT_POWER);
    pci_add_express(it, AT_EXPRESS);
}

static bool is_inside(const struct pci_config *it, unsigned int at, unsigned int bytes)
{
    return (bytes == 1 || bytes == 2 || bytes == 4) && at < it->size && bytes <= it->size - at;
}

uint32_t pci_config_read(struct pci_config *it, unsigned int at, unsigned int bytes)
{
    it->reads++;
    return is_inside(it, at, bytes) ? pci_get(it, at, bytes) : UINT32_MAX;
}

void pci_config_write(struct pci_config *it, unsigned int at, unsigned int bytes, uint32_t value)
{
    it->writes++;
    if (!is_inside(it, at, bytes))
        return;
    const uint8_t each[4] = {(uint8_t)value, (uint8_t)(value >> 8), (uint8_t)(value >> 16), (uint8_t)(value >> 24)};
    pci_write(it, at, each, bytes);
    pci_takes_reset(it);
}
