/* A PCI function's configuration space: 4,096 bytes and a mask of the bits that a write changes. Each capability
   that is added is linked to the previous one. The public sources are the PCI Local Bus Specification and the PCI
   Express Base Specification. */
#ifndef BUS_PCI_CONFIG_H
#define BUS_PCI_CONFIG_H

#include <stdbool.h>
#include <stdint.h>

#define PCI_CONFIG_BYTES 4096u
#define PCI_PLAIN_BYTES 256u /* size of a space without extended capabilities */
#define PCI_EXTENDED 0x100u  /* start of the extended capabilities */

struct pci_config {
    uint8_t bytes[PCI_CONFIG_BYTES], mask[PCI_CONFIG_BYTES];
    unsigned int chain; /* the byte that will point to the next capability */
    unsigned int msi, msix, express, sriov;
    unsigned int size;      /* number of bytes in the space */
    uint64_t reads, writes; /* counted by pci_config_read and pci_config_write */
};

struct pci_identity {
    uint16_t vendor, device, subsystem_vendor, subsystem;
    uint32_t class_revision; /* class in bits 31:8 */
    uint16_t command_mask;
};

/* Sets a field of 1 to 4 bytes, and which of its bits a write changes. */
void pci_field(struct pci_config *it, unsigned int at, unsigned int bytes, uint32_t value, uint32_t mask);
uint32_t pci_get(const struct pci_config *it, unsigned int at, unsigned int bytes);

void pci_begin(struct pci_config *it, const struct pci_identity *identity);
/* Adds a 64-bit prefetchable BAR, whose size is a power of two. A size of 0 means that the client already knows the
   size; the BAR then reads as 0. */
void pci_add_bar64(struct pci_config *it, unsigned int bar, uint32_t bytes);
void pci_add_power(struct pci_config *it, unsigned int at);
/* Adds interrupts on pin A. The client may write the line's number. */
void pci_add_pin(struct pci_config *it);
/* Adds MSI with one message, 64-bit addresses and a mask bit. */
void pci_add_msi(struct pci_config *it, unsigned int at);
void pci_add_msix(struct pci_config *it, unsigned int at, unsigned int vectors, unsigned int bar, uint32_t table,
                  uint32_t pending);
/* Adds PCI Express: an endpoint with eight lanes at 5 GT/s and function level reset. */
void pci_add_express(struct pci_config *it, unsigned int at);

struct pci_sriov {
    uint16_t functions, first, stride, device;
    unsigned int bars[2]; /* two 64-bit BARs, and their sizes in bytes */
    uint32_t bar_bytes[2];
};
void pci_add_sriov(struct pci_config *it, unsigned int at, const struct pci_sriov *sriov);

/* Sets up the whole space of an 82599's physical function (0) or virtual function (v + 1) for a driver in this process:
   registers in BAR 0 at this address, power management and PCI Express, but no extended capabilities. */
void pci_config_of_82599(struct pci_config *it, unsigned int function, uint64_t registers);

/* Perform an access of 1, 2 or 4 bytes. Outside the space all bits read as 1, and a write is a no-op. */
uint32_t pci_config_read(struct pci_config *it, unsigned int at, unsigned int bytes);
void pci_config_write(struct pci_config *it, unsigned int at, unsigned int bytes, uint32_t value);

/* Reads or writes bytes, which must be inside the space. */
void pci_read(const struct pci_config *it, unsigned int at, uint8_t *bytes, unsigned int length);
void pci_write(struct pci_config *it, unsigned int at, const uint8_t *bytes, unsigned int length);

bool pci_msi_is_on(const struct pci_config *it);
bool pci_msix_is_on(const struct pci_config *it);
/* Return whether the command register lets the function assert its interrupt line, and set the status register's
   interrupt bit. */
bool pci_line_is_on(const struct pci_config *it);
void pci_line_status(struct pci_config *it, bool level);
/* Returns whether a function level reset was requested, and clears the request. */
bool pci_takes_reset(struct pci_config *it);

#endif
