/* A kernel's view of its machine, a PC: ports, a serial line, PCI configuration, and one interrupt, by line or by
   message. */
#ifndef MACHINE_H
#define MACHINE_H

#include <stdbool.h>
#include <stddef.h>
#include <stdint.h>

/* A function of a PCI device; `found` is false if there is none. */
struct pci_function {
    uint8_t bus, device, function;
    bool found;
};

/* Writes text, or a number as hex digits, to the first serial line. */
void say(const char *text);
void say_hex(uint32_t number, unsigned digits);

/* Returns the first function with these IDs, over all buses that the firmware set up. */
struct pci_function pci_find(uint16_t vendor, uint16_t device);
uint32_t pci_read(struct pci_function it, uint8_t offset);
void pci_write(struct pci_function it, uint8_t offset, uint32_t word);

/* Uses line `number` (0 to 15) of the interrupt controller: `line_is_up` is called while the line is up. */
void take_line(uint8_t number);
/* Uses a message to the local APIC instead: `line_is_up` is called for each that a device writes to this address. */
enum { MESSAGE = 16 };
struct message {
    uint32_t address, data;
};
struct message take_message(void);
/* Acknowledges an interrupt of that line at the interrupt controller, or (MESSAGE) of the message at the local APIC. */
void end_of_interrupt(uint8_t number);
/* Enables interrupts and sleeps until one occurs; they are disabled again on return. Call it with interrupts disabled,
   after checking the variables that the handler changes: an interrupt between check and sleep ends the sleep. */
void sleep_until_interrupt(void);

/* Waits at least this many microseconds. */
void wait_us(unsigned count);

/* Called by boot.S: the driver's handler, and this file's. */
void line_is_up(void);
void end_of_spurious(void);

#endif
