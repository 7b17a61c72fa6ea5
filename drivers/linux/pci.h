/* The card on a User-Mode Linux's PCI bus: configuration space, the register window and the MSI-X table, for the
   physical function and its virtual ones. Register accesses go to the bus. */
#ifndef LINUX_PCI_H
#define LINUX_PCI_H

#include <stdbool.h>
#include <stdint.h>

#include "orders.h"

/* Creates the functions, and listens for a guest at PATH, and at PATH.v for virtual function v. Returns false, and
   reports a problem, if it can't. Open the bus first. */
bool pci_open(const char *path, uint16_t device, unsigned int functions);

/* Serves the guest until it exits. */
void pci_serve(void);
void pci_close(void);

/* An order's arguments and results. The run sets the handler for writes to ORDER_WHAT (pci_order_to). */
struct order_words {
    uint32_t count, first, most;
    uint16_t function;
    uint8_t mac[6];
    uint32_t result, result_2;
};
typedef void pci_orders(uint32_t what, struct order_words *words);
void pci_order_to(pci_orders *orders);

/* The bus's callback `message`. */
void pci_message(void *of, unsigned int function, unsigned int vector);

/* Return the number of messages that a function has sent, and the number of all messages. */
uint64_t pci_messages(unsigned int function);

/* Prints a line for each function: accesses to configuration space and to registers, messages by vector. */
void pci_tell(void);

#endif
