/* The bench as PCI cards, for DPDK's drivers of the 82599 and of its virtual functions. They register with card.c
   instead of the PCI bus. Functions are numbered as on the bus: 0 is the physical one. */
#ifndef CARD_H
#define CARD_H

#include <stdbool.h>
#include <stdint.h>

/* Makes the driver for `device_id` probe a function, with that function's window as its registers. Returns 0, or the
   driver's error. `max_vfs` is the number of virtual functions of the physical function. `vectors` is the number of
   MSI-X vectors for queues, in addition to the one for other causes; 0 for a single interrupt without MSI-X. */
int card_probe(unsigned int function, uint16_t device_id, uint16_t max_vfs, unsigned int vectors);

/* Assigns new vectors to a function, as the PCI bus does at each start, because a driver releases its vectors when it
   stops. */
void card_give_vectors(unsigned int function, unsigned int vectors);

/* Removes a function's card. Returns 0, or the driver's error. */
int card_remove(unsigned int function);

/* Returns the driver's name, or null before card_probe. */
const char *card_driver(unsigned int function);

/* Returns the number of the function's Ethernet port, or RTE_MAX_ETHPORTS if it has none. */
uint16_t card_port(unsigned int function);

/* Calls a function's interrupt handler. Returns false if the driver registered none. */
bool card_interrupt(unsigned int function);

/* Returns the number of these handler calls. */
uint64_t card_interrupts(unsigned int function);

#endif
