/* Register windows in the address space of a driver that runs in this process. The addresses are inaccessible: an
   access that isn't rerouted to the bus ends the run. */
#ifndef DRIVERS_WINDOW_H
#define DRIVERS_WINDOW_H

#include <stdbool.h>
#include <stdint.h>

/* Reserves windows for the physical function and this many virtual ones. Returns false if there is no room. */
bool window_open(unsigned int virtual_functions);
void window_close(void);

/* Returns the first address of a function's window. */
void *window_of(unsigned int function);

/* Whether an address is in the windows or between them. */
bool window_has(const volatile void *address);

/* Finds the function and register offset of an address. An address outside all windows is reported as a problem; the
   result is then an offset past the physical function's registers. */
void window_find(const volatile void *address, unsigned int *function, uint32_t *offset);

#endif
