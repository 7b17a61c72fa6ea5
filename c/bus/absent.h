/* Reports registers that drivers accessed but the device doesn't have, with the names that they have on silicon. */
#ifndef BUS_ABSENT_H
#define BUS_ABSENT_H

#include <stdint.h>
#include <stdio.h>

struct bus;

/* Prints a line for the physical function, which names the most accessed registers, and a line for all virtual
   functions together. Omits registers that the bus answers, and a line if there were no other accesses. `by` follows
   the physical function's number of accesses, and `more` ends each line; both may be empty. */
void absent_tell(const struct bus *bus, FILE *to, const char *by, const char *more);

/* Returns the name on silicon of the register of the physical function at this offset, or of its family; null if it
   isn't known. */
const char *absent_name(unsigned int function, uint32_t offset);

#endif
