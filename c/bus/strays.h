/* Accesses outside the bench's register table: their addresses, how often they occurred, and in which phases of the
   run. Accesses by a virtual function for which the mode has no pool are counted separately, in bus_counts. */
#ifndef BUS_STRAYS_H
#define BUS_STRAYS_H

#include <stdint.h>
#include <stdio.h>

struct bus;

/* Returns the name of a register that the device lacks; null if it isn't known. */
typedef const char *stray_name(unsigned int function, uint32_t offset);

/* Writes a line for each address: pf, or vf with the function's number; the address, the number of reads and of writes,
   the last word written, the phases, and after `#` the register's name, if `name` isn't null and returns one.
   drivers/common/strays.py groups them by register family. */
void strays_write(const struct bus *it, FILE *file, stray_name *name);

/* Calls `each` for each address with the number of its accesses. */
typedef void stray_each(void *of, unsigned int function, uint32_t offset, uint64_t accesses);
void strays_each(const struct bus *it, stray_each *each, void *of);

#endif
