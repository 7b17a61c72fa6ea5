/* Names of registers, as in scripts and docs/REGISTERS.md. */
#ifndef NICL_NAMES_H
#define NICL_NAMES_H

#include <stdint.h>

enum { NICL_NAME = 32 };

/* Call these with nicl_enter's lock held, as for all of a recording. */

/* Returns the name of the register at an address, which may be any of its addresses, or null if there is none. */
const char *nicl_register(uint32_t address, char room[NICL_NAME]);
/* Returns the name of the register at an offset of a virtual function, or null. */
const char *nicl_offset(uint32_t offset, char room[NICL_NAME]);

#endif
