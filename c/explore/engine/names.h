/* Names of registers, as in scripts and docs/REGISTERS.md. */
#ifndef NICX_NAMES_H
#define NICX_NAMES_H

#include "../observer.h"

enum { MOST_NAME = NICXO_NAME };

/* Returns the name of the register at this first address ("RDT[3]", "GPIE"), or the address if no register starts
   there. */
const char *nicxi_register(uint32_t address, char room[MOST_NAME]);
/* Returns the first address of the register at an address. SRRCTL[0], for example, is at 0x01014 and at 0x02100.
   `is_low` is set if the given address shows only bits 15:0. An address that isn't an alias is returned unchanged. */
uint32_t nicxi_first_address(uint32_t address, bool *is_low);
/* Returns the name for an offset of a virtual function. */
const char *nicxi_offset(uint32_t offset, char room[MOST_NAME]);

#endif
