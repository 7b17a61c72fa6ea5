/* Registers by their names in scripts (docs/script.md): "TDT[0]", "EICR", "0x00800". */
#ifndef VFU_REGISTERS_H
#define VFU_REGISTERS_H

#include <stdbool.h>
#include <stdint.h>

/* Finds the address of the physical function's register with this name. Returns false if there is none. */
bool register_named(const char *text, uint32_t *address);
/* Finds the offset of a virtual function's register, such as "VFTDT[0]". */
bool function_register_named(const char *text, uint32_t *offset);

#endif
