/* For recordings: the bytes that a replay has in place of the caller's memory. The caller changes its memory without a
   call, so before a call reads part of the memory, its changes are recorded. */
#ifndef NICL_SHADOW_H
#define NICL_SHADOW_H

#include "nic82599.h"

enum { NICL_UNIT = 16 };

/* A length beyond all memory. */
#define NICL_ALL UINT64_MAX

/* Calls `poke` for each 16-byte unit in this range of the caller's memory that differs in a replay. Afterwards
   the replay counts as having the unit's current bytes. */
typedef void nicl_poke(void *argument, uint64_t bus, const uint8_t unit[NICL_UNIT]);
void nicl_shadow_poke(const nic *n, uint64_t bus, uint64_t length, nicl_poke *poke, void *argument);

/* Notes that a replay has these bytes as they are now, because its device wrote them too. */
void nicl_shadow_note(const nic *n, uint64_t bus, uint64_t length);

#endif
