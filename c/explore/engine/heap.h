/* Puts all memory of the proved library into one piece, so that a controller is restored by copying the piece, in a
   tenth of nic_restore's time. The library allocates through three functions of its toolchain. This archive defines
   them too, and the linker uses them if the archive precedes libnic82599.a. If it doesn't, or if the library is the
   shared one, the piece stays empty, and nic_snapshot and nic_restore are used. */
#ifndef NICX_HEAP_H
#define NICX_HEAP_H

#include <stdbool.h>
#include <stddef.h>

/* After this call, the library allocates from the piece on this thread. Returns false if the machine has no memory for
   it. Other threads of the process still allocate from malloc. */
bool nicxi_heap_open(void);
/* After this call only this thread, which runs a schedule, allocates from the piece. */
void nicxi_heap_is_mine(void);
/* Has the library allocate from malloc on this thread until nicxi_heap_is_mine is called. This is for the caller's own
   controller, which must survive when the search's controller is restored. Returns false and does nothing if the
   library already allocates from malloc. */
bool nicxi_heap_pause(void);
void nicxi_heap_close(void);

/* Whether the library allocated from the piece, so that it can be saved and restored. */
bool nicxi_heap_is_used(void);
/* Whether an address is in the piece. */
bool nicxi_heap_has(const void *piece);

/* Saves the piece, replacing an earlier copy. Returns false if there is no memory for it. */
bool nicxi_heap_keep(void);
/* Restores the saved piece. */
void nicxi_heap_back(void);
/* Makes memory equal to a copy. Most parts of a large memory don't change during a schedule, and comparing a part takes
   less time than writing it. */
void nicxi_put_back(void *place, const void *copy, size_t size);

/* Return the size of the saved copy, copy the piece, and compare it with a copy byte for byte. */
size_t nicxi_heap_size(void);
void nicxi_heap_copy(void *room);
bool nicxi_heap_is(const void *copy, size_t size);

/* The piece, as a part of a checkpoint. */
struct checkpoint;
void nicxi_heap_part(struct checkpoint *it);

#endif
