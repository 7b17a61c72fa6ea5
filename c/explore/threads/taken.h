/* The driver's memory from malloc. All of it is in one piece, so that it can be restored before each schedule, and each
   access to it can be checked. */
#ifndef NICX_THREADS_TAKEN_H
#define NICX_THREADS_TAKEN_H

#include <stdbool.h>
#include <stddef.h>
#include <stdint.h>

#include "../engine/piece.h"

void nicxi_taken_open(void);
void nicxi_taken_keep(void);
void nicxi_taken_back(void);
void nicxi_taken_close(void);
/* Whether all of the driver's memory from malloc is in the piece. */
bool nicxi_taken_is_open(void);
struct checkpoint;
void nicxi_taken_part(struct checkpoint *it);

/* The start of the piece; without a piece, an address that no access has. */
extern uintptr_t nicxi_taken_from;

static inline bool nicxi_is_taken(uint64_t at)
{
    return at - nicxi_taken_from < PIECE_ROOM;
}

/* Checks an access to the piece. The check fails if the memory was freed or never allocated. */
void nicxi_judge_taken(uint64_t at, size_t length, bool writes, const void *call);
/* Checks the object of a call with this name. */
void nicxi_judge_object(const void *object, const char *name, const void *call);

static inline void nicxi_look_at_taken(uint64_t at, size_t length, bool writes, const void *call)
{
    if (nicxi_is_taken(at))
        nicxi_judge_taken(at, length, writes, call);
}

/* Names an address in the piece by where it was allocated: "malloc(driver.c:9)+0x8". Returns false if unknown. */
bool nicxi_taken_name(const void *object, char *room, size_t size);

#endif
