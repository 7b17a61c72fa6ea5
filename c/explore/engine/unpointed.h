/* Finds missing points if the search doesn't see accesses to the driver's own memory: places where a thread accesses
   shared memory twice between two of its points, so that no schedule runs another thread between the two accesses.
   Before a search, a few random schedules are single-stepped to find these places, on x86-64 Linux. Each reported place
   is real, but others may be missed. */
#ifndef NICX_UNPOINTED_H
#define NICX_UNPOINTED_H

#include "options.h"
#include "process.h"

enum { MOST_UNPOINTED = 3 };

/* Two accesses of a thread without a point between them, at these instructions, and another thread's access to what the
   second one touches. `first` and `second` are the same instruction if it reads and writes. */
struct unpointed {
    uintptr_t first, second, other; /* addresses of instructions */
    uint64_t touched[2];            /* the memory touched */
    uint16_t thread, by;
};

struct unpointed_list {
    struct unpointed list[MOST_UNPOINTED];
    uint32_t count;
};

/* Looks for missing points, in a child process. */
void nicxi_look_for_points(const struct options *options, struct unpointed_list *found);
/* Formats a line of the report: "fill touches count at driver.c:12 and 14 ..". */
void nicxi_unpointed_words(const struct unpointed *it, char *room, size_t size);

/* --- called by the engine while it single-steps --- */

extern bool nicxi_is_stepping;
void nicxi_steps_begin(void);
void nicxi_steps_end(void);

#endif
