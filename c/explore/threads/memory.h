/* Accesses to the driver's own memory as points, with --points: all accesses, or only those to a single variable or in
   a single function. */
#ifndef NICX_THREADS_MEMORY_H
#define NICX_THREADS_MEMORY_H

#include <stdbool.h>
#include <stddef.h>
#include <stdint.h>

extern bool nicxi_memory_is_point;

/* Called if accesses are observed, so that they can be points. */
void nicxi_memory_open(void);

/* Called before each access of the running thread. It is a point if --points covers the access, or if a handler may
   interrupt the thread there. Such a handler runs on the same processor, so its accesses don't race. */
void nicxi_memory_points(uint64_t at, size_t length, unsigned how, const void *call);

#endif
