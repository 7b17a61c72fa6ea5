/* The bench on which a program's driver runs. It is either the bus, whose device works in the driver's memory
   (bench_bus.c), or the guest server's card in this process, which copies rings and supports offloads
   (server/bench_card.c). */
#ifndef BENCH_H
#define BENCH_H

#include "bus.h"

/* Opens the bench. Returns false if memory runs out. */
bool bench_open(const struct bus_options *options);
void bench_close(void);
uint32_t bench_read(unsigned int function, uint32_t offset);
void bench_write(unsigned int function, uint32_t offset, uint32_t word);
/* Lends these bytes to the device, with the byte at `host` at bus address `bus`. Returns false if they can't be
   lent. */
bool bench_lend(uint64_t bus, void *host, size_t length);

#endif
