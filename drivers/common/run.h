/* A run's bus, and the memory that its driver lends to the device. A driver's code calls the run without naming a bus,
   so both are globals. */
#ifndef DRIVERS_RUN_H
#define DRIVERS_RUN_H

#include <stdbool.h>
#include <stdint.h>

#include "bus.h"
#include "dma_memory.h"

extern struct bus *run_bus;
extern struct dma_memory run_memory;

/* Opens the bus, with memory in place or copied. Returns false if memory runs out. Adds the callbacks that the memory
   (memory_calls) and problem reports (verdict.h) need. Callbacks in the options get &run_memory as their first
   argument. */
bool run_open(const struct bus_options *options, bool is_copied);
void run_close(void);

/* Prints accesses by phase, device steps and bytes. */
void run_tell_counts(void);
/* Prints what nic_why reports, on standard error: why frames, queues and interrupts wait, and why frames were
   dropped. Lines that begin with `first`, such as "rx 0: ", are printed before the others; it may be empty. */
void run_tell_why(const char *first);
/* Reports a problem if a copy was refused, or if the number of dropped frames or faults isn't the expected one. If the
   run has had any problem, calls run_tell_why. Prints a line that names the registers that the driver accessed but the
   device lacks, and a line if no frame was transferred, because such a run tested little. Call it after all other
   checks. */
void run_check_counts(uint64_t drops_expected, uint64_t faults_expected);

/* Writes the strays to a file of this name. Returns false and reports a problem if it can't. */
bool run_save_strays(const char *name);

#endif
