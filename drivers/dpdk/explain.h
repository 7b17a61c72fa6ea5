/* Explains what went wrong between the driver and the device: refused frames, faults, and packets that were freed
   twice. */
#ifndef EXPLAIN_H
#define EXPLAIN_H

#include <rte_mbuf.h>
#include <stdbool.h>

#include "nic82599.h"

/* The line of the driver that is writing a register; null outside a write. */
extern const char *writing_file;
extern unsigned int writing_line;

/* Reports the first frame of a pass that the device refused, with the reason; `who` is the port's name and ": ", or
   empty. Later ones are only counted, and refused_end reports how many there were. */
void refused(const char *who, unsigned int frame);
void refused_end(void);

/* The bus's callback for a fault of the device: a problem, with what the descriptor contains and the driver's line that
   moved the tail. */
void explain_fault(void *of, bool is_transmit, const nic_outcome *outcome);

/* Checks that these packets, which were just allocated, are different, and that no packet is in the pool twice. If the
   driver freed one twice, they report it and end the run, because two owners then change the same packet. */
void expect_different(struct rte_mbuf *const *packets, unsigned int count);
void expect_freed_once(void);

#endif
