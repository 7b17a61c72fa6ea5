/* Trapping register windows (window.h). A compiled driver accesses its registers with plain 32-bit loads and stores.
   Each such access faults; the bus performs it, and the instruction is skipped. An instruction into which the compiler
   folded an access, such as `orl $4, (p)`, becomes one read, the operation, and one write. For Linux on x86-64, with
   one thread. */
#ifndef DRIVERS_TRAP_H
#define DRIVERS_TRAP_H

#include <stdbool.h>
#include <stdint.h>

/* Ring 0 instructions that a driver may execute. An instruction whose hook is null, or a port access while ports are
   off, ends the run. */
struct trap_hooks {
    void (*halt)(void); /* HLT: time passes */
    bool has_ports;     /* IN returns all ones and OUT does nothing, as if no device answered */
};

/* Handles the process's SIGSEGV, SIGBUS and SIGVTALRM. Returns false if the system refuses. A fault outside the
   windows, or an instruction that decode.h doesn't contain, is reported with its register and ends the process with
   status 4. The same happens if a driver polls a register or memory without end. */
bool trap_open(const struct trap_hooks *hooks);
/* Restores the signal handlers. */
void trap_close(void);

/* Returns the number of instructions performed this way. */
uint64_t trap_count(void);

#endif
