/* The bench for iPXE: the bus, trapping register windows, and, for a virtual function, the PF's driver. */
#ifndef IPXE_CARD_H
#define IPXE_CARD_H

#include <stdbool.h>
#include <stdint.h>

enum { PROBE, OPEN, TRAFFIC, CLOSE, REOPEN, AGAIN, END };

struct card_setting {
    bool is_virtual;
    uint64_t turn_in, turn_out; /* number of the frame to corrupt by one byte, to test the run; 0 for none */
    const char *trace;          /* file for each access; null for none */
};

/* Opens the bus, the windows and the trace. Returns false, with a line on standard error, if one of them isn't
   available. */
bool card_open(const struct card_setting *setting);
void card_close(void);

/* Returns the number of iPXE's function on the bus. */
unsigned int card_function(void);

/* Changes the link. The PF's driver then notifies the virtual function. */
void card_link(bool is_up);

#endif
