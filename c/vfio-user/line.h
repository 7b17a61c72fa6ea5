/* The interrupts of a function while its MSI-X is off: the line (INTx), with a level that the client follows, or MSI's
   only vector, whose message is sent for each new cause. The public source is the PCI Local Bus Specification 3.0. */
#ifndef VFU_LINE_H
#define VFU_LINE_H

#include <stdbool.h>
#include <stdint.h>

#include "vectors.h"

#define LINE_FILES 3u /* eventfds for each line: pin, msi, unmask */

struct line {
    struct vectors pin, msi; /* at most one eventfd each; virtual functions have neither */
    struct vectors unmask;   /* an eventfd that the client signals when it unmasks the line, as KVM does */
    bool is_masked;          /* the client was notified, or masked the line: not notified again until it unmasks */
    uint32_t seen;           /* causes for which MSI was sent and which have been pending since */
    uint64_t unmasked;       /* how often the client unmasked the line through its eventfd */
};

void line_begin(struct line *it, bool is_there, unsigned int owner);
/* Closes all files and unmasks the line. */
void line_clear(struct line *it);
/* Removes the pin's file and its unmask file, as a client does when it changes to other interrupts. */
void line_clear_pin(struct line *it);
/* Masks the line for the client, or unmasks it, as the client does after handling an interrupt. */
void line_mask(struct line *it, bool is_masked);
/* Sets the eventfd with which the client unmasks the line. If the eventfd is already signalled, unmasks the line now.
   The line then owns the eventfd. With -1, removes the current one. Returns false, and the caller keeps the file, if
   the file isn't an eventfd or this kernel can't read it without blocking. */
bool line_unmask_by(struct line *it, int file);
/* Returns the file to poll; -1: none. */
int line_unmask_file(const struct line *it);
/* Reads the unmask eventfd. Returns whether it was signalled, which unmasks the line. */
bool line_take_unmask(struct line *it);
/* Sets the level of the line (INTx). Returns whether the client was notified. */
bool line_level(struct line *it, bool level);
/* Sets the pending causes, for MSI. Returns whether one of them is new, so that the message was sent. */
bool line_causes(struct line *it, uint32_t causes);
/* Sets the pending causes after an access. A cause that is no longer pending counts as new when it is raised again. */
void line_after_access(struct line *it, uint32_t causes);
/* Called at a reset: forgets all causes, and discards any waiting message. */
void line_forget(struct line *it);

#endif
