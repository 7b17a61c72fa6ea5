/* Recordings: files of what a program requests of its controllers. c/library/calls.c has the calls. */
#ifndef NICL_RECORDING_H
#define NICL_RECORDING_H

#include <stdbool.h>
#include <stddef.h>
#include <stdint.h>

#include "nic82599.h"
#include "text.h"

enum { NICL_LINE = 512 };

/* A recording of one controller. Its lines are written when an event is complete. */
struct recording;

/* Whether any controller is recorded or reported on (tell.h). Every call reads this flag. */
extern int nicl_is_watched;

/* Returns the recording of a controller, or null. Either way, all recordings are locked until nicl_leave. */
struct recording *nicl_enter(const nic *n);
/* Writes what was added since nicl_enter, and unlocks the recordings. `it` may be null. */
void nicl_leave(struct recording *it);

/* Begin a new controller's recording, if controllers are to be recorded; and end a recording, which may be null. */
void nicl_begin(const nic *n, uint8_t vfs, uint16_t fifo, uint32_t blocks);
void nicl_end(const nic *n, struct recording *it);

/* The set of receive queues that may be enabled, with one bit for each queue. Only a step or a restore enables a queue;
   all other calls only disable queues. */
struct nicl_on {
    bool is_known; /* if false, nothing is known until all queues are checked */
    uint64_t queues[2];
};
struct nicl_on *nicl_on_of(struct recording *it);

/* Return the number of a new snapshot, and of one being restored: 0 if it isn't from this recording. */
uint32_t nicl_keep(struct recording *it, const nic_kept *kept);
uint32_t nicl_kept(const struct recording *it, const nic_kept *kept);
/* Forgets a snapshot that is being freed. Locks the recordings, like nicl_enter, and returns the one in which the
   snapshot was taken, or null. */
struct recording *nicl_enter_dropped(nic_kept kept, uint32_t *number);

/* --- text --- */

/* Return where to write at most NICL_LINE bytes of text, and set where that text ends. Call the second before you call
   the first again. */
struct nicl_text nicl_text_of(struct recording *it);
void nicl_text_ends(struct recording *it, const struct nicl_text *text);
/* Add a string, two strings with a number between them, and text formatted as by printf. */
void nicl_add_text(struct recording *it, const char *text);
void nicl_add_number(struct recording *it, const char *before, uint64_t number, const char *after);
void nicl_add(struct recording *it, const char *format, ...) __attribute__((format(printf, 2, 3)));
void nicl_add_hex(struct recording *it, const uint8_t *bytes, size_t length);
/* Adds a line that names bytes, before the line that uses them, and returns the number in the name. Data in a script
   has at least one byte: empty data gets one byte and a comment that says so. The device drops an empty frame and a
   one-byte frame for the same reason. */
uint32_t nicl_add_data(struct recording *it, const uint8_t *bytes, size_t length);
/* Adds `poke 0x00010 d3`: these bytes at a bus address. */
void nicl_add_poke(struct recording *it, uint64_t bus, uint32_t name);
/* Adds blanks up to the replies' column, counted from the start of the last line, and the start of a reply. */
void nicl_add_reply(struct recording *it);
/* Adds a line for a lent block, `lend 3`. If the last line is about the block before, the two become one line,
   `#: lend 2 to 3`, and so on. */
void nicl_add_lent(struct recording *it, uint32_t block);

#endif
