/* Checkpoints of the exhaustive search: a schedule continues from a copy of everything that its beginning changed,
   instead of running that beginning again. They are taken only if all of that is known (nicxi_checkpoints_open). */
#ifndef NICX_CHECKPOINT_H
#define NICX_CHECKPOINT_H

#include <stdbool.h>
#include <stddef.h>
#include <stdint.h>

struct checkpoint;

/* Called when a search process starts, and when it ends. With the environment variable NICX_NO_CHECKPOINTS, each
   schedule runs from its start: a test compares both ways. */
void nicxi_checkpoints_open(void);
void nicxi_checkpoints_close(void);

/* The least number of points between two checkpoints. A test makes it small. */
extern uint32_t nicxi_checkpoints_apart;

/* Called before a run that makes the same choices as the last one at its first `prefix` points, and offers the same
   actors at the point after them. Without this call, a run starts from its start. */
void nicxi_checkpoints_plan(uint32_t prefix);

/* Called by nicx_run, on the process's own stack. If the run continues from a checkpoint, restores it, continues, and
   returns true when the schedule is over, or when a checkpoint is to be taken. */
bool nicxi_checkpoint_continues(void);
/* Takes the checkpoints that a schedule asks for, until the schedule is over. */
void nicxi_checkpoint_serve(void);

/* The first point at which a schedule may take its next checkpoint. */
extern uint32_t nicxi_checkpoint_at;
/* Takes a checkpoint. A run that continues from it returns from this call too. */
void nicxi_checkpoint_take(void);

/* --- called by the parts of the state --- */

/* Saves this memory, or restores it. Both ways, the same calls must be made in the same order. */
void nicxi_part(struct checkpoint *it, void *place, size_t size);

/* For large tables with few changes: called before memory changes, which is restored to what it is now. */
extern bool nicxi_has_checkpoints;
void nicxi_note_change(void *place, size_t size);
static inline void nicxi_undo_later(void *place, size_t size)
{
    if (nicxi_has_checkpoints)
        nicxi_note_change(place, size);
}
/* Drops all checkpoints: such a table moves. */
void nicxi_checkpoints_drop(void);

#endif
