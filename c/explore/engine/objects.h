/* The objects that a step is about: a frame, a slot, a queue, a mailbox, interrupts, a lock. A page traces them
   backwards. */
#ifndef NICX_OBJECTS_H
#define NICX_OBJECTS_H

#include "engine.h"

enum { MOST_OBJECTS = 6, MOST_OBJECT_NAME = 120 };

struct objects {
    char names[MOST_OBJECTS][MOST_OBJECT_NAME]; /* ordered from specific to general: "frame 1", "rx 0 slot 1", "rx 0" */
    uint32_t count;
};

/* Lists a step's objects while the step is being reported. `about` is what the step locks or waits for, or "". */
void nicxi_objects(const struct step *step, const char *about, struct objects *objects);

#endif
