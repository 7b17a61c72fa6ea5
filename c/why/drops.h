/* Frames dropped by each controller since it was created or a snapshot was restored into it. */
#ifndef NICL_DROPS_H
#define NICL_DROPS_H

#include "nic82599.h"

/* Kinds of drops: the kinds of enum nic_why, with the filter's drops split in three by the frame's destination. */
enum nicl_drop { NICL_TO_MANY = NIC_WHY_NO_SLOT + 1, NICL_TO_ALL, NICL_DROPS };

struct nicl_drops {
    uint64_t count[NICL_DROPS];
    /* The last frame of each kind that was dropped on arrival. */
    size_t length[NICL_DROPS];
    uint8_t to[NICL_DROPS][6];
};

/* Returns the kind of a drop. For a frame dropped by a receive step, `frame` is null. */
unsigned nicl_drop_kind(uint8_t why, const uint8_t *frame);
/* Counts a drop. If there is no memory for the controller's first one, it isn't counted. */
void nicl_note_drop(const nic *n, uint8_t why, const uint8_t *frame, size_t length);
/* Resets the counts of a controller. */
void nicl_forget_drops(const nic *n);
/* Returns false if nothing was dropped; then all counts are 0. */
bool nicl_drops_of(const nic *n, struct nicl_drops *drops);

/* Locks the drops of all controllers while the process forks. */
void nicl_drops_hold(void);
void nicl_drops_let_go(void);

#endif
