/* Snapshots of the card, by name: the device itself, the locations of its rings, descriptors read ahead, the state of
   offloads, and the due steps. They are restored into the card that they were taken from. */
#ifndef VFU_SNAPSHOTS_H
#define VFU_SNAPSHOTS_H

#include "card.h"

#define SNAPSHOTS_MOST 16
#define SNAPSHOT_NAME 32

struct snapshot {
    char name[SNAPSHOT_NAME];
    nic_kept device;
    struct rings *rings;
    struct offload *offload; /* null: the card has no offloads */
    struct stepper stepper;
    struct arrivals arrivals;
};

struct snapshots {
    struct snapshot all[SNAPSHOTS_MOST];
    unsigned int count;
};

/* Takes a snapshot, which replaces one with the same name. Returns null, or why it couldn't. */
const char *snapshots_take(struct snapshots *it, const struct card *card, const char *name);
/* Restores the card. Returns null, or why it couldn't; then nothing has changed. */
const char *snapshots_restore(struct snapshots *it, struct card *card, const char *name);
void snapshots_clear(struct snapshots *it);

#endif
