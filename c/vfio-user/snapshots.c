#include "snapshots.h"

#include <string.h>

#define LETTERS "abcdefghijklmnopqrstuvwxyzABCDEFGHIJKLMNOPQRSTUVWXYZ0123456789_.-"

static const char short_of_memory[] = "out of memory";

static void drop(struct snapshot *it)
{
    nic_drop_snapshot(&it->device);
    rings_free(it->rings);
    offload_free(it->offload);
    *it = (struct snapshot){.rings = NULL};
}

static struct snapshot *find(struct snapshots *it, const char *name)
{
    for (unsigned int i = 0; i < it->count; i++)
        if (strcmp(it->all[i].name, name) == 0)
            return &it->all[i];
    return NULL;
}

/* Saves everything, or returns false and saves nothing. */
static bool take(struct snapshot *it, const struct card *card)
{
    it->rings = rings_copy(card->rings);
    it->offload = card->offload ? offload_copy(card->offload) : NULL;
    it->stepper = card->stepper;
    it->arrivals = card->arrivals;
    if (it->rings && (it->offload || !card->offload) && nic_snapshot(bus_device(card->bus), &it->device) == NIC_DONE)
        return true;
    drop(it);
    return false;
}

const char *snapshots_take(struct snapshots *it, const struct card *card, const char *name)
{
    struct snapshot made = {.rings = NULL};
    struct snapshot *place = find(it, name);
    if (!*name || strlen(name) >= sizeof made.name || name[strspn(name, LETTERS)])
        return "snapshot NAME: 1 to 31 letters, digits and _ . -";
    if (!place && it->count == SNAPSHOTS_MOST)
        return "there are already 16 snapshots: reuse one of their names to replace it";
    if (!take(&made, card))
        return short_of_memory;
    strcpy(made.name, name);
    if (place)
        drop(place);
    else
        place = &it->all[it->count++];
    *place = made;
    return NULL;
}

/* Restores neither a hold nor a seed: the last request determines whether the device is held and whether its steps are
   delayed. */
static void restore_stepper(struct card *card, const struct snapshot *from)
{
    struct stepper now = card->stepper;
    card->stepper = from->stepper;
    card->stepper.is_held = now.is_held;
    card->stepper.has_seed = now.has_seed;
    card->stepper.state = now.state;
    card->stepper.has_changed = true;
    arrivals_restore(&card->arrivals, &from->arrivals);
}

const char *snapshots_restore(struct snapshots *it, struct card *card, const char *name)
{
    const struct snapshot *from = find(it, name);
    if (!from)
        return "no snapshot has this name: the request \"snapshot\" without a name lists all";
    struct rings *rings = rings_copy(from->rings);
    struct offload *offload = from->offload ? offload_copy(from->offload) : NULL;
    if (!rings || (from->offload && !offload) || nic_restore(bus_device(card->bus), &from->device) != NIC_DONE) {
        rings_free(rings);
        offload_free(offload);
        return short_of_memory;
    }
    rings_become(card->rings, rings);
    if (offload)
        offload_become(card->offload, offload);
    restore_stepper(card, from);
    return NULL;
}

void snapshots_clear(struct snapshots *it)
{
    for (unsigned int i = 0; i < it->count; i++)
        drop(&it->all[i]);
    it->count = 0;
}
