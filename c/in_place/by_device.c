#include "by_device.h"

#include <stdint.h>
#include <stdlib.h>

#include "step.h"

static struct nicl_of *const *chains_of(const struct nicl_by_device *it)
{
    return it->chains ? it->chains : it->first;
}

static size_t room_of(const struct nicl_by_device *it)
{
    return it->chains ? it->room : (size_t)NICL_FIRST_CHAINS;
}

/* Returns the chain for a controller. Its pointer's low four bits don't count: malloc aligns memory to 16 bytes. */
static size_t chain_of(size_t room, const void *device)
{
    uint64_t word = (uint64_t)(uintptr_t)device >> 4;
    return (size_t)((word * UINT64_C(0x9e3779b97f4a7c15)) >> 32) & (room - 1);
}

static struct nicl_of **place_of(struct nicl_by_device *it, const void *device)
{
    struct nicl_of **chains = it->chains ? it->chains : it->first;
    return &chains[chain_of(room_of(it), device)];
}

struct nicl_of *nicl_by_device_find(const struct nicl_by_device *it, const void *device)
{
    struct nicl_of *one = chains_of(it)[chain_of(room_of(it), device)];
    while (one && one->device != device) {
        NICL_STEP();
        one = one->next;
    }
    return one;
}

static void put(struct nicl_by_device *it, struct nicl_of *one)
{
    struct nicl_of **place = place_of(it, one->device);
    one->next = *place;
    *place = one;
}

/* Doubles the number of chains, if there is memory for them. */
static void grow(struct nicl_by_device *it)
{
    size_t room = room_of(it);
    struct nicl_of **more = calloc(2 * room, sizeof *more), **chains = it->chains ? it->chains : it->first;
    struct nicl_by_device grown = {more, 2 * room, it->count, {NULL}};
    if (!more)
        return;
    for (size_t k = 0; k < room; k++)
        while (chains[k]) {
            struct nicl_of *one = chains[k];
            NICL_STEP();
            chains[k] = one->next;
            put(&grown, one);
        }
    free(it->chains);
    it->chains = more;
    it->room = grown.room;
}

void nicl_by_device_add(struct nicl_by_device *it, struct nicl_of *one)
{
    if (it->count >= room_of(it))
        grow(it);
    put(it, one);
    it->count++;
}

/* Removing the last entry also frees the memory of the chains. */
void nicl_by_device_remove(struct nicl_by_device *it, struct nicl_of *one)
{
    struct nicl_of **place = place_of(it, one->device);
    while (*place != one) {
        NICL_STEP();
        place = &(*place)->next;
    }
    *place = one->next;
    if (--it->count == 0) {
        free(it->chains);
        it->chains = NULL;
        it->room = 0;
    }
}
