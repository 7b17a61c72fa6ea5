#include "starts.h"

#include <stdlib.h>

#include "runs.h"
#include "step.h"

enum { FIRST_ROOM = 64 };

struct start {
    uintptr_t at;
    uint32_t blocks; /* 0: this place is free */
};

/* A hash table of the addresses at which blocks begin, at most half full. An entry is at the place that its 2,048-byte
   unit selects, or at the next free one. */
static struct start *places;
static size_t room, used;

/* Keeps eight consecutive units together. */
static size_t place_for(uintptr_t at)
{
    uint64_t unit = (uint64_t)at / NICL_BLOCK, eight = (unit / 8 * UINT64_C(0x9e3779b97f4a7c15)) >> 32;
    return (size_t)(eight * 8 + unit % 8) & (room - 1);
}

static size_t next(size_t place)
{
    NICL_STEP();
    return (place + 1) & (room - 1);
}

/* Returns the place of an address at which a block begins, or the free place for it. */
static struct start *find(uintptr_t at)
{
    size_t place = place_for(at);
    while (places[place].blocks && places[place].at != at)
        place = next(place);
    return &places[place];
}

static bool grow(size_t wanted)
{
    struct start *old = places, *more = calloc(wanted, sizeof *more);
    size_t count = room;
    if (!more)
        return false;
    places = more;
    room = wanted;
    for (size_t k = 0; k < count; k++) {
        NICL_STEP();
        if (old[k].blocks)
            *find(old[k].at) = old[k];
    }
    free(old);
    return true;
}

bool nicl_starts_reserve(size_t more)
{
    size_t wanted = room ? room : (size_t)FIRST_ROOM;
    while (wanted / 2 < used + more)
        wanted *= 2;
    return wanted == room || grow(wanted);
}

void nicl_starts_add(uintptr_t start)
{
    struct start *it = find(start);
    used += it->blocks == 0;
    it->at = start;
    it->blocks++;
}

/* Returns whether a place is between two others on the circle of places, both inclusive. */
static bool is_within(size_t place, size_t from, size_t to)
{
    return ((place - from) & (room - 1)) <= ((to - from) & (room - 1));
}

/* Frees a place. Later entries that a search would no longer find move up. */
static void free_place(size_t hole)
{
    for (size_t place = next(hole); places[place].blocks; place = next(place))
        if (!is_within(place_for(places[place].at), (hole + 1) & (room - 1), place)) {
            places[hole] = places[place];
            hole = place;
        }
    places[hole].blocks = 0;
}

void nicl_starts_remove(uintptr_t start)
{
    struct start *it = find(start);
    if (--it->blocks)
        return;
    free_place((size_t)(it - places));
    if (--used)
        return;
    free(places);
    places = NULL;
    room = 0;
}

/* A block that contains the address begins in the same 2,048-byte unit or in the one before it. */
static bool has_in_unit(uintptr_t unit, uintptr_t address)
{
    for (size_t place = place_for(unit); places[place].blocks; place = next(place))
        if (address - places[place].at < NICL_BLOCK)
            return true;
    return false;
}

bool nicl_starts_has(uintptr_t address)
{
    return used && (has_in_unit(address, address) || has_in_unit(address - NICL_BLOCK, address));
}

bool nicl_starts_is_empty(void)
{
    return !used;
}
