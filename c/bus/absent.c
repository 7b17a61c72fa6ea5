#include "absent.h"

#include <inttypes.h>
#include <string.h>

#include "bus.h"
#include "strays.h"

#include "../library/absent.inc"

#define COUNT(list) (sizeof(list) / sizeof *(list))
#define NAMES_MOST 6 /* maximum number of names in a line */

/* Counts of accesses, by register name, for one or more functions. */
struct touched {
    const struct bus *bus;
    bool is_physical;
    uint64_t all, unnamed, named[COUNT(absent)];
};

static bool is_in(const struct absent *it, uint32_t address)
{
    return address >= it->first && address <= it->last && (address - it->first) % it->stride == 0;
}

/* Returns the index of the physical function's register in the table; COUNT(absent) if it isn't there. */
static size_t index_of(uint32_t address)
{
    size_t i = 0;
    while (i < COUNT(absent) && !is_in(&absent[i], address))
        i++;
    return i;
}

const char *absent_name(unsigned int function, uint32_t offset)
{
    size_t i = function == BUS_PHYSICAL ? index_of(offset) : COUNT(absent);
    return i < COUNT(absent) ? absent[i].name : NULL;
}

static void count_one(void *of, unsigned int function, uint32_t offset, uint64_t accesses)
{
    struct touched *it = of;
    if ((function == BUS_PHYSICAL) != it->is_physical || (it->is_physical && bus_answers_at(it->bus, offset)))
        return;
    size_t i = it->is_physical ? index_of(offset) : COUNT(absent);
    it->all += accesses;
    *(i < COUNT(absent) ? &it->named[i] : &it->unnamed) += accesses;
}

/* Finds the run of registers with the most accesses, and returns its index; COUNT(absent) if no counts remain. Sets
   *accesses to the count for all runs with the same name, and removes these runs from the counts. */
static size_t take_most(struct touched *it, uint64_t *accesses)
{
    size_t most = COUNT(absent);
    for (size_t i = 0; i < COUNT(absent); i++)
        if (it->named[i] && (most == COUNT(absent) || it->named[i] > it->named[most]))
            most = i;
    *accesses = 0;
    for (size_t i = 0; most < COUNT(absent) && i < COUNT(absent); i++)
        if (strcmp(absent[i].name, absent[most].name) == 0) {
            *accesses += it->named[i];
            it->named[i] = 0;
        }
    return most;
}

static void tell(const struct bus *bus, FILE *to, bool is_physical, const char *by, const char *more)
{
    struct touched it = {.bus = bus, .is_physical = is_physical};
    uint64_t accesses, left;
    strays_each(bus, count_one, &it);
    if (!it.all)
        return;
    fprintf(to, "not modelled: %" PRIu64 " accesses%s", it.all, by);
    left = it.all - it.unnamed;
    for (unsigned int i = 0; left && i < NAMES_MOST; i++) {
        fprintf(to, "%s %s", i ? "," : ":", absent[take_most(&it, &accesses)].name);
        fprintf(to, " %" PRIu64, accesses);
        left -= accesses;
    }
    if (left)
        fprintf(to, ", others %" PRIu64, left);
    if (it.unnamed)
        fprintf(to, "%s at unknown addresses %" PRIu64, it.unnamed == it.all ? ":" : ";", it.unnamed);
    fprintf(to, "%s\n", more);
}

void absent_tell(const struct bus *bus, FILE *to, const char *by, const char *more)
{
    tell(bus, to, true, by, more);
    tell(bus, to, false, " by virtual functions", more);
}
