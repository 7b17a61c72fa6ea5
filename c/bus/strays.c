#include "strays.h"

#include <inttypes.h>
#include <stdlib.h>

#include "inside.h"

static uint32_t space_of(unsigned int function)
{
    return function == BUS_PHYSICAL ? BUS_SPACE : BUS_FUNCTION_SPACE;
}

bool strays_begin(struct bus *it)
{
    for (unsigned int function = 0; function <= it->options.functions; function++) {
        it->strays[function] = calloc(space_of(function) / 4, sizeof **it->strays);
        if (!it->strays[function])
            return false;
    }
    return true;
}

void strays_end(struct bus *it)
{
    for (unsigned int function = 0; function < BUS_FUNCTIONS; function++) {
        free(it->strays[function]);
        it->strays[function] = NULL;
    }
}

static struct stray *at(struct bus *it, unsigned int function, uint32_t offset)
{
    struct stray *stray = offset < space_of(function) ? &it->strays[function][offset / 4] : &it->outside;
    stray->phases |= 1u << it->phase;
    return stray;
}

void stray_read(struct bus *it, unsigned int function, uint32_t offset)
{
    at(it, function, offset)->reads++;
}

void stray_write(struct bus *it, unsigned int function, uint32_t offset, uint32_t word)
{
    struct stray *stray = at(it, function, offset);
    stray->writes++;
    stray->last = word;
}

static void write_one(const struct bus *it, FILE *file, unsigned int function, uint32_t offset,
                      const struct stray *stray, stray_name *name)
{
    const char *known = name ? name(function, offset) : NULL;
    if (function == BUS_PHYSICAL)
        fprintf(file, "pf");
    else
        fprintf(file, "vf%u", function - 1);
    fprintf(file, " %05" PRIx32 " %" PRIu32 " %" PRIu32 " %08" PRIx32, offset, stray->reads, stray->writes,
            stray->last);
    for (unsigned int phase = 0; bus_phase_name(it, phase); phase++)
        if (stray->phases >> phase & 1)
            fprintf(file, " %s", bus_phase_name(it, phase));
    if (known)
        fprintf(file, " # %s", known);
    fputc('\n', file);
}

void strays_write(const struct bus *it, FILE *file, stray_name *name)
{
    for (unsigned int function = 0; function <= it->options.functions; function++)
        for (uint32_t word = 0; word < space_of(function) / 4; word++)
            if (it->strays[function][word].phases)
                write_one(it, file, function, word * 4, &it->strays[function][word], name);
}

void strays_each(const struct bus *it, stray_each *each, void *of)
{
    for (unsigned int function = 0; function <= it->options.functions; function++)
        for (uint32_t word = 0; word < space_of(function) / 4; word++) {
            const struct stray *stray = &it->strays[function][word];
            if (stray->phases)
                each(of, function, word * 4, (uint64_t)stray->reads + stray->writes);
        }
}
