#include "stored.h"

#include <stdio.h>
#include <string.h>

#include "checkpoint.h"
#include "names.h"
#include "parts.h"

/* Packet memory is tracked in units of a descriptor, registers by address, with REGISTERS set in the key. A new entry
   replaces the one that it collides with; a failure that needs the replaced entry names no line. */
enum { UNIT = NIC_DESC_BYTES, PLACES = 4096, MOST_UNITS = NIC_BLOCK_BYTES / UNIT };
#define REGISTERS (UINT64_C(1) << 63)

struct stored {
    uint64_t epoch, key;
    const struct thread *who; /* null: written by `begin` */
    const void *call, *caller;
};

static struct stored stored[PLACES];

static struct stored *place_of(uint64_t key)
{
    return &stored[key * 0x9E3779B97F4A7C15u >> 52];
}

static bool is_in_schedule(void)
{
    return nicxi.phase == RUNNING || nicxi.phase == BEGINNING;
}

static void note(uint64_t key, const void *call)
{
    struct stored *it = place_of(key);
    nicxi_undo_later(it, sizeof *it);
    it->epoch = nicxi.epoch;
    it->key = key;
    it->who = nicxi.self;
    it->call = call;
    it->caller = nicxi_form ? nicxi_form->called_from() : NULL;
}

void nicxi_note_stored(uint64_t bus, uint64_t length, const void *call)
{
    if (!is_in_schedule() || !length)
        return;
    uint64_t last = (bus + length - 1) / UNIT, first = bus / UNIT;
    for (uint64_t unit = first; unit <= last && unit - first <= MOST_UNITS; unit++)
        note(unit, call);
}

void nicxi_note_set(uint32_t address, const void *call)
{
    if (is_in_schedule())
        note(REGISTERS | address, call);
}

static const struct stored *known(uint64_t key)
{
    const struct stored *it = place_of(key);
    return it->key == key && it->epoch == nicxi.epoch ? it : NULL;
}

static void forget(uint64_t bus)
{
    struct stored *it = place_of(bus / UNIT);
    if (it->key != bus / UNIT)
        return;
    nicxi_undo_later(it, sizeof *it);
    it->epoch = 0;
}

void nicxi_forget_stored(const struct step *step)
{
    if (step->kind == STEP_RX && step->status == NIC_WROTE)
        forget(step->outcome.desc);
    else if (step->kind == STEP_TX && step->outcome.back)
        forget(step->outcome.at);
}

static const char *at_words(const struct stored *it, char room[MOST_PLACE])
{
    char where[MOST_PLACE], by[MOST_PLACE];
    const char *call = it ? it->call : NULL, *caller = it ? it->caller : NULL;
    room[0] = 0;
    bool is_known = *nicxi_line_of_call(call ? call + 1 : NULL, where);
    bool has_caller = is_known && *nicxi_line_of_call(caller ? caller + 1 : NULL, by);
    if (is_known)
        snprintf(room, MOST_PLACE, " at %.70s%s%.70s", where, has_caller ? " < " : "", has_caller ? by : "");
    return room;
}

const char *nicxi_stored_at(const struct thread *thread, uint64_t bus, char room[MOST_PLACE])
{
    const struct stored *it = known(bus / UNIT);
    return at_words(it && it->who == thread ? it : NULL, room);
}

static void add_words(const struct stored *it, const char *did)
{
    char where[MOST_PLACE];
    size_t used = strlen(nicxi.result.words);
    snprintf(nicxi.result.words + used, sizeof nicxi.result.words - used, "; %.40s %s%s",
             it->who ? it->who->name : "begin", did, at_words(it, where));
}

static void add_register(uint32_t address)
{
    char name[MOST_NAME], did[MOST_NAME + 16];
    const struct stored *it = known(REGISTERS | address);
    if (!it)
        return;
    snprintf(did, sizeof did, "last wrote %s", nicxi_register(address, name));
    add_words(it, did);
}

void nicxi_name_giver(const struct step *step)
{
    if (step->status != NIC_FAULT || step->outcome.why != NIC_FAULT_NOT_LENT || nicxi.result.outcome != NICX_FAULT)
        return;
    bool sends = step->kind == STEP_TX;
    unsigned queue = step->outcome.queue;
    struct nicl_ring ring = nicl_ring_of(&nicxi.device, sends, queue);
    const struct stored *descriptor = known(ring.base / UNIT + ring.head);
    if (step->outcome.bus - ring.base < (uint64_t)NIC_DESC_BYTES * ring.slots)
        add_register(sends ? NIC_TDBAL(queue) : NIC_RDBAL(queue));
    else if (descriptor)
        add_words(descriptor, "wrote that descriptor");
    else
        add_register(sends ? NIC_TDT(queue) : NIC_RDT(queue));
}
