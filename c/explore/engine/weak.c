#include "weak.h"

#include <stdlib.h>
#include <string.h>

#include "parts.h"
#include "stored.h"

enum { SEEN = 16 };

/* A pending store. */
struct store {
    uint64_t bus; /* for a store to own memory, its address in the process */
    uint32_t length, room;
    uint8_t *bytes;
    bool is_own;       /* to the driver's own memory */
    bool is_anyones;   /* a pointer store: any thread may have made it, not only the one that writes it (nicxo_write) */
    bool releases;     /* all earlier stores must come before it */
    uint8_t slot;      /* own memory: its number among the processor's pending stores */
    uint32_t barriers; /* barriers made before this store: stores made before such a barrier reach memory first */
};

/* The latest state of a location that a processor has seen: its loads from the location return nothing older than
   `time`. */
struct seen {
    uint64_t bus;
    uint32_t length, time;
};

struct processor {
    struct store stores[NICX_STORES]; /* pending stores, oldest first */
    uint32_t count;
    uint32_t barriers; /* store barriers made while stores were pending */
    uint32_t floor;    /* no load returns a value older than this time */
    struct seen seen[SEEN];
    uint32_t seen_count, next;
};

/* A change to memory. What it overwrote is in `old`, at offset `at`. All changes of one step have the same time. */
struct change {
    uint64_t bus;
    uint32_t length, time;
    size_t at;
};

static struct {
    struct processor processors[MOST_THREADS];
    uint8_t *memory; /* the copy, indexed by bus address */
    uint64_t size;
    struct change *changes;
    size_t count, room;
    uint8_t *old;
    size_t used, old_room;
    uint32_t time;
} weak;

static enum given_memory given_memory;

void nicxi_give_memory(enum given_memory given)
{
    given_memory = given;
}

static struct processor *processor_of(const struct thread *thread)
{
    return &weak.processors[thread->on >= 0 ? thread->on : (int)(thread - nicxi.threads)];
}

/* --- the copy of memory --- */

static const char *copy_memory(void)
{
    weak.size = (uint64_t)nicxi.scenario->blocks * NIC_BLOCK_BYTES;
    weak.memory = calloc(1, weak.size ? weak.size : 1);
    if (!weak.memory)
        return "out of memory for a copy of the device's memory";
    for (uint64_t at = 0; at < weak.size; at += NIC_BLOCK_BYTES)
        nic_dma_read(&nicxi.device, at, weak.memory + at, NIC_BLOCK_BYTES);
    return NULL;
}

static enum given_memory wanted_memory(void)
{
    uint32_t of_scenario = nicxi.scenario->memory;
    if (given_memory != AS_SCENARIO)
        return given_memory;
    return of_scenario & NICX_WEAK ? WEAK : of_scenario & NICX_TSO ? TSO : STRONG;
}

static const char *open_as(enum given_memory memory)
{
    nicxi.is_weak = memory != STRONG;
    nicxi.is_tso = memory == TSO;
    if (nicxi.is_weak && nicxi_form && !nicxi_races)
        return "weak memory needs the driver's atomics and fences: compile the driver with "
               "-fsanitize=thread";
    return nicxi.is_weak ? copy_memory() : NULL;
}

enum given_memory nicxi_memory(void)
{
    return nicxi.is_tso ? TSO : nicxi.is_weak ? WEAK : STRONG;
}

const char *nicxi_memory_word(enum given_memory memory)
{
    return memory == TSO ? "tso" : memory == WEAK ? "weak" : "strong";
}

const char *nicxi_weak_open(void)
{
    return open_as(wanted_memory());
}

void nicxi_weak_close(void)
{
    for (int k = 0; k < MOST_THREADS; k++)
        for (int j = 0; j < NICX_STORES; j++)
            free(weak.processors[k].stores[j].bytes);
    free(weak.memory);
    free(weak.changes);
    free(weak.old);
    memset(&weak, 0, sizeof weak);
}

const char *nicxi_change_memory(enum given_memory memory)
{
    if (memory == nicxi_memory())
        return NULL;
    nicxi_weak_close();
    nicxi_back();
    const char *fault = open_as(memory);
    nicxi_list_actors();
    return fault;
}

/* Restores the copy to its state after the bring-up, with no pending store. */
void nicxi_weak_back(void)
{
    while (weak.count) {
        const struct change *change = &weak.changes[--weak.count];
        memcpy(weak.memory + change->bus, weak.old + change->at, change->length);
    }
    weak.used = 0;
    weak.time = 0;
    for (int k = 0; k < MOST_THREADS; k++) {
        struct processor *it = &weak.processors[k];
        it->count = it->barriers = it->floor = it->seen_count = 0;
    }
}

bool nicxi_weak_is_exact(void)
{
    uint8_t bytes[NIC_BLOCK_BYTES];
    for (uint64_t at = 0; at < weak.size; at += NIC_BLOCK_BYTES)
        if (nic_dma_read(&nicxi.device, at, bytes, sizeof bytes) == NIC_DONE &&
            memcmp(bytes, weak.memory + at, sizeof bytes) != 0)
            return false;
    return true;
}

/* --- changes --- */

static bool has_room(size_t length)
{
    if (weak.count == weak.room) {
        size_t room = 2 * weak.room + 64;
        struct change *changes = realloc(weak.changes, room * sizeof *changes);
        if (!changes)
            return false;
        weak.changes = changes;
        weak.room = room;
    }
    if (weak.used + length > weak.old_room) {
        size_t room = 2 * (weak.used + length);
        uint8_t *old = realloc(weak.old, room);
        if (!old)
            return false;
        weak.old = old;
        weak.old_room = room;
    }
    return true;
}

/* Notes that these bytes may have changed. Writing the same value again isn't a change. */
static void changed(uint64_t bus, uint64_t length)
{
    if (!length || bus >= weak.size || length > weak.size - bus)
        return;
    if (!has_room(length)) {
        nicxi_failed(NICX_MISUSE, "out of memory while saving the old contents of memory");
        return;
    }
    uint8_t *old = weak.old + weak.used, *now = weak.memory + bus;
    memcpy(old, now, length);
    if (nic_dma_read(&nicxi.device, bus, now, length) != NIC_DONE || !memcmp(old, now, length))
        return;
    struct change change = {bus, (uint32_t)length, weak.time, weak.used};
    weak.changes[weak.count++] = change;
    weak.used += length;
}

/* A step's result says where the device wrote. */
void nicxi_memory_changed(const struct step *step)
{
    weak.time++;
    if (step->kind == STEP_POKE || step->kind == STEP_STORE) {
        changed(step->bus, step->length);
    } else if (step->kind == STEP_RX && step->status == NIC_WROTE) {
        changed(step->outcome.at, step->outcome.len);
        changed(step->outcome.desc, NIC_DESC_BYTES);
    } else if (step->kind == STEP_TX && step->outcome.back) {
        uint64_t left = NIC_BLOCK_BYTES - step->outcome.at % NIC_BLOCK_BYTES; /* a head is shorter than a descriptor */
        changed(step->outcome.at, left < NIC_DESC_BYTES ? left : NIC_DESC_BYTES);
    }
}

void nicxi_memory_moved(uint32_t block)
{
    weak.time++;
    changed((uint64_t)block * NIC_BLOCK_BYTES, NIC_BLOCK_BYTES);
    for (int k = 0; k < MOST_THREADS; k++)
        weak.processors[k].floor = weak.time;
}

/* --- what a processor may still read --- */

static uint32_t floor_of(const struct processor *it, uint64_t bus, uint32_t length)
{
    uint32_t floor = it->floor;
    for (uint32_t k = 0; k < it->seen_count; k++)
        if (it->seen[k].time > floor && nicxi_overlap(it->seen[k].bus, it->seen[k].length, bus, length))
            floor = it->seen[k].time;
    return floor;
}

/* When the table is full, a new location replaces an old one, and the old one's time then applies to all locations.
   That only makes loads less old. */
static void note_seen(struct processor *it, uint64_t bus, uint32_t length, uint32_t time)
{
    uint32_t k = 0;
    while (k < it->seen_count && (it->seen[k].bus != bus || it->seen[k].length != length))
        k++;
    if (k == SEEN) {
        k = it->next;
        it->next = (k + 1) % SEEN;
        if (it->floor < it->seen[k].time)
            it->floor = it->seen[k].time;
    } else if (k == it->seen_count) {
        it->seen_count++;
        it->next = 0;
    }
    struct seen seen = {bus, length, time};
    it->seen[k] = seen;
}

/* Whether a store is to this kind of memory, lent or own, and overlaps the range. */
static bool touches(const struct store *store, bool is_own, uint64_t at, uint64_t length)
{
    return store->is_own == is_own && nicxi_overlap(store->bus, store->length, at, length);
}

static bool gives_own(const struct processor *it, uint64_t bus, uint32_t length)
{
    for (uint32_t k = 0; k < it->count; k++)
        if (touches(&it->stores[k], false, bus, length))
            return true;
    return false;
}

/* Finds the time before the last `older` changes of a location. Returns false if the processor's loads may no longer
   return that value. */
static bool time_before(const struct processor *it, uint64_t bus, uint32_t length, uint32_t older, uint32_t *time)
{
    uint32_t floor = floor_of(it, bus, length), last = 0;
    for (size_t k = weak.count; k > 0 && weak.changes[k - 1].time > floor; k--) {
        const struct change *change = &weak.changes[k - 1];
        if (change->time == last || !nicxi_overlap(change->bus, change->length, bus, length))
            continue;
        last = change->time;
        *time = last - 1;
        if (!--older)
            return true;
    }
    return false;
}

bool nicxi_can_be_older(const struct actor *actor)
{
    const struct thread *thread = &nicxi.threads[actor->of];
    uint32_t time;
    if (nicxi.is_tso || thread->state != READY || thread->interrupted_by >= 0 || thread->next.kind != STEP_PEEK)
        return false;
    const struct processor *it = processor_of(thread);
    const struct step *load = &thread->next;
    return !gives_own(it, load->bus, load->length) &&
           time_before(it, load->bus, load->length, (uint32_t)actor->on, &time);
}

/* --- loads and stores --- */

/* Copies the bytes that two ranges have in common. */
static void lay_over(uint8_t *bytes, uint64_t bus, uint64_t length, const uint8_t *other, uint64_t at, uint64_t many)
{
    uint64_t from = bus > at ? bus : at, end = bus + length < at + many ? bus + length : at + many;
    if (from < end)
        memcpy(bytes + (from - bus), other + (from - at), end - from);
}

uint8_t nicxi_load(struct step *step, uint8_t *bytes)
{
    struct processor *it = processor_of(nicxi.self);
    uint32_t time = weak.time;
    step->is_kept = false;
    step->older = nicxi.self->older;
    uint8_t status = nic_dma_read(&nicxi.device, step->bus, bytes, step->length);
    if (status != NIC_DONE)
        return status;
    if (step->older && !time_before(it, step->bus, step->length, step->older, &time))
        step->older = 0;
    for (size_t k = weak.count; step->older && k > 0 && weak.changes[k - 1].time > time; k--) {
        const struct change *change = &weak.changes[k - 1];
        lay_over(bytes, step->bus, step->length, weak.old + change->at, change->bus, change->length);
    }
    for (uint32_t k = 0; k < it->count; k++) {
        const struct store *store = &it->stores[k];
        if (!touches(store, false, step->bus, step->length))
            continue;
        step->is_kept = true;
        lay_over(bytes, step->bus, step->length, store->bytes, store->bus, store->length);
    }
    note_seen(it, step->bus, step->length, time);
    return status;
}

static void reach_device(struct processor *it, const struct store *store, struct step *step)
{
    const struct thread *thread = &nicxi.threads[step->of];
    char where[MOST_PLACE];
    step->status = nic_dma_write(&nicxi.device, store->bus, store->bytes, store->length);
    nicxi_memory_changed(step);
    note_seen(it, store->bus, store->length, weak.time);
    if (step->status == NIC_NOT_LENT && !(nicxi.scenario->allowed & NICX_NOT_LENT))
        nicxi_failed(NICX_MEMORY, "a store by %s%s reaches memory at 0x%llx, which is no longer lent", thread->name,
                     nicxi_stored_at(thread, store->bus, where), (unsigned long long)store->bus);
}

static void reach_own_memory(const struct store *store, struct step *step)
{
    step->is_own = true;
    step->status = NIC_DONE;
    memcpy((void *)(uintptr_t)store->bus, store->bytes, store->length);
    if (nicxi_races)
        nicxi_races->landed(step->of, store->slot, store->bus);
}

/* Flushes one of a processor's stores to memory, and frees its position in the list. */
static void land(struct processor *it, uint32_t place, struct step *step)
{
    struct store store = it->stores[place];
    step->kind = STEP_STORE;
    step->of = (uint16_t)(it - weak.processors);
    step->bus = store.bus;
    step->length = store.length;
    memmove(&it->stores[place], &it->stores[place + 1], (it->count - place - 1) * sizeof store);
    it->stores[--it->count] = store;
    if (store.is_own)
        reach_own_memory(&store, step);
    else
        reach_device(it, &store, step);
}

/* Flushes the oldest store as part of another step. */
static void land_oldest(struct processor *it)
{
    struct step step = {0};
    step.is_beside = true;
    land(it, 0, &step);
    nicxi_announce(&step);
}

/* Flushes the `count` oldest stores. */
static uint32_t land_first(struct processor *it, uint32_t count)
{
    for (uint32_t k = 0; k < count; k++)
        land_oldest(it);
    return count;
}

/* Flushes the other processors' pointer stores that overlap the range: this processor's thread may have made them. */
static uint32_t land_anyones(const struct processor *self, uint64_t at, uint64_t length)
{
    uint32_t landed = 0;
    for (int k = 0; k < MOST_THREADS; k++) {
        struct processor *it = &weak.processors[k];
        uint32_t count = it == self ? 0 : it->count;
        while (count && !(it->stores[count - 1].is_anyones && touches(&it->stores[count - 1], false, at, length)))
            count--;
        landed += land_first(it, count);
    }
    return landed;
}

static bool keep_bytes(struct store *store, const void *bytes, uint32_t length)
{
    if (store->room < length) {
        uint8_t *room = realloc(store->bytes, length);
        if (!room)
            return false;
        store->bytes = room;
        store->room = length;
    }
    memcpy(store->bytes, bytes, length);
    return true;
}

/* Appends a store. Returns false if there is no memory for it. */
static bool keep_store(struct processor *it, struct store store, const void *bytes)
{
    if (store.releases || nicxi.is_tso)
        land_anyones(it, 0, weak.size);
    else if (!store.is_own)
        land_anyones(it, store.bus, store.length);
    if (it->count == NICX_STORES)
        land_oldest(it);
    struct store *last = &it->stores[it->count];
    if (!keep_bytes(last, bytes, store.length)) {
        nicxi_failed(NICX_MISUSE, "out of memory for a pending store");
        return false;
    }
    store.bytes = last->bytes;
    store.room = last->room;
    store.barriers = it->barriers;
    *last = store;
    it->count++;
    return true;
}

/* Whether memory is lent is checked when the store is made, so that the failure is the driver's call. */
static uint8_t status_of(uint64_t bus, uint64_t length)
{
    uint8_t bytes[NIC_BLOCK_BYTES];
    uint8_t status = NIC_DONE;
    for (uint64_t at = 0; at < length && status == NIC_DONE; at += sizeof bytes)
        status = nic_dma_read(&nicxi.device, bus + at, bytes, length - at < sizeof bytes ? length - at : sizeof bytes);
    return status;
}

uint8_t nicxi_store(struct step *step, const uint8_t *bytes)
{
    struct processor *it = processor_of(nicxi.self);
    uint8_t status = status_of(step->bus, step->length);
    step->is_kept = false;
    if (status != NIC_DONE || !step->length)
        return status;
    struct store store = {.bus = step->bus, .length = step->length, .is_anyones = step->is_published};
    step->is_kept = keep_store(it, store, bytes);
    return status;
}

/* --- atomic stores to memory of the driver's own --- */

/* Returns a slot that none of the processor's pending stores uses. */
static uint8_t free_slot(const struct processor *it)
{
    uint32_t taken = 0;
    uint8_t slot = 0;
    for (uint32_t k = 0; k < it->count; k++)
        if (it->stores[k].is_own)
            taken |= 1u << it->stores[k].slot;
    while (taken >> slot & 1)
        slot++;
    return slot;
}

int nicxi_keep_own(uint64_t at, const void *bytes, uint32_t length, bool releases)
{
    struct processor *it = processor_of(nicxi.self);
    if (it->count == NICX_STORES)
        land_oldest(it);
    struct store store = {.bus = at, .length = length, .is_own = true, .releases = releases, .slot = free_slot(it)};
    return keep_store(it, store, bytes) ? store.slot : -1;
}

/* Returns how many of the oldest stores must reach memory before no store to own memory in the range is left. */
static uint32_t up_to(const struct processor *it, uint64_t at, uint64_t length)
{
    uint32_t count = it->count;
    while (count && !touches(&it->stores[count - 1], true, at, length))
        count--;
    return count;
}

/* If the last store there doesn't cover exactly the loaded bytes, the stores are flushed, and the load reads memory. */
void nicxi_load_own(uint64_t at, void *bytes, uint32_t length)
{
    struct processor *it = processor_of(nicxi.self);
    uint32_t count = up_to(it, at, length);
    const struct store *last = count ? &it->stores[count - 1] : NULL;
    if (last && last->bus == at && last->length == length) {
        memcpy(bytes, last->bytes, length);
    } else if (last) {
        land_first(it, count);
        memcpy(bytes, (const void *)(uintptr_t)at, length);
    }
}

void nicxi_land_own(uint64_t at, uint64_t length)
{
    struct processor *it = processor_of(nicxi.self);
    land_first(it, up_to(it, at, length));
}

void nicxi_land_everywhere(uint64_t at, uint64_t length)
{
    for (int k = 0; k < MOST_THREADS; k++)
        land_first(&weak.processors[k], up_to(&weak.processors[k], at, length));
}

/* --- stores reaching memory on their own --- */

/* Whether the older store must reach memory first: stores to one location stay in order, those before a barrier come
   first, and a releasing store comes after all earlier ones. */
static bool comes_first(const struct store *old, const struct store *new)
{
    return new->releases || old->barriers < new->barriers || touches(old, new->is_own, new->bus, new->length);
}

bool nicxi_can_land(const struct actor *actor)
{
    const struct processor *it = &weak.processors[actor->of];
    uint32_t place = (uint32_t)actor->on;
    if (place >= it->count || (nicxi.is_tso && place))
        return false;
    for (uint32_t k = 0; k < place; k++)
        if (comes_first(&it->stores[k], &it->stores[place]))
            return false;
    return true;
}

void nicxi_land(const struct actor *actor, struct step *step)
{
    land(&weak.processors[actor->of], (uint32_t)actor->on, step);
}

/* --- barriers --- */

uint32_t nicxi_released(const struct thread *thread)
{
    struct processor *it = processor_of(thread);
    uint32_t others = land_anyones(it, 0, weak.size);
    return others + land_first(it, it->count);
}

uint32_t nicxi_ordered(const struct thread *thread)
{
    struct processor *it = processor_of(thread);
    uint32_t others = land_anyones(it, 0, weak.size), count = it->count;
    while (count && it->stores[count - 1].is_own)
        count--;
    land_first(it, count);
    it->barriers += it->count != 0;
    return others + count;
}

void nicxi_acquired(const struct thread *thread)
{
    processor_of(thread)->floor = weak.time;
}
