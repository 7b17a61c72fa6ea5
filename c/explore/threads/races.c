#define _GNU_SOURCE
#include "races.h"

#include <stdio.h>
#include <stdlib.h>
#include <string.h>

#include "../engine/independent.h"
#include "../engine/stored.h"
#include "../engine/symbols.h"
#include "../engine/weak.h"
#include "../engine/words.h"
#include "form.h"
#include "taken.h"

/* --- clocks --- */

enum { DEVICE = MOST_THREADS, CLOCKS };

struct clock {
    uint32_t at[CLOCKS];
};

static struct clock now[CLOCKS];

/* Each thread's clock at the end of each of its earlier times. A time ends with a release. */
static struct {
    struct clock *list;
    uint32_t room;
} past[CLOCKS];

static bool is_open;

static void out_of_memory(void)
{
    fputs("nicx: out of memory for the race detector\n", stderr);
    abort();
}

static void *grown(void *list, size_t bytes)
{
    void *moved = realloc(list, bytes);
    if (!moved)
        out_of_memory();
    return moved;
}

static void join(struct clock *to, const struct clock *from)
{
    for (unsigned k = 0; k < CLOCKS; k++)
        if (to->at[k] < from->at[k])
            to->at[k] = from->at[k];
}

/* Starts a new time: later accesses of the thread aren't part of its last release. */
static void tick(unsigned who)
{
    uint32_t time = now[who].at[who]++;
    if (time >= past[who].room) {
        past[who].room = 2 * time + 16;
        past[who].list = grown(past[who].list, past[who].room * sizeof *past[who].list);
    }
    past[who].list[time] = now[who];
    past[who].list[time].at[who] = time;
}

/* Returns what a thread knew at a given time on its own clock. */
static const struct clock *clock_at(unsigned who, uint32_t time)
{
    return time < now[who].at[who] ? &past[who].list[time] : &now[who];
}

/* --- synchronization objects, by address --- */

enum space { MEMORY, REGISTER, SIDE };

struct object {
    uint64_t key, epoch;
    struct clock clock;
};

static struct {
    struct object *list;
    size_t room, used;
    uint64_t epoch;
} objects;

static uint64_t mixed(uint64_t key)
{
    key *= 0x9E3779B97F4A7C15u;
    return key ^ key >> 29;
}

static struct object *place_of(struct object *list, size_t room, uint64_t key)
{
    size_t k = mixed(key) & (room - 1);
    while (list[k].epoch == nicxi.epoch && list[k].key != key)
        k = (k + 1) & (room - 1);
    return &list[k];
}

static void make_room(void)
{
    size_t room = objects.room ? 2 * objects.room : 1024;
    struct object *list = calloc(room, sizeof *list);
    if (!list)
        out_of_memory();
    for (size_t k = 0; k < objects.room; k++)
        if (objects.list[k].epoch == nicxi.epoch)
            *place_of(list, room, objects.list[k].key) = objects.list[k];
    nicxi_checkpoints_drop();
    free(objects.list);
    objects.list = list;
    objects.room = room;
}

static struct clock *clock_of(enum space space, uint64_t of)
{
    uint64_t key = (uint64_t)space << 60 ^ of;
    if (objects.epoch != nicxi.epoch)
        objects.used = 0;
    objects.epoch = nicxi.epoch;
    if (2 * objects.used >= objects.room)
        make_room();
    struct object *object = place_of(objects.list, objects.room, key);
    nicxi_undo_later(object, sizeof *object);
    if (object->epoch != nicxi.epoch) {
        object->key = key;
        object->epoch = nicxi.epoch;
        memset(&object->clock, 0, sizeof object->clock);
        objects.used++;
    }
    return &object->clock;
}

/* Set while a condition of nicx_wait_until runs: writes to the memory that it reads happen before what the waiting
   thread does next. */
static bool is_looking;

static bool is_watching(void)
{
    return is_open && nicxi_is_in_thread();
}

static unsigned self_number(void)
{
    return nicxi_number(nicxi.self);
}

static void give(enum space space, uint64_t of)
{
    join(clock_of(space, of), &now[self_number()]);
    tick(self_number());
}

static void take(enum space space, uint64_t of)
{
    join(&now[self_number()], clock_of(space, of));
}

/* With weak memory, no store is pending after a release, and no load is older than an acquire. On x86 taking a lock
   also flushes stores. */
void nicxi_race_release(const void *object)
{
    if (nicxi_is_in_thread())
        nicxi_drain();
    if (is_watching())
        give(MEMORY, (uintptr_t)object);
}

void nicxi_race_acquire(const void *object)
{
    if (nicxi_is_in_thread()) {
        nicx_acquire();
        if (nicxi.is_tso)
            nicxi_drain();
    }
    if (is_watching())
        take(MEMORY, (uintptr_t)object);
}

/* --- atomic operations; a fence applies to the relaxed operations before or after it --- */

static struct {
    struct clock loaded; /* acquired by relaxed loads, for a later fence */
    struct clock stored; /* released by the last fence, for later relaxed stores */
} fences[MOST_THREADS];

/* What each processor's pending stores will release. */
static struct clock late[MOST_THREADS][NICX_STORES];

static bool acquires(int order)
{
    return order == CONSUME || order == ACQUIRE || order == BOTH || order == ALL;
}

static bool releases(int order)
{
    return order == RELEASE || order == BOTH || order == ALL;
}

void nicxi_race_load(uint64_t at, int order)
{
    if (is_looking)
        take(MEMORY, at);
    if (nicxi_is_in_thread() && acquires(order))
        nicx_acquire();
    if (!is_watching())
        return;
    if (acquires(order))
        take(MEMORY, at);
    else
        join(&fences[self_number()].loaded, clock_of(MEMORY, at));
}

/* A store replaces what was released at its address; an exchange adds to it. */
static void put(uint64_t at, int order, bool goes_on)
{
    struct clock *clock = clock_of(MEMORY, at);
    if (releases(order))
        nicx_release();
    if (!goes_on)
        memset(clock, 0, sizeof *clock);
    if (releases(order))
        give(MEMORY, at);
    else
        join(clock, &fences[self_number()].stored);
}

void nicxi_race_store(uint64_t at, int order)
{
    if (is_watching())
        put(at, order, false);
}

void nicxi_race_store_late(int slot, int order)
{
    if (!is_watching())
        return;
    unsigned self = self_number();
    struct clock *clock = &late[nicxi.self->on >= 0 ? (unsigned)nicxi.self->on : self][slot];
    *clock = releases(order) ? now[self] : fences[self].stored;
    if (releases(order))
        tick(self);
}

static void landed(unsigned processor, unsigned slot, uint64_t at)
{
    *clock_of(MEMORY, at) = late[processor][slot];
}

void nicxi_race_exchange(uint64_t at, int order)
{
    if (!is_watching())
        return;
    nicxi_race_load(at, order);
    put(at, order, true);
}

void nicxi_race_fence(int order)
{
    if (!is_watching())
        return;
    unsigned self = self_number();
    if (acquires(order))
        nicx_acquire();
    if (releases(order))
        nicx_release();
    if (order == ALL)
        nicxi_drain();
    if (acquires(order))
        join(&now[self], &fences[self].loaded);
    if (releases(order)) {
        fences[self].stored = now[self];
        tick(self);
    }
}

/* --- accesses: for each eight bytes of memory, the accesses that later ones are checked against --- */

enum { MOST_CELLS = 8, WRITTEN_BACK = 1 << 2, FREES = 1 << 3 };

/* Packet memory is placed above all addresses of the process. */
#define BUS_SPACE ((uint64_t)1 << 62)

struct cell {
    const void *call, *caller;
    uint32_t time;
    uint8_t who, mask, access; /* mask: the bytes accessed; access: enum access, WRITTEN_BACK, FREES */
};

struct granule {
    uint64_t key, epoch;
    uint8_t count;
    struct cell cells[MOST_CELLS];
};

static struct {
    struct granule *list;
    size_t room, used;
    uint64_t epoch;
} shadow;

static struct granule *granule_place(struct granule *list, size_t room, uint64_t key)
{
    size_t k = mixed(key) & (room - 1);
    while (list[k].epoch == nicxi.epoch && list[k].key != key)
        k = (k + 1) & (room - 1);
    return &list[k];
}

static void make_shadow(void)
{
    size_t room = shadow.room ? 2 * shadow.room : 4096;
    struct granule *list = calloc(room, sizeof *list);
    if (!list)
        out_of_memory();
    for (size_t k = 0; k < shadow.room; k++)
        if (shadow.list[k].epoch == nicxi.epoch)
            *granule_place(list, room, shadow.list[k].key) = shadow.list[k];
    nicxi_checkpoints_drop();
    free(shadow.list);
    shadow.list = list;
    shadow.room = room;
}

static struct granule *granule_of(uint64_t key)
{
    if (shadow.epoch != nicxi.epoch)
        shadow.used = 0;
    shadow.epoch = nicxi.epoch;
    if (2 * shadow.used >= shadow.room)
        make_shadow();
    struct granule *granule = granule_place(shadow.list, shadow.room, key);
    nicxi_undo_later(granule, sizeof *granule);
    if (granule->epoch != nicxi.epoch) {
        granule->key = key;
        granule->epoch = nicxi.epoch;
        granule->count = 0;
        shadow.used++;
    }
    return granule;
}

static bool is_before(const struct cell *cell, const struct clock *clock)
{
    return cell->time <= clock->at[cell->who];
}

/* Whether two accesses to the same bytes need an order. A driver may read a location before the device's write-back to
   it. */
static bool conflict(const struct cell *old, const struct cell *new)
{
    if (!(old->mask & new->mask) || old->who == new->who || !((old->access | new->access) & WRITES))
        return false;
    if ((old->access | new->access) & WRITTEN_BACK)
        return old->access & new->access &WRITES;
    return !(old->access & new->access &ATOMIC);
}

/* Adds an access. Drops the older accesses that it covers, and if the list is still full, the oldest one. */
static void keep(struct granule *granule, const struct cell *cell, const struct clock *clock)
{
    unsigned kept = 0;
    for (unsigned k = 0; k < granule->count; k++) {
        const struct cell *old = &granule->cells[k];
        bool is_covered = !(old->mask & ~cell->mask) && is_before(old, clock) &&
                          (cell->access & WRITES || (old->who == cell->who && !(old->access & WRITES))) &&
                          !(old->access & WRITTEN_BACK && !(cell->access & WRITES));
        if (!is_covered)
            granule->cells[kept++] = *old;
    }
    if (kept == MOST_CELLS) {
        memmove(granule->cells, granule->cells + 1, (MOST_CELLS - 1) * sizeof *granule->cells);
        kept--;
    }
    granule->cells[kept++] = *cell;
    granule->count = (uint8_t)kept;
}

/* --- reporting --- */

struct race {
    uint64_t at;
    size_t length;
    struct cell old, new;
};

static const char *verb_of(const struct cell *cell, bool is_past)
{
    if (cell->access & WRITTEN_BACK)
        return is_past ? "wrote back" : "writes back";
    if (cell->access & FREES)
        return is_past ? "freed" : "frees";
    if (cell->access & ATOMIC && cell->access & WRITES)
        return is_past ? "atomically wrote" : "atomically writes";
    if (cell->access & ATOMIC)
        return is_past ? "atomically read" : "atomically reads";
    return cell->access & WRITES ? is_past ? "wrote" : "writes" : is_past ? "read" : "reads";
}

enum { MOST_WHO = 2 * MOST_NAMED };

static const char *who_of(const struct cell *cell, char room[MOST_WHO])
{
    char line[MOST_NAMED];
    const char *name = cell->who == DEVICE ? "the device" : nicxi.threads[cell->who].name;
    if (cell->call)
        snprintf(room, MOST_WHO, "%.40s at %.90s", name, nicxi_line_by(cell->call, cell->caller, line));
    else
        snprintf(room, MOST_WHO, "%.80s", name);
    return room;
}

/* The thread with the stack that contains this address, or null. */
static const struct thread *owner_of(uint64_t at)
{
    for (unsigned k = 0; k < MOST_THREADS; k++) {
        const struct fiber *fiber = &nicxi.threads[k].fiber;
        if (fiber->bottom && at - (uintptr_t)fiber->bottom < fiber->size)
            return &nicxi.threads[k];
    }
    return NULL;
}

bool nicxi_race_is_shared(uint64_t at)
{
    return !owner_of(at) && !nicxi_state_is_local(at);
}

static const char *place_words(uint64_t at, char room[MOST_NAMED])
{
    const struct thread *owner = owner_of(at);
    char slot[MOST_WORDS];
    if (at & BUS_SPACE)
        snprintf(room, MOST_NAMED, "packet memory 0x%llx%s", (unsigned long long)(at & ~BUS_SPACE),
                 nicxi_slot_words(at & ~BUS_SPACE, slot));
    else if (owner)
        snprintf(room, MOST_NAMED, "a variable on the stack of %.40s", owner->name);
    else if (nicxi_is_taken(at) && !nicxi_taken_name((const void *)(uintptr_t)at, room, MOST_NAMED))
        snprintf(room, MOST_NAMED, "memory from malloc");
    else if (nicxi_is_taken(at))
        return room;
    else if (!nicxi_symbol((const void *)(uintptr_t)at, room, MOST_NAMED))
        snprintf(room, MOST_NAMED, "0x%llx", (unsigned long long)at);
    return room;
}

static void tell(const struct race *race)
{
    char place[MOST_NAMED], new[MOST_WHO], old[MOST_WHO];
    nicxi_failed(NICX_RACE, "%.70s, %zu byte%s: %s %s, and %s %s it before, without an order between them",
                 place_words(race->at, place), race->length, nicxi_s(race->length), who_of(&race->new, new),
                 verb_of(&race->new, false), who_of(&race->old, old), verb_of(&race->old, true));
}

/* --- an access --- */

/* Defined in a program that has parts without instrumentation (c/drive/card/build.py). */
extern const char nicx_unseen_parts[] __attribute__((weak));

/* Checks an access to these bytes. Returns false if it races, which is reported. */
static bool look_at(uint64_t at, size_t length, const struct cell *cell, const struct clock *clock)
{
    for (uint64_t key = at >> 3; key <= (at + length - 1) >> 3; key++) {
        struct granule *granule = granule_of(key);
        struct cell part = *cell;
        uint64_t from = at > key << 3 ? at - (key << 3) : 0;
        uint64_t to = at + length < (key + 1) << 3 ? at + length - (key << 3) : 8;
        part.mask = (uint8_t)((1u << to) - (1u << from));
        for (unsigned k = 0; k < granule->count; k++) {
            const struct cell *old = &granule->cells[k];
            if (nicx_unseen_parts || !conflict(old, &part) || is_before(old, clock))
                continue;
            tell(&(struct race){at, length, *old, part});
            return false;
        }
        keep(granule, &part, clock);
    }
    return true;
}

static void access(uint64_t at, size_t length, unsigned how, const void *call)
{
    unsigned self = self_number();
    struct cell cell = {call, nicxi_called_from(), now[self].at[self], (uint8_t)self, 0, (uint8_t)how};
    if (length && !look_at(at, length, &cell, &now[self]))
        nicxi_leave();
}

/* Acquires from the last accesses of the given kind to these bytes. */
static void take_from_writers(uint64_t at, size_t length, unsigned access)
{
    for (uint64_t key = at >> 3; length && key <= (at + length - 1) >> 3; key++) {
        const struct granule *granule = granule_of(key);
        for (unsigned k = 0; k < granule->count; k++)
            if (granule->cells[k].access & access)
                join(&now[self_number()], clock_at(granule->cells[k].who, granule->cells[k].time));
    }
}

static void take_by_condition(const struct thread *self)
{
    const char *asker = nicxi.asker;
    nicxi.asker = "a condition of nicx_wait_until";
    is_looking = true;
    self->condition(self->condition_argument);
    is_looking = false;
    nicxi.asker = asker;
}

/* Packet memory in place is tracked by its bus address. */
static uint64_t place_of_access(uint64_t at)
{
    uint64_t bus;
    return nicxi.bus_of && nicxi.bus_of(at, &bus) ? BUS_SPACE | bus : at;
}

void nicxi_race_access(uint64_t at, size_t length, unsigned how, const void *call)
{
    at = place_of_access(at);
    if (is_looking)
        take_from_writers(at, length, WRITES);
    else if (!is_watching() || nicxi_state_is_local(at))
        return;
    if (at & BUS_SPACE && how & WRITES)
        nicxi_note_stored(at & ~BUS_SPACE, length, call);
    else if (at & BUS_SPACE)
        take_from_writers(at, length, WRITTEN_BACK);
    if (!is_looking)
        access(at, length, how, call);
}

/* Memory that was never accessed has no entry. */
static struct granule *known(uint64_t key)
{
    struct granule *granule = shadow.room ? granule_place(shadow.list, shadow.room, key) : NULL;
    return granule && granule->epoch == nicxi.epoch ? granule : NULL;
}

static void forget(struct granule *granule)
{
    if (!granule)
        return;
    nicxi_undo_later(granule, sizeof *granule);
    granule->count = 0;
}

void nicxi_race_forget(const void *at, size_t length)
{
    if (!is_open || !length || nicxi.phase != RUNNING)
        return;
    for (uint64_t key = (uintptr_t)at >> 3; key <= ((uintptr_t)at + length - 1) >> 3; key++)
        forget(known(key));
}

void nicxi_race_free(const void *at, size_t length, const void *call)
{
    if (nicxi.is_weak && nicxi.phase == RUNNING)
        nicxi_land_everywhere((uintptr_t)at, length);
    if (!is_watching())
        return;
    for (uint64_t key = (uintptr_t)at >> 3; key <= ((uintptr_t)at + length - 1) >> 3; key++)
        if (known(key) && known(key)->count)
            access(key << 3, 8, WRITES | FREES, call);
    nicxi_race_forget(at, length);
}

/* --- called by the engine: the device has a clock too --- */

/* Keys of SIDE: what was released to the device by registers outside any queue's side, and by all registers; timers;
   messages. */
enum { GENERAL = 256, ALL_OF_IT, TIMERS = 512, MESSAGES = 1024 };

static void accessed_register(const struct step *step)
{
    uint32_t address = step->kind == STEP_READ || step->kind == STEP_WRITE ? step->address : step->physical;
    unsigned self = self_number();
    if (step->kind == STEP_READ || step->kind == STEP_VF_READ) {
        take(REGISTER, address);
        /* the device's writes reach memory before its reply to a read */
        now[self].at[DEVICE] = now[DEVICE].at[DEVICE];
        return;
    }
    int side = nicxi_side_of_register(address);
    join(clock_of(SIDE, side < 0 ? GENERAL : (uint64_t)side), &now[self]);
    join(clock_of(SIDE, ALL_OF_IT), &now[self]);
    give(REGISTER, address);
}

static void accessed_packets(const struct step *step)
{
    unsigned how = step->kind == STEP_POKE ? WRITES : READS;
    uint64_t at = BUS_SPACE | step->bus;
    if (step->status != NIC_DONE || (step->kind == STEP_POKE && step->is_published))
        return;
    if (how == READS)
        take_from_writers(at, step->length, WRITTEN_BACK);
    access(at, step->length, how, nicxi.self->call);
}

static void device_writes(uint64_t bus, uint64_t length, unsigned how)
{
    struct cell cell = {NULL, NULL, now[DEVICE].at[DEVICE], DEVICE, 0, (uint8_t)how};
    if (length)
        look_at(BUS_SPACE | bus, length, &cell, &now[DEVICE]);
}

/* A head that is written back is four bytes long, a descriptor sixteen. */
static void device_writes_back(const struct step *step)
{
    bool is_head = nicxi_peek(NIC_TDWBAL(step->outcome.queue)) & NIC_TDWBAL_HEAD_WB_EN;
    device_writes(step->outcome.at, is_head ? 4 : 16, WRITES | WRITTEN_BACK);
}

/* A device step is ordered after the register writes for its side, a message after all register writes. */
static void device_acted(const struct step *step)
{
    struct clock *clock = &now[DEVICE];
    int side = nicxi_side_of_step(step);
    tick(DEVICE);
    uint32_t time = clock->at[DEVICE];
    memset(clock, 0, sizeof *clock);
    clock->at[DEVICE] = time;
    join(clock, clock_of(SIDE, GENERAL));
    if (side >= 0)
        join(clock, clock_of(SIDE, (uint64_t)side));
    if (step->kind == STEP_INT && step->status == NIC_MESSAGE) {
        join(clock, clock_of(SIDE, ALL_OF_IT));
        join(clock_of(SIDE, MESSAGES + 16u * step->outcome.group + step->outcome.vector), clock);
    }
    if (step->kind == STEP_RX && step->status == NIC_WROTE) {
        device_writes(step->outcome.at, step->outcome.len, WRITES);
        device_writes(step->outcome.desc, 16, WRITES | WRITTEN_BACK);
    }
    if (step->kind == STEP_TX && step->outcome.back)
        device_writes_back(step);
    if (nicxi_is_in_thread() && nicxi.is_program)
        join(&now[self_number()], clock); /* the step is ordered before what the requesting thread does next */
}

/* --- handlers: one on a task runs between two of the task's steps --- */

static uint32_t sat[MOST_THREADS]; /* for each task, the handlers that ran on it */

static void handler_starts(void)
{
    unsigned number = nicxi.actors[nicxi.schedule[*nicxi.points - 1]].of;
    const struct thread *handler = &nicxi.threads[number];
    if (handler->is_timer)
        join(&now[number], clock_of(SIDE, TIMERS + number));
    else
        join(&now[number], clock_of(SIDE, MESSAGES + 16u * handler->group + handler->vector));
    /* the handler runs on the task's processor, so it is ordered after the task, even after the task's end */
    int task = handler->on >= 0 ? handler->on : handler->where;
    if (task < 0)
        return;
    join(&now[number], &now[task]);
    tick((unsigned)task);
    if (handler->on >= 0)
        sat[task] |= 1u << (number - NICX_TASKS);
}

static void goes_on_after_handlers(unsigned self)
{
    for (unsigned k = 0; sat[self] && k < NICX_HANDLERS; k++)
        if (sat[self] >> k & 1) {
            join(&now[self], &now[NICX_TASKS + k]);
            tick(NICX_TASKS + k);
        }
    sat[self] = 0;
}

/* The thread that wakes all waiters of a condition variable, or arrives last at a barrier, may free it before they
   continue. */
static bool ends_wait(const struct step *step)
{
    const void *condition = nicxi_posix[self_number()].condition;
    return strstr(step->call, "barrier") || (condition && condition == (const void *)(uintptr_t)step->bus);
}

static void accessed_itself(const struct step *step)
{
    if (step->word == LOCAL_LOCK)
        nicxi_race_acquire((const void *)(uintptr_t)step->bus);
    else if (step->word == LOCAL_UNLOCK)
        nicxi_race_release((const void *)(uintptr_t)step->bus);
    else if (step->word == LOCAL_UNTIL)
        take_by_condition(nicxi.self);
    else if (step->word == LOCAL_ARM)
        give(SIDE, TIMERS + step->of); /* the arming happens before the timer's handler runs */
    else if (step->word == LOCAL_CALL && !ends_wait(step))
        nicxi_judge_object((const void *)(uintptr_t)step->bus, step->call, NULL);
}

static void observe(const struct step *step)
{
    if (nicxi.phase != RUNNING)
        return;
    if (nicxi_is_in_thread())
        goes_on_after_handlers(self_number());
    if (nicxi_is_device_step(step->kind))
        device_acted(step);
    else if (step->kind == STEP_START)
        handler_starts();
    else if (!nicxi_is_in_thread() || step != &nicxi.self->next)
        return;
    else if (step->kind == STEP_LOCAL)
        accessed_itself(step);
    else if (step->kind == STEP_PEEK || step->kind == STEP_POKE)
        accessed_packets(step);
    else if (step->kind >= STEP_READ && step->kind <= STEP_VF_WRITE)
        accessed_register(step);
}

static void gives(const void *object)
{
    if (is_watching())
        give(MEMORY, (uintptr_t)object);
}

static void takes(const void *object)
{
    if (is_watching())
        take(MEMORY, (uintptr_t)object);
}

static void thread_part(struct checkpoint *it, unsigned number)
{
    nicxi_part(it, &now[number], sizeof now[number]);
    nicxi_part(it, &fences[number], sizeof fences[number]);
    nicxi_part(it, &sat[number], sizeof sat[number]);
}

/* A thread's past is overwritten when it runs again. Stores are late only with weak memory. */
void nicxi_race_part(struct checkpoint *it)
{
    for (unsigned k = 0; k < nicxi.tasks; k++)
        thread_part(it, k);
    for (unsigned k = NICX_TASKS; k < NICX_TASKS + (unsigned)nicxi.handlers; k++)
        thread_part(it, k);
    nicxi_part(it, &now[DEVICE], sizeof now[DEVICE]);
    nicxi_part(it, &objects.used, sizeof objects.used);
    nicxi_part(it, &objects.epoch, sizeof objects.epoch);
    nicxi_part(it, &shadow.used, sizeof shadow.used);
    nicxi_part(it, &shadow.epoch, sizeof shadow.epoch);
    nicxi_part(it, &is_looking, sizeof is_looking);
}

static void begin(void)
{
    memset(fences, 0, sizeof fences);
    memset(now, 0, sizeof now);
    memset(sat, 0, sizeof sat);
    nicxi_forget_callers();
    for (unsigned k = 0; k < CLOCKS; k++)
        now[k].at[k] = 1;
}

void nicxi_race_open(void)
{
    static const struct nicxi_races races = {begin, observe, landed, gives, takes, nicx_unseen_parts};
    nicxi_races = &races;
    is_open = true;
}
