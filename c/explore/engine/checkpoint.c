#include "checkpoint.h"

#include <stdlib.h>
#include <string.h>

#include "engine.h"
#include "heap.h"
#include "parts.h"

/* Checkpoints are this many points apart, and further if they are large: taking one and continuing from it costs about
   as much as running that many points. Memory for them is limited. */
enum { MOST = 64, APART = 24, BYTES_OF_POINT = 4096 };
uint32_t nicxi_checkpoints_apart = APART;
#define MOST_BYTES ((size_t)32 << 20)
#define MOST_UNDO ((size_t)16 << 20)
#define NEVER UINT32_MAX

struct checkpoint {
    char *bytes; /* the parts, in the order in which they were saved */
    size_t used, room;
    bool is_restoring, is_incomplete;
    uint32_t at; /* the point that comes next */
    size_t undo; /* size of the undo list when it was taken */
    uint32_t strays;
    uint64_t faults; /* what the schedule had counted until then */
};

static struct {
    struct checkpoint list[MOST]; /* those of the current schedule's path, from its start */
    uint32_t count;
    size_t bytes;
    uint32_t prefix;
    bool is_open, is_planned, is_asked;
    uint32_t strays;
    uint64_t faults; /* the counts when the schedule started */
} all;

/* Earlier contents of memory that changed since the first checkpoint, each followed by a struct change. */
static struct {
    char *bytes;
    size_t used, room;
} undo;

struct change {
    void *place;
    size_t size;
};

uint32_t nicxi_checkpoint_at = NEVER;
bool nicxi_has_checkpoints;

/* --- the parts of the state --- */

static bool has_room(char **bytes, size_t *room, size_t wanted)
{
    if (wanted <= *room)
        return true;
    char *moved = realloc(*bytes, 2 * wanted);
    if (!moved)
        return false;
    *bytes = moved;
    *room = 2 * wanted;
    return true;
}

void nicxi_part(struct checkpoint *it, void *place, size_t size)
{
    if (it->is_restoring)
        nicxi_put_back(place, it->bytes + it->used, size);
    else if (!has_room(&it->bytes, &it->room, it->used + size))
        it->is_incomplete = true;
    else
        memcpy(it->bytes + it->used, place, size);
    it->used += it->is_incomplete ? 0 : size;
}

/* A thread outside its function has nothing on its stack. The stack may be another one when its thread starts. */
static void thread_part(struct checkpoint *it, struct thread *thread)
{
    struct fiber fiber = thread->fiber;
    uint8_t stack = thread->stack == NO_STACK ? NO_STACK : BUSY;
    nicxi_part(it, thread, sizeof *thread);
    if (thread->state != OFF || thread == nicxi.self) {
        nicxi_part(it, thread->fiber.top,
                   (size_t)(thread->fiber.bottom + thread->fiber.size - (char *)thread->fiber.top));
    } else if (it->is_restoring) {
        thread->fiber = fiber;
        thread->stack = stack;
    }
}

#define FIELDS(it, first, last)                                                                                        \
    nicxi_part(it, &nicxi.first, offsetof(struct engine, last) + sizeof nicxi.last - offsetof(struct engine, first))

/* All of struct engine that changes while threads run. */
static void engine_part(struct checkpoint *it)
{
    uint32_t points = *nicxi.points;
    nicxi_part(it, &points, sizeof points);
    *nicxi.points = points;
    nicxi_part(it, &nicxi.phase, sizeof nicxi.phase);
    FIELDS(it, tasks, timers);
    FIELDS(it, frame_count, is_idle);
    FIELDS(it, count, came);
    FIELDS(it, self, waits);
    FIELDS(it, last, changes);
    nicxi_part(it, nicxi.actors, nicxi.count * sizeof *nicxi.actors);
    for (uint16_t k = 0; k < nicxi.tasks; k++)
        thread_part(it, &nicxi.threads[k]);
    for (uint16_t k = NICX_TASKS; k < NICX_TASKS + nicxi.handlers; k++)
        thread_part(it, &nicxi.threads[k]);
}

static void all_parts(struct checkpoint *it)
{
    it->used = 0;
    engine_part(it);
    nicxi_heap_part(it);
    nicxi_cover_part(it);
    nicxi_access_part(it);
    nicxi_form->part(it);
}

/* --- large tables --- */

void nicxi_note_change(void *place, size_t size)
{
    struct change change = {place, size};
    if (undo.used > MOST_UNDO || !has_room(&undo.bytes, &undo.room, undo.used + size + sizeof change)) {
        nicxi_checkpoints_drop();
        return;
    }
    memcpy(undo.bytes + undo.used, place, size);
    memcpy(undo.bytes + undo.used + size, &change, sizeof change);
    undo.used += size + sizeof change;
}

static void undo_to(size_t used)
{
    struct change change;
    while (undo.used > used) {
        undo.used -= sizeof change;
        memcpy(&change, undo.bytes + undo.used, sizeof change);
        undo.used -= change.size;
        memcpy(change.place, undo.bytes + undo.used, change.size);
    }
}

/* --- which checkpoints there are --- */

static void drop_last(void)
{
    all.bytes -= all.list[--all.count].used;
}

void nicxi_checkpoints_drop(void)
{
    all.count = 0;
    nicxi_has_checkpoints = false;
    all.bytes = undo.used = 0;
    nicxi_checkpoint_at = NEVER;
}

static uint32_t apart(void)
{
    size_t size = all.count ? all.list[all.count - 1].used : 0;
    return nicxi_checkpoints_apart + (nicxi_checkpoints_apart < APART ? 0 : (uint32_t)(size / BYTES_OF_POINT));
}

/* Only a point that was reached before gets a checkpoint: no time is lost on points that no later schedule reaches. */
static void choose_next(void)
{
    uint32_t next = (all.count ? all.list[all.count - 1].at : 0) + apart();
    bool may = all.count < MOST && all.bytes < MOST_BYTES && next <= all.prefix;
    nicxi_checkpoint_at = may ? next : NEVER;
}

/* Whether everything that a schedule changes is known, and a test doesn't want each schedule run from its start. */
static bool is_possible(void)
{
#ifdef NICX_BY_UCONTEXT
    return false;
#else
    return nicxi_form && nicxi_form->is_known() && nicxi_heap_is_used() && nicxi_heap_size() < MOST_BYTES &&
           !nicxi.is_weak && !nicxi.observer && !nicxi.listener && !getenv("NICX_NO_CHECKPOINTS");
#endif
}

void nicxi_checkpoints_open(void)
{
    all.is_open = is_possible();
}

void nicxi_checkpoints_close(void)
{
    nicxi_checkpoints_drop();
    for (uint32_t k = 0; k < MOST; k++) {
        free(all.list[k].bytes);
        all.list[k] = (struct checkpoint){0};
    }
    free(undo.bytes);
    memset(&undo, 0, sizeof undo);
    all.is_open = all.is_planned = false;
}

void nicxi_checkpoints_plan(uint32_t prefix)
{
    all.is_open = all.is_open && nicxi_form->is_known();
    all.is_planned = all.is_open;
    all.prefix = prefix;
}

/* --- taking one, and continuing from one --- */

/* Choosing a value is a point without a checkpoint, so the point after it may be one that wasn't reached before. */
static bool may_take(void)
{
    bool may = nicxi.self && *nicxi.points <= all.prefix && nicxi_form->is_known();
    for (uint16_t k = 0; k < MOST_THREADS; k++)
        may = may && !nicxi.threads[k].unwinds;
    return may;
}

/* The copy is made on the process's own stack, so that this thread's stack is at rest too. */
void nicxi_checkpoint_take(void)
{
    nicxi_checkpoint_at = NEVER;
    if (!may_take())
        return;
    all.is_asked = true;
    nicxi_fiber_switch(&nicxi.self->fiber, &nicxi.main);
}

static void take(void)
{
    struct checkpoint *it = &all.list[all.count];
    it->at = *nicxi.points;
    it->is_restoring = it->is_incomplete = false;
    it->undo = undo.used;
    it->strays = nicxi.notes->strays - all.strays;
    it->faults = nicxi.coverage->faults - all.faults;
    all_parts(it);
    if (it->is_incomplete)
        return;
    all.count++;
    nicxi_has_checkpoints = true;
    all.bytes += it->used;
    choose_next();
}

void nicxi_checkpoint_serve(void)
{
    while (all.is_asked) {
        all.is_asked = false;
        take();
        nicxi_fiber_switch(&nicxi.main, &nicxi.self->fiber);
    }
}

static void count_from_here(uint32_t strays, uint64_t faults)
{
    all.strays = nicxi.notes->strays - strays;
    all.faults = nicxi.coverage->faults - faults;
}

bool nicxi_checkpoint_continues(void)
{
    bool is_planned = all.is_planned;
    all.is_planned = false;
    while (all.count && (!is_planned || all.list[all.count - 1].at > all.prefix))
        drop_last();
    if (!all.count)
        nicxi_checkpoints_drop();
    if (is_planned)
        choose_next();
    if (!all.count) {
        count_from_here(0, 0);
        return false;
    }
    struct checkpoint *it = &all.list[all.count - 1];
    size_t used = it->used;
    undo_to(it->undo);
    it->is_restoring = true;
    all_parts(it);
    if (it->used != used)
        abort();
    nicxi.notes->strays += it->strays;
    nicxi.coverage->faults += it->faults;
    count_from_here(it->strays, it->faults);
    nicxi_fiber_switch(&nicxi.main, &nicxi.self->fiber);
    return true;
}
