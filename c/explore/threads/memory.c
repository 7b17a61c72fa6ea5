#define _GNU_SOURCE
#include "memory.h"

#include <string.h>

#include "../engine/symbols.h"
#include "form.h"
#include "races.h"

bool nicxi_memory_is_point;

static const char *name; /* the variable or function named by --points, or "" */

static const char *ask_for(const char *wanted)
{
    nicxi_memory_is_point = true;
    name = wanted;
    return NULL;
}

void nicxi_memory_open(void)
{
    nicxi_ask_for_memory = ask_for;
}

/* --- whether an address belongs to the variable or function with that name; looked up once per address --- */

enum { KNOWN = 4096 };

static struct {
    uint64_t at;
    bool is_it;
} known[KNOWN];

static bool has_name(uint64_t at)
{
    char symbol[MOST_SYMBOL];
    if (!nicxi_symbol((const void *)(uintptr_t)at, symbol, sizeof symbol))
        return false;
    symbol[strcspn(symbol, "+")] = 0;
    return !strcmp(symbol, name);
}

static bool is_of_name(uint64_t at)
{
    uint64_t key = at * 0x9E3779B97F4A7C15u >> 52;
    if (known[key].at != at) {
        known[key].is_it = has_name(at);
        known[key].at = at;
    }
    return known[key].is_it;
}

/* Whether an address is on the thread's own stack or thread-local. Few drivers share these. */
static bool is_own(uint64_t at)
{
    const struct fiber *fiber = &nicxi.self->fiber;
    return at - (uintptr_t)fiber->bottom < fiber->size || nicxi_state_is_local(at);
}

/* Whether a handler bound to the running task may start at this access: its message was sent, or since its last point
   the task gave the device a reason to send it. Any other message can arrive at the task's point with the same effect,
   because the device's steps change nothing in the driver's own memory. */
static bool may_be_interrupted(void)
{
    const struct thread *self = nicxi.self;
    bool is_new = self->next.kind != STEP_LOCAL;
    if (self->masked || self->interrupted_by >= 0)
        return false;
    for (unsigned k = NICX_TASKS; k < NICX_TASKS + (unsigned)nicxi.handlers; k++) {
        const struct thread *handler = &nicxi.threads[k];
        if ((handler->pending || is_new) && !handler->is_timer && handler->state == OFF && handler->where >= 0 &&
            self == &nicxi.threads[handler->where])
            return true;
    }
    return false;
}

void nicxi_memory_points(uint64_t at, size_t length, unsigned how, const void *call)
{
    bool is_asked = nicxi_memory_is_point && (!*name || is_of_name(at) || is_of_name((uintptr_t)call));
    if ((is_asked || may_be_interrupted()) && !is_own(at))
        nicxi_memory_point(how & WRITES ? LOCAL_STORE : LOCAL_LOAD, at, (uint32_t)length);
}
