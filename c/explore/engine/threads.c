/* Tasks and handlers: their stacks, their waits, their locks. */
#include <stdint.h>
#include <string.h>

#include "left.h"
#include "parts.h"
#include "unpointed.h"
#include "weak.h"

static const char *name_of(const nicx_mutex *lock)
{
    return lock->name ? lock->name : "a lock";
}

/* Fails if a thread ends while it holds a lock: neither that lock nor its waiters are ever released. */
static void judge_locks(const struct thread *self)
{
    enum { MOST_HELD = sizeof self->held / sizeof *self->held };
    if (self->locks)
        nicxi_failed(NICX_MISUSE, "%s ends while it holds %s", self->name,
                     self->locks > MOST_HELD ? "a lock" : name_of(self->held[self->locks - 1]));
}

static void end(struct thread *self)
{
    if (nicxi_form)
        nicxi_form->ended(self);
    nicxi_cover_thread((uint16_t)(self - nicxi.threads));
    if (self->on >= 0)
        nicxi.threads[self->on].interrupted_by = -1;
    if (self->masked)
        nicxi_failed(NICX_MISUSE, "%s ends with its interrupts disabled", self->name);
    judge_locks(self);
    self->state = OFF;
    self->is_void = false;
    self->on = -1;
}

/* Runs as the outermost function of a thread. It never ends: a handler that starts again, and a task in the next
   schedule, continue in its loop. */
static void live(void *argument)
{
    struct thread *self = argument;
    for (;;) {
        if (nicxi_is_stepping)
            nicxi_steps_begin();
        self->function(self->argument);
        nicxo_publish();
        end(self);
        self->stack = PARKED;
        nicxi_next(self);
    }
}

bool nicxi_thread_prepare(struct thread *thread)
{
    size_t size = thread->room ? thread->room : nicxi.scenario->stack ? nicxi.scenario->stack : USUAL_STACK;
    if (thread->stack != NO_STACK && thread->fiber.size < size) {
        nicxi_fiber_close(&thread->fiber);
        thread->stack = NO_STACK;
    }
    if (thread->stack == NO_STACK && !nicxi_fiber_open(&thread->fiber, size))
        return false;
    if (thread->stack != PARKED)
        nicxi_fiber_begin(&thread->fiber, live, thread);
    thread->stack = PARKED;
    return true;
}

void nicxi_thread_resume(struct thread *from, struct thread *to)
{
    nicxi.self = to;
    if (nicxi_form && from != to)
        nicxi_form->goes(from, to);
    if (to->stack == PARKED)
        to->stack = BUSY;
    if (from != to)
        nicxi_fiber_switch(from ? &from->fiber : &nicxi.main, &to->fiber);
}

void nicxi_threads_close(void)
{
    for (int k = 0; k < MOST_THREADS; k++) {
        nicxi_fiber_close(&nicxi.threads[k].fiber);
        nicxi.threads[k].stack = NO_STACK;
    }
}

bool nicxi_others_acted(const struct thread *thread)
{
    return nicxi.acts - thread->own != (thread->state == PAUSED ? thread->looked : thread->seen);
}

/* --- points without an access --- */

/* Stops the thread at a point. Returns false if the thread is left, or none runs. The driver's pointer stores are
   published first, as steps of their own, so this step's fields are set after that. */
static bool stand_at(enum thread_state state, enum local local, const void *object)
{
    if (!nicxi_may_act())
        return false;
    struct thread *self = nicxi.self;
    if (!self) {
        if (state == WAITING || state == PAUSED || state == UNTIL)
            nicxi_wait_outside();
        return false;
    }
    self->next.kind = STEP_LOCAL;
    self->next.word = (uint32_t)local;
    self->next.bus = (uintptr_t)object;
    self->state = (uint8_t)state;
    nicxi_next(self);
    if (nicxi_is_left())
        return false;
    nicxi_went_on(self);
    if (state == LOCKED || local == LOCAL_UNLOCK)
        self->is_void = false;
    nicxi_announce(&self->next);
    return true;
}

static bool stand(enum thread_state state, enum local local)
{
    return stand_at(state, local, NULL);
}

void nicx_point(void)
{
    stand(READY, LOCAL_POINT);
}

static void note_wait(struct thread *self, const void *call)
{
    self->waits = call;
    self->waiter = nicxi_form ? nicxi_form->called_from() : NULL;
}

void nicx_wait(void)
{
    if (nicxi.self)
        note_wait(nicxi.self, __builtin_return_address(0));
    stand(WAITING, LOCAL_WAIT);
}

void nicx_pause(void)
{
    stand(PAUSED, LOCAL_PAUSE);
}

void nicx_wait_until(bool (*condition)(void *), void *argument)
{
    struct thread *self = nicxi.self;
    if (!nicxi_may_act())
        return;
    if (!self) {
        while (!condition(argument) && (nicxi.phase == BRINGING_UP || nicxi.phase == BEGINNING))
            nicxi_wait_outside();
        return;
    }
    self->condition = condition;
    self->condition_argument = argument;
    note_wait(self, __builtin_return_address(0));
    stand(UNTIL, LOCAL_UNTIL);
}

/* --- used by threads that a driver creates --- */

void nicxi_call(enum thread_state state, const char *call, const void *object)
{
    struct thread *self = nicxi.self;
    if (!self)
        return;
    self->waits = NULL;
    self->next.call = call;
    stand_at(state, LOCAL_CALL, object);
}

void nicxi_call_until(bool (*condition)(void *), void *argument, bool timed, const char *call, const void *object)
{
    struct thread *self = nicxi.self;
    if (!self)
        return;
    self->condition = condition;
    self->condition_argument = argument;
    self->is_timed = timed;
    nicxi_call(UNTIL, call, object);
    self->is_timed = false;
}

struct thread *nicxi_make_thread(void (*function)(void *), void *argument, size_t room)
{
    for (uint16_t k = 0; k < nicxi.tasks; k++) {
        struct thread *thread = &nicxi.threads[k];
        if (!thread->is_made || thread->function)
            continue;
        thread->function = function;
        thread->argument = argument;
        thread->room = room;
        if (!nicxi_thread_prepare(thread))
            return NULL;
        thread->state = READY;
        return thread;
    }
    return NULL;
}

void nicxi_end_thread(void)
{
    struct thread *self = nicxi.self;
    end(self);
    self->stack = BUSY;
    nicxi_next(self);
}

/* --- locks: `kept` holds the schedule's number and the holder, so that each schedule finds them free --- */

static unsigned number_of(const struct thread *thread)
{
    return (unsigned)(thread - nicxi.threads);
}

bool nicxi_lock_is_free(const nicx_mutex *lock)
{
    return lock->kept >> 8 != nicxi.epoch || !(lock->kept & 0xFF);
}

static void note_lock(struct thread *self, nicx_mutex *lock)
{
    if (self->locks < sizeof self->held / sizeof *self->held)
        self->held[self->locks] = lock;
    self->locks++;
}

/* Locks may be released in any order. */
static void note_unlock(struct thread *self, const nicx_mutex *lock)
{
    enum { MOST_HELD = sizeof self->held / sizeof *self->held };
    uint32_t kept = self->locks < MOST_HELD ? self->locks : MOST_HELD, k = 0;
    while (k < kept && self->held[k] != lock)
        k++;
    for (; k + 1 < kept; k++)
        self->held[k] = self->held[k + 1];
    self->locks--;
}

void nicx_lock(nicx_mutex *lock)
{
    struct thread *self = nicxi.self;
    if (!nicxi_may_act() || !self)
        return;
    self->lock = lock;
    if (!stand_at(LOCKED, LOCAL_LOCK, lock))
        return;
    if (nicxi.is_tso) /* on x86, taking a lock is an exchange */
        nicxi_released(self);
    lock->kept = nicxi.epoch << 8 | (number_of(self) + 1);
    note_lock(self, lock);
}

void nicx_unlock(nicx_mutex *lock)
{
    struct thread *self = nicxi.self;
    if (!nicxi_may_act() || !self)
        return;
    self->lock = lock;
    if (!stand_at(READY, LOCAL_UNLOCK, lock))
        return;
    if (lock->kept != (nicxi.epoch << 8 | (number_of(self) + 1))) {
        nicxi_failed(NICX_MISUSE, "%s unlocks %s without holding it", self->name, name_of(lock));
        nicxi_leave();
        return;
    }
    if (nicxi.is_weak)
        nicxi_released(self);
    lock->kept = 0;
    note_unlock(self, lock);
}

void nicx_interrupts_off(void)
{
    if (nicxi_may_act() && nicxi.self)
        nicxi.self->masked++;
}

void nicx_interrupts_on(void)
{
    struct thread *self = nicxi.self;
    if (!nicxi_may_act() || !self)
        return;
    if (!self->masked) {
        nicxi_failed(NICX_MISUSE, "%s enables interrupts that aren't disabled", self->name);
        nicxi_leave();
        return;
    }
    self->masked--;
}

void nicx_fail(const char *words)
{
    nicxi_failed(NICX_CHECK, "%s", words);
    nicxi_leave();
}
