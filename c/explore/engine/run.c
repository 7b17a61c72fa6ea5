/* One schedule: an actor is chosen point by point, until all is at rest or the schedule fails. The choice is made on
   the stack of the thread at the point. So no stack is switched if that thread continues, or if the device acts. */
#include <stdarg.h>
#include <stdio.h>
#include <stdlib.h>
#include <string.h>

#include "checkpoint.h"
#include "engine.h"
#include "heap.h"
#include "left.h"
#include "parts.h"
#include "places.h"
#include "process.h"
#include "stored.h"
#include "symbols.h"
#include "unpointed.h"
#include "weak.h"
#include "words.h"

enum { MOST_RESTS = 20, LAST_POINTS = 100 };

struct engine nicxi;
const struct nicxi_form *nicxi_form;
const struct nicxi_races *nicxi_races;
const char *(*nicxi_ask_for_memory)(const char *name);
const char *nicxi_asked_points;

/* A name is one word, so that it fits into a line of a file. */
bool nicxi_are_points(const char *words)
{
    if (strncmp(words, "memory", 6) != 0)
        return false;
    bool has_name = words[6] == ':' && words[7];
    for (const char *at = words; *at; at++)
        if (*at <= ' ' || *at > '~' || *at == '#')
            return false;
    return has_name ? strlen(words + 7) < MOST_SYMBOL : !words[6];
}

const char *nicxi_ask_for_points(const char *words)
{
    if (!nicxi_are_points(words))
        return "expected memory, or memory:NAME with a variable or a function";
    if (!nicxi_ask_for_memory)
        return "no accesses are visible: build the driver with -fsanitize=thread";
    nicxi_asked_points = words;
    return nicxi_ask_for_memory(words[6] ? words + 7 : "");
}

void nicxi_failed(uint8_t outcome, const char *form, ...)
{
    char words[sizeof nicxi.result.words];
    va_list list;
    if (nicxi.result.outcome)
        return;
    nicxi.result.outcome = outcome;
    va_start(list, form);
    vsnprintf(words, sizeof words, form, list);
    va_end(list);
    nicxi_one_line(words, nicxi.result.words, sizeof nicxi.result.words);
}

void nicxi_leave(void)
{
    struct thread *self = nicxi.self;
    nicxi.asker = NULL;
    if (!self)
        return;
    self->stack = BUSY;
    nicxi_next(self);
}

/* Tasks run on stacks of a single thread of the process: the one with its `mark` at the address `maker`. */
static __thread char mark;
static const char *maker;

void nicxi_is_made_here(void)
{
    maker = &mark;
}

bool nicxi_is_maker(void)
{
    return maker == &mark;
}

bool nicxi_is_in_thread(void)
{
    return nicxi.phase == RUNNING && nicxi.self && !nicxi.asker && nicxi_is_maker();
}

void nicxi_begin(void)
{
    nicxi.phase = BEGINNING;
    nicxi_outside_begins();
    nicxi.scenario->begin();
    if (nicxi_form && nicxi.tasks)
        nicxi_form->begun();
}

bool nicxi_may_order(void)
{
    if (maker != &mark && nicxi.phase != CLOSED)
        nicxi_refuse_thread();
    if (nicxi_is_left())
        return false;
    if (!nicxi.asker)
        return true;
    nicxi_failed(NICX_MISUSE, "%s calls a function with side effects: it may only read", nicxi.asker);
    nicxi_leave();
    return false;
}

bool nicxi_may_act(void)
{
    if (!nicxi_may_order())
        return false;
    if (nicxi.observer)
        nicxo_publish();
    return !nicxi_is_left();
}

/* --- after a step --- */

void nicxi_announce(const struct step *step)
{
    uint32_t point = *nicxi.points - 1;
    bool is_point = nicxi.phase == RUNNING || (nicxi.phase == BEGINNING && step->kind == STEP_VALUE);
    if (is_point && nicxi.steps && !step->is_beside)
        nicxi.steps[point] = *step;
    uint16_t actor = is_point ? nicxi.schedule[point] : (uint16_t)NOBODY;
    if (nicxi.observer && nicxi.phase != ENDING)
        nicxi_observed(actor, step);
    if (nicxi.listener && nicxi.phase != ENDING)
        nicxi.listener(nicxi.listener_argument, actor, step);
    if (nicxi_races)
        nicxi_races->made(step);
    if (nicxi_is_stepping && nicxi.phase == RUNNING && nicxi.self && step == &nicxi.self->next)
        nicxi_steps_begin();
}

/* Whether the thread can continue only because of other actors' steps. */
static bool is_waiting(const struct thread *thread)
{
    return thread->state == WAITING || thread->state == PAUSED || (thread->state == UNTIL && thread->is_timed);
}

void nicxi_went_on(struct thread *self)
{
    self->next.waits = is_waiting(self);
    if (self->next.waits) {
        self->is_void = true;
        self->looked = nicxi.acts - self->own;
        if (self->state != PAUSED) /* a polling loop's pause must not consume the act that its next wait needs */
            self->seen = self->looked;
    }
    if (nicxi.is_weak && self->state != READY)
        nicxi_acquired(self);
    self->state = READY;
}

void nicxi_touched(const void *place, size_t size, bool writes)
{
    uint32_t k = *nicxi.points;
    if (nicxi.phase != RUNNING || !nicxi.steps || !nicxi.self || !k || !size)
        return;
    while (k > 1 && nicxi_is_value(nicxi.schedule[k - 1]))
        k--;
    for (uintptr_t at = (uintptr_t)place >> 3; at <= ((uintptr_t)place + size - 1) >> 3; at++)
        nicxi.steps[k - 1].touched[writes] |= UINT64_C(1) << ((uint64_t)at * 0x9E3779B97F4A7C15u >> 58);
}

/* Marks the last step, and the values chosen since, as followed by a wait of its thread. */
static void note_wait(void)
{
    for (uint32_t k = *nicxi.points; k > 0; k--) {
        nicxi.steps[k - 1].waits = true;
        if (!nicxi_is_value(nicxi.schedule[k - 1]))
            break;
    }
}

/* Called when a thread reached its next point. A thread that waits again without a visible change may still have
   changed the driver's own memory, so this counts as an act. But it counts only once per change: otherwise two polling
   threads never become idle. */
static void note_act(struct thread *self)
{
    if (nicxi.steps && is_waiting(self))
        note_wait();
    if (self->is_void) {
        if (!is_waiting(self) || self->voided == nicxi.changes)
            return;
        self->voided = nicxi.changes;
    } else {
        nicxi.changes++;
    }
    nicxi.acts++;
    self->own++;
}

static void look(void)
{
    const char *words;
    if (!nicxi.scenario->always || nicxi.result.outcome)
        return;
    nicxi.asker = "always";
    words = nicxi.scenario->always();
    nicxi.asker = NULL;
    if (words)
        nicxi_failed(NICX_ALWAYS, "%s", words);
}

/* --- choosing --- */

/* Whether a thread may continue because no actor is runnable: one in a timed wait, or one that paused. A thread that
   the driver created may poll forever. It comes to rest when polling no longer changes anything, unless it holds a lock
   that others may wait for. */
static bool ends_at_rest(const struct thread *thread)
{
    if (thread->interrupted_by >= 0 || (thread->state != PAUSED && !(thread->state == UNTIL && thread->is_timed)))
        return false;
    return !thread->is_made || thread->rested_at != nicxi.changes || thread->rested < MOST_RESTS ||
           nicxi_form->holds_any(thread);
}

static void note_rest(struct thread *thread)
{
    if (thread->rested_at != nicxi.changes)
        thread->rested = 0;
    thread->rested_at = nicxi.changes;
    thread->rested++;
}

/* If no other actor is runnable, paused threads continue and timers fire. */
static bool comes_at_rest(const struct actor *actor)
{
    if (actor->kind == BY_START)
        return nicxi_fires_at_rest(actor);
    return actor->kind == BY_THREAD && ends_at_rest(&nicxi.threads[actor->of]);
}

/* Puts the actor that acted last first, if it can continue. */
static inline uint32_t add_able(uint32_t count, uint16_t number)
{
    nicxi.can[count] = number;
    if (number == nicxi.last && count) {
        nicxi.can[count] = nicxi.can[0];
        nicxi.can[0] = number;
    }
    return count + 1;
}

static uint32_t list_at_rest(void)
{
    uint32_t count = 0;
    for (uint16_t k = 0; k < nicxi.steps_from; k++)
        if (comes_at_rest(&nicxi.actors[k]))
            count = add_able(count, k);
    return count;
}

static uint32_t list_of(uint32_t count, uint16_t from, uint16_t to)
{
    for (uint16_t k = from; k < to; k++)
        if (nicxi_can_act(&nicxi.actors[k]))
            count = add_able(count, k);
    return count;
}

/* Tasks are the first actors, followed by handlers. */
static uint32_t list_threads(void)
{
    uint32_t count = 0;
    uint16_t threads = (uint16_t)(nicxi.tasks + nicxi.handlers);
    for (uint16_t k = 0; k < threads; k++) {
        const struct thread *thread = &nicxi.threads[k < nicxi.tasks ? k : k - nicxi.tasks + NICX_TASKS];
        bool is_ready = thread->state == READY && thread->interrupted_by < 0;
        if (is_ready || (thread->state > READY && nicxi_can_go_on(thread)))
            count = add_able(count, k);
    }
    for (uint16_t k = NICX_TASKS; k < NICX_TASKS + nicxi.handlers; k++)
        if (nicxi.threads[k].pending)
            count = list_of(count, nicxi.threads[k].starts, nicxi.threads[k].end);
    return count;
}

static uint32_t list_awake(uint32_t count)
{
    for (uint16_t word = nicxi.steps_from / 64; word <= nicxi.steps_to / 64; word++)
        for (uint64_t bits = nicxi.awake[word]; bits; bits &= bits - 1)
            count = add_able(count, (uint16_t)(64 * word + __builtin_ctzll(bits)));
    return count;
}

static uint32_t list_able(void)
{
    uint32_t count = list_threads();
    if (nicxi.next_frame < nicxi.frame_count && !nicxi.is_program)
        count = add_able(count, (uint16_t)(nicxi.steps_from - 2));
    if (nicxi.next_link < nicxi.link_count && !nicxi.is_program)
        count = add_able(count, (uint16_t)(nicxi.steps_from - 1));
    count = list_awake(count);
    return list_of(count, nicxi.steps_to, nicxi.count);
}

bool nicxi_goes_on(const uint16_t *can)
{
    return nicxi.last == can[0];
}

static bool is_of_device(uint16_t number)
{
    return nicxi.actors[number].kind >= BY_RX && nicxi.actors[number].kind <= BY_EEPROM;
}

bool nicxi_may_be_idle(const uint16_t *can, uint32_t count)
{
    for (uint32_t k = 0; k < count; k++)
        if (nicxi_is_value(can[k]) || !is_of_device(can[k]))
            return false;
    return true;
}

bool nicxi_may_come(uint16_t actor, const uint16_t *can, uint32_t count)
{
    return !nicxi_is_value(actor) && comes_at_rest(&nicxi.actors[actor]) && nicxi_may_be_idle(can, count);
}

/* Returns the actor that counts as having acted: for an older load, its thread. */
static uint16_t who(uint16_t number)
{
    const struct actor *actor = &nicxi.actors[number];
    if (actor->kind != BY_OLDER)
        return number;
    return actor->of < NICX_TASKS ? actor->of : (uint16_t)(actor->of - NICX_TASKS + nicxi.tasks);
}

static void note(uint16_t number)
{
    uint32_t points = *nicxi.points;
    if (nicxi.last != NOBODY && nicxi.last != number)
        nicxi.switches++;
    nicxi.schedule[points] = number;
    nicxi.last = who(number);
    *nicxi.points = points + 1;
}

/* Tries a device step. Returns false, and notes nothing, if it had nothing to do. */
static bool device_acts(uint16_t number)
{
    struct step step = {0};
    struct actor *actor = &nicxi.actors[number];
    uint16_t last = nicxi.last;
    uint32_t switches = nicxi.switches;
    note(number);
    if (!nicxi_device_step(actor, &step)) {
        --*nicxi.points;
        nicxi.last = last;
        nicxi.switches = switches;
        nicxi_set_idle(number);
        return false;
    }
    actor->last = *nicxi.points;
    nicxi.acts++;
    nicxi.changes++;
    nicxi_wake(&step);
    nicxi_cover_step(&step);
    nicxi_forget_stored(&step);
    nicxi_announce(&step);
    nicxi_name_giver(&step);
    look();
    return true;
}

/* At rest every device step is tried once more. If one has something to do, a rule for waking it (nicxi_wake) is
   missing. That costs the search schedules, but no result is wrong. */
static bool is_at_rest(void)
{
    for (uint16_t k = nicxi.steps_from; k < nicxi.steps_to; k++)
        if (device_acts(k))
            return false;
    return true;
}

/* Suggests why a schedule is endless, from the actors of its last points. */
static void ask_why(char *question, size_t room)
{
    uint32_t points = *nicxi.points, starts = 0;
    bool only_threads = true;
    const struct thread *started = NULL;
    for (uint32_t k = points; k > 0 && k + LAST_POINTS > points; k--) {
        const struct actor *actor = nicxi_is_value(nicxi.schedule[k - 1]) ? NULL : &nicxi.actors[nicxi.schedule[k - 1]];
        if (!actor)
            continue;
        only_threads &= actor->kind == BY_THREAD || actor->kind == BY_OLDER;
        if (actor->kind == BY_START) {
            started = &nicxi.threads[actor->of];
            starts++;
        }
    }
    *question = 0;
    if (only_threads && nicxi.actors[nicxi.last].kind == BY_THREAD)
        snprintf(question, room, ": does its loop need %swait?", nicxi_calls);
    else if (starts > 1)
        snprintf(question, room, ": %s %s again and again: is %s?", started->name,
                 started->is_timer ? "fires" : "starts",
                 started->is_timer ? "it re-armed each time" : "its cause cleared, and masked until it is handled");
}

static bool is_endless(void)
{
    if (*nicxi.points < nicxi.most_points)
        return false;
    char name[96], question[160];
    ask_why(question, sizeof question);
    nicxi_failed(NICX_ENDLESS, "still running after %u points; the last to act was %s%s", (unsigned)nicxi.most_points,
                 nicx_actor_name(nicxi.last, name), question);
    return true;
}

/* Returns the next actor other than the device, or NOBODY if the schedule is over. */
static uint16_t choose(void)
{
    while (!nicxi.result.outcome && !nicxi.is_cut && !nicxi.is_over && !is_endless()) {
        if (*nicxi.points >= nicxi_checkpoint_at)
            nicxi_checkpoint_take();
        uint32_t count = list_able();
        if (nicxi.result.outcome)
            break;
        uint32_t due = nicxi.timers ? nicxi_list_due(nicxi.can) : 0;
        if (due)
            count = due;
        bool is_resting = !count;
        if (is_resting && !is_at_rest())
            continue;
        if (is_resting)
            count = list_at_rest();
        if (!count)
            return NOBODY;
        uint32_t k = nicxi.chooser->choose(nicxi.chooser->argument, nicxi.can, count);
        if (k >= count) {
            nicxi.is_cut = true;
            return NOBODY;
        }
        uint16_t number = nicxi.can[k];
        if (nicxi.actors[number].kind >= BY_RX) {
            device_acts(number);
            continue;
        }
        note(number);
        nicxi.actors[nicxi.last].last = *nicxi.points;
        if (is_resting && nicxi.actors[number].kind == BY_THREAD)
            note_rest(&nicxi.threads[nicxi.actors[number].of]);
        return number;
    }
    return NOBODY;
}

static void start_handler(const struct actor *actor)
{
    struct thread *handler = &nicxi.threads[actor->of];
    handler->pending = false;
    handler->is_void = false;
    handler->state = READY;
    handler->next.kind = STEP_START;
    handler->on = actor->on;
    if (actor->on >= 0 && nicxi.threads[actor->on].state != OFF)
        nicxi.threads[actor->on].interrupted_by = actor->of;
    else
        handler->on = -1;
    if (nicxi.is_weak)
        nicxi_acquired(handler);
    if (!nicxi_thread_prepare(handler))
        nicxi_failed(NICX_MISUSE, "out of memory for a stack");
    nicxi_announce(&handler->next);
}

static bool is_wait(const struct step *step)
{
    return step->kind == STEP_LOCAL && (step->word == LOCAL_WAIT || step->word == LOCAL_PAUSE);
}

void nicxi_next(struct thread *self)
{
    if (nicxi_is_stepping)
        nicxi_steps_end();
    if (nicxi_is_left())
        return;
    if (self) {
        note_act(self);
        look();
    }
    uint16_t number = choose();
    if (number != NOBODY) {
        const struct actor *actor = &nicxi.actors[number];
        struct thread *thread = &nicxi.threads[actor->of];
        thread->older = actor->kind == BY_OLDER ? (uint8_t)actor->on : 0;
        if (actor->kind == BY_START)
            start_handler(actor);
        else if (thread->stack == PARKED)
            nicxi_announce(&thread->next);
        if (thread->stack != PARKED ? !is_wait(&thread->next) : actor->kind == BY_START)
            nicxi_cover_thread(actor->of);
        if (!nicxi.result.outcome) {
            nicxi_thread_resume(self, thread);
            return;
        }
    }
    if (nicxi_is_left()) /* (a call in a condition may have left this thread) */
        return;
    nicxi.self = NULL;
    if (self)
        nicxi_fiber_switch(&self->fiber, &nicxi.main);
}

/* --- a schedule --- */

/* Iterates over a schedule's threads: tasks from 0, handlers from NICX_TASKS. */
static int first_thread(void)
{
    return nicxi.tasks ? 0 : NICX_TASKS;
}

static int next_thread(int k)
{
    return k + 1 == nicxi.tasks ? NICX_TASKS : k + 1;
}

static void begin_threads(void)
{
    for (int k = first_thread(); k < NICX_TASKS + nicxi.handlers; k = next_thread(k)) {
        struct thread *thread = &nicxi.threads[k];
        bool is_task = k < NICX_TASKS;
        thread->state = is_task && !thread->is_made && !nicxi.omitted.threads[k] ? READY : OFF;
        thread->interrupted_by = thread->on = -1;
        thread->masked = 0;
        thread->own = thread->seen = thread->looked = 0;
        thread->voided = 0;
        nicxi_forget_polls(&thread->polls);
        thread->locks = 0;
        thread->unwinds = false;
        thread->next.waits = false;
        thread->pending = thread->pending && thread->is_timer;
        thread->is_void = thread->is_timed = false;
        thread->older = 0;
        if (nicxi.is_weak)
            nicxi_acquired(thread);
        thread->rested = 0;
        thread->call = NULL;
        thread->next.kind = STEP_LOCAL;
        thread->next.word = LOCAL_BEGIN;
        if (thread->state == READY && !nicxi_thread_prepare(thread))
            nicxi_failed(NICX_MISUSE, "out of memory for a stack");
    }
}

static void reset(void)
{
    nicxi.epoch++;
    nicxi.acts = nicxi.changes = 0;
    *nicxi.points = 0;
    nicxi.switches = 0;
    nicxi.is_cut = nicxi.is_over = false;
    nicxi.self = NULL;
    nicxi.asker = NULL;
    nicxi.result.outcome = NICX_FINE;
    nicxi.result.words[0] = 0;
    nicxi.last = NOBODY;
    nicxi.tasks = nicxi.handlers = nicxi.timers = 0;
    nicxi.frame_count = nicxi.next_frame = 0;
    nicxi.link_count = nicxi.next_link = 0;
    nicxi.came = 0;
    nicxi_cover_begin();
}

/* Reports a thread waiting for an act that never happens. A nicx_wait is often meant as a delay, but time alone doesn't
   end it. */
static void judge_wait(const struct thread *thread)
{
    char where[MOST_PLACE], by[MOST_PLACE], pause[MOST_PLACE] = "";
    bool is_known = *nicxi_line_of_wait(thread, where);
    bool has_caller = is_known && *nicxi_line_of_call(thread->waiter, by);
    if (is_known && thread->state == WAITING)
        snprintf(pause, sizeof pause, "; if that is a delay, call %spause there", nicxi_calls);
    nicxi_failed(NICX_DEADLOCK, "%s waits%s%.90s%s%.90s, and no actor can act%s", thread->name, is_known ? " at " : "",
                 where, has_caller ? " < " : "", has_caller ? by : "", pause);
}

/* Reports the first thread that waits for a lock, or that waits forever but isn't a service. */
static void judge_waiting(bool locks)
{
    for (int k = first_thread(); k < NICX_TASKS + nicxi.handlers; k = next_thread(k)) {
        const struct thread *thread = &nicxi.threads[k];
        if (thread->state == OFF)
            continue;
        if ((locks || !thread->is_service) && nicxi_form && nicxi_form->tell_wait(thread, locks))
            continue;
        if (locks && thread->state == LOCKED)
            nicxi_failed(NICX_DEADLOCK, "%s waits for %s, which %s holds", thread->name,
                         thread->lock->name ? thread->lock->name : "a lock",
                         nicxi.threads[(thread->lock->kept & 0xFF) - 1].name);
        if (!locks && !thread->is_service)
            judge_wait(thread);
    }
}

static void judge_end(void)
{
    const char *words;
    if (nicxi.result.outcome || nicxi.is_cut)
        return;
    if (!nicxi.is_over)
        judge_waiting(true);
    nicxi.phase = ENDING;
    nicxi.is_changed = true;
    words = !nicxi.result.outcome && nicxi.scenario->end ? nicxi.scenario->end() : NULL;
    if (words)
        nicxi_failed(NICX_END, "%s", words);
    if (!nicxi.is_over)
        judge_waiting(false);
}

static void start(void)
{
    reset();
    nicxi_back();
    if (nicxi.is_weak)
        nicxi_weak_back();
    if (nicxi_form)
        nicxi_form->back();
    if (nicxi_races)
        nicxi_races->begin();
    nicxi_begin();
    nicxi.next_frame = nicxi_next_kept(nicxi.omitted.frames, 0, nicxi.frame_count);
    nicxi.next_link = nicxi_next_kept(nicxi.omitted.links, 0, nicxi.link_count);
    nicxi_list_actors();
    begin_threads();
    nicxi.phase = RUNNING;
    nicxi_next(NULL);
}

void nicx_run(const nicx_chooser *chooser, nicx_result *result)
{
    nicxi_heap_is_mine();
    nicxi_is_made_here();
    nicxi.main.bottom = NULL;
    nicxi.chooser = chooser;
    if (!nicxi_checkpoint_continues())
        start();
    nicxi_checkpoint_serve();
    judge_end();
    nicxi.result.points = *nicxi.points;
    nicxi.result.switches = nicxi.switches;
    *result = nicxi.result;
    nicxi_unwind_all();
}

const uint16_t *nicx_schedule(uint32_t *points)
{
    *points = *nicxi.points;
    return nicxi.schedule;
}
