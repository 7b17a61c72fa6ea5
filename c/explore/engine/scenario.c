/* A scenario: what it names, and how its device is brought up. */
#include <stdio.h>
#include <stdlib.h>
#include <string.h>

#include "engine.h"
#include "heap.h"
#include "parts.h"
#include "weak.h"
#include "words.h"

static bool is_name(const char *name)
{
    size_t length = name ? strlen(name) : 0;
    if (!length || length > 63)
        return false;
    for (size_t k = 0; k < length; k++)
        if (!strchr("abcdefghijklmnopqrstuvwxyzABCDEFGHIJKLMNOPQRSTUVWXYZ0123456789_-", name[k]))
            return false;
    return true;
}

/* --- what `begin` names --- */

/* Whether a task or handler already has this name. Schedule files refer to tasks and handlers by name. */
static bool is_taken(const char *name, int number)
{
    for (int k = 0; name && k < number; k++)
        if ((k < nicxi.tasks || k >= NICX_TASKS) && !strcmp(nicxi.threads[k].name, name))
            return true;
    return false;
}

static struct thread *name_thread(int number, const char *name, void (*function)(void *), void *argument)
{
    struct thread *thread = &nicxi.threads[number];
    if (is_taken(name, number)) {
        nicxi_failed(NICX_MISUSE, "two tasks or handlers are named %s", name);
    } else if (!is_name(name) || !function) {
        nicxi_failed(NICX_MISUSE, "a task's or a handler's name has 1 to 63 letters, digits, '-' and '_'");
        name = "unnamed";
    }
    thread->name = name;
    thread->function = function;
    thread->argument = argument;
    thread->is_timer = thread->pending = false;
    thread->is_made = false;
    thread->room = 0;
    return thread;
}

static int add_task(const char *name, void (*function)(void *), void *argument, bool is_service)
{
    if (nicxi.phase != BEGINNING || nicxi.tasks == NICX_TASKS) {
        nicxi_failed(NICX_MISUSE, "call nicx_task in begin only, for at most %d tasks", NICX_TASKS);
        return 0;
    }
    name_thread(nicxi.tasks, name, function, argument)->is_service = is_service;
    return nicxi.tasks++;
}

/* Created threads are named by number, because the schedule decides which is created first. */
void nicxi_name_made(void)
{
    static char names[NICX_TASKS][16];
    unsigned number = 1;
    for (; nicxi.tasks < NICX_TASKS; nicxi.tasks++) {
        struct thread *thread = &nicxi.threads[nicxi.tasks];
        do
            snprintf(names[nicxi.tasks], sizeof *names, "thread-%u", number++);
        while (is_taken(names[nicxi.tasks], nicxi.tasks));
        thread->name = names[nicxi.tasks];
        thread->function = NULL;
        thread->is_made = thread->is_service = true;
    }
}

int nicx_task(const char *name, void (*function)(void *), void *argument)
{
    return add_task(name, function, argument, false);
}

int nicx_service(const char *name, void (*function)(void *), void *argument)
{
    return add_task(name, function, argument, true);
}

static struct thread *add_handler(const char *name, void (*function)(void *), void *argument, int where)
{
    if (nicxi.phase != BEGINNING || nicxi.handlers == NICX_HANDLERS || where < NICX_BESIDE || where >= NICX_TASKS) {
        nicxi_failed(NICX_MISUSE, "in begin, create at most %d handlers and timers, after the tasks", NICX_HANDLERS);
        return NULL;
    }
    struct thread *handler = name_thread(NICX_TASKS + nicxi.handlers++, name, function, argument);
    handler->is_service = false;
    handler->where = where;
    return handler;
}

void nicx_handler(const char *name, uint16_t group, uint8_t vector, void (*function)(void *), void *argument, int where)
{
    struct thread *handler = add_handler(name, function, argument, where);
    if (!handler)
        return;
    handler->group = group;
    handler->vector = vector;
}

int nicx_timer(const char *name, void (*function)(void *), void *argument, uint32_t within)
{
    struct thread *timer = add_handler(name, function, argument, NICX_BESIDE);
    if (!timer)
        return 0;
    timer->group = NOBODY;
    timer->is_timer = true;
    timer->within = within;
    nicxi.timers++;
    return (int)(timer - nicxi.threads);
}

void nicx_frame(const uint8_t *bytes, size_t length)
{
    if (nicxi.phase != BEGINNING || !nicxi_add_frame(bytes, length))
        nicxi_failed(NICX_MISUSE, "create frames in begin, at most %d, each at most %d bytes long", NICX_FRAMES,
                     MOST_FRAME);
}

/* Reuses the memory of an earlier schedule's frame. */
static bool has_room(struct frame *frame, size_t length)
{
    if (frame->room < length) {
        free(frame->bytes);
        frame->bytes = malloc(length);
        frame->room = frame->bytes ? length : 0;
    }
    return frame->room >= length;
}

bool nicxi_add_frame(const uint8_t *bytes, size_t length)
{
    if (nicxi.frame_count == NICX_FRAMES || length > MOST_FRAME)
        return false;
    struct frame *frame = &nicxi.frames[nicxi.frame_count++];
    bool is_kept = has_room(frame, length);
    if (!is_kept)
        nicxi_failed(NICX_MISUSE, "out of memory for a %u-byte frame", (unsigned)length);
    frame->length = is_kept ? length : 0;
    if (frame->length)
        memcpy(frame->bytes, bytes, length);
    return true;
}

void nicx_link_change(bool up)
{
    if (nicxi.phase != BEGINNING || nicxi.link_count == NICX_FRAMES)
        nicxi_failed(NICX_MISUSE, "call nicx_link in begin only, for at most %d link changes", NICX_FRAMES);
    else
        nicxi.links[nicxi.link_count++] = up;
}

uint32_t nicx_came(void)
{
    return nicxi.came;
}

/* --- opening and closing --- */

/* The record of schedules outside a search. A search's processes write theirs to memory shared with the parent
   (nicxi_note_in), so if the driver crashes, nothing recorded before is lost. */
static struct {
    uint16_t *schedule;
    uint32_t points;
    struct notes notes;
    struct coverage coverage;
} own;

static void note_here(void)
{
    memset(&own, 0, sizeof own);
    nicxi.points = &own.points;
    nicxi.notes = &own.notes;
    nicxi.coverage = &own.coverage;
}

bool nicxi_is_in_search(void)
{
    return nicxi.points != &own.points;
}

static const char *fault_of(const nicx_scenario *scenario)
{
    if (!is_name(scenario->name))
        return ".name must have 1 to 63 letters, digits, '-' and '_'";
    if (!scenario->bring_up || !scenario->begin || !scenario->end)
        return ".bring_up, .begin and .end must all be set";
    if (!scenario->queues || scenario->queues > 128)
        return ".queues must be 1 to 128";
    if (scenario->points > MOST_POINTS)
        return ".points is above 1,000,000";
    if (scenario->stack && scenario->stack < LEAST_STACK)
        return ".stack is below 16,384 bytes";
    if (scenario->memory > (NICX_WEAK | NICX_WRITES_ORDER | NICX_READS_ORDER | NICX_TSO))
        return ".memory isn't a value of enum nicx_memory";
    if (scenario->memory & NICX_WEAK && scenario->memory & NICX_TSO)
        return ".memory is both NICX_WEAK and NICX_TSO: choose one";
    return NULL;
}

static const char *bring_up(void)
{
    const nicx_scenario *scenario = nicxi.scenario;
    uint8_t status = nic_open(&nicxi.device, scenario->vfs, scenario->fifo, scenario->blocks);
    if (status != NIC_DONE)
        return nicxi_why("can't open the device: %s", nic_status_name(status));
    nicxi.phase = BRINGING_UP;
    const char *words = scenario->bring_up();
    if (words || nicxi.result.outcome)
        return nicxi_why("bring_up: %s", words ? words : nicxi.result.words);
    nicxi_cover_bring_up();
    if (nicxi_form)
        nicxi_form->keep();
    return nicxi_keep();
}

/* Whether the device has no step to run. */
static bool is_idle(void)
{
    for (uint16_t k = 0; k < nicxi.count; k++) {
        struct step step = {0};
        if (nicxi.actors[k].kind >= BY_RX && nicxi.actors[k].kind <= BY_EEPROM &&
            nicxi_device_step(&nicxi.actors[k], &step))
            return false;
    }
    return true;
}

/* Checks the tasks once, right after opening: a scenario without any is refused. */
static const char *try_begin(void)
{
    nicxi_listener *listener = nicxi.listener;
    nicxi.tasks = nicxi.handlers = nicxi.timers = 0;
    nicxi.listener = NULL; /* scripts leave out this trial */
    nicxi_begin();
    nicxi.listener = listener;
    if (nicxi.result.outcome)
        return nicxi.result.words;
    for (int k = NICX_TASKS; k < NICX_TASKS + nicxi.handlers; k++) {
        if (nicxi.threads[k].where >= nicxi.tasks)
            return "a handler runs on a task that doesn't exist";
        if (!nicxi.threads[k].is_timer && nicxi.threads[k].group > nicxi.scenario->vfs)
            return "a handler belongs to a virtual function that doesn't exist";
    }
    nicxi.is_idle = false;
    nicxi_list_actors();
    nicxi.is_idle = is_idle();
    nicxi.is_changed = true;
    return nicxi.tasks ? NULL : "begin creates no task";
}

/* Undoes the opening of a refused scenario, but keeps the message that says why. */
static const char *closed_for(const char *fault)
{
    const char *why = nicxi_why("%s", fault);
    nicx_close();
    return why;
}

const char *nicx_open(const nicx_scenario *scenario)
{
    if (nicxi.phase != CLOSED)
        return "a scenario is already open";
    const char *fault = fault_of(scenario);
    if (fault)
        return fault;
    nicxi.scenario = scenario;
    note_here();
    nicxi_outside_begins();
    nicxi.most_points = scenario->points ? scenario->points : USUAL_POINTS;
    nicxi.schedule = own.schedule = calloc(nicxi.most_points + 1u, sizeof *nicxi.schedule);
    if (!nicxi.schedule)
        return "out of memory";
    nicxi_heap_open();
    nicxi_is_made_here();
    if (nicxi_form)
        nicxi_form->open();
    fault = bring_up();
    if (!fault)
        fault = nicxi_weak_open();
    if (!fault)
        fault = try_begin();
    return fault ? closed_for(fault) : NULL;
}

void nicx_close(void)
{
    nicxi_threads_close();
    nicxi_weak_close();
    nicxi_drop_kept();
    nic_close(&nicxi.device);
    nicxi_heap_close();
    if (nicxi_form)
        nicxi_form->close();
    for (int k = 0; k < NICX_FRAMES; k++)
        free(nicxi.frames[k].bytes);
    free(own.schedule);
    own.schedule = NULL;
    free(nicxi.steps);
    /* kept, so that locks held from this scenario's schedules are free in the next scenario */
    uint64_t epoch = nicxi.epoch;
    memset(&nicxi, 0, sizeof nicxi);
    nicxi.epoch = epoch;
}
