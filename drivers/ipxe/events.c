/* Time, which advances with calls, and the events that become due. */
#include <stdlib.h>

#include "efi.h"
#include "run.h"

#define A_CALL 20 /* microseconds that each call takes */
#define UNITS 10  /* timer units in a microsecond */

struct event {
    struct event *next;
    UINT32 type;
    EFI_TPL level;
    EFI_EVENT_NOTIFY notify;
    void *context;
    uint64_t due, period;
    bool is_armed, is_signalled, is_queued;
};

static struct event *events;
static uint64_t now;
static EFI_TPL level = TPL_APPLICATION;

static void signal_one(struct event *it)
{
    it->is_signalled = true;
    it->is_queued = it->is_queued || it->type & EVT_NOTIFY_SIGNAL;
}

/* Signals events that are due. Calls the function of each queued event above the current priority level. */
static void run_due(void)
{
    for (struct event *it = events; it; it = it->next) {
        if (it->is_armed && it->due <= now) {
            it->is_armed = it->period != 0;
            it->due = now + it->period;
            signal_one(it);
        }
        if (!it->is_queued || it->level <= level)
            continue;
        EFI_TPL former = level;
        it->is_queued = it->is_signalled = false;
        level = it->level;
        if (it->notify)
            it->notify(it, it->context);
        level = former;
    }
}

void events_pass(uint64_t microseconds)
{
    now += microseconds;
    run_due();
}

void events_at_application_level(void (*call)(void))
{
    EFI_TPL former = level;
    level = TPL_APPLICATION;
    call();
    level = former;
}

void events_end(void)
{
    while (events) {
        struct event *it = events;
        events = it->next;
        free(it);
    }
}

static EFI_TPL EFIAPI raise_level(EFI_TPL to)
{
    EFI_TPL former = level;
    level = to;
    return former;
}

static void EFIAPI restore_level(EFI_TPL to)
{
    level = to;
    events_pass(A_CALL);
}

static CALL create(UINT32 type, EFI_TPL at, EFI_EVENT_NOTIFY notify, void *context, EFI_EVENT *event)
{
    struct event *it = calloc(1, sizeof *it);
    if (!it)
        return EFI_OUT_OF_RESOURCES;
    /* Boot services never end here, so this event never occurs. */
    bool is_of_exit = type == EVT_SIGNAL_EXIT_BOOT_SERVICES;
    *it = (struct event){
        .next = events, .type = is_of_exit ? 0 : type, .level = at, .notify = notify, .context = context};
    *event = events = it;
    return EFI_SUCCESS;
}

static CALL create_of_group(UINT32 type, EFI_TPL at, EFI_EVENT_NOTIFY notify, void *context, const EFI_GUID *group,
                            EFI_EVENT *event)
{
    (void)group;
    return create(type, at, notify, context, event);
}

static CALL close_event(EFI_EVENT event)
{
    for (struct event **at = &events; *at; at = &(*at)->next) {
        struct event *it = *at;
        if (it != event)
            continue;
        *at = it->next;
        free(it);
        return EFI_SUCCESS;
    }
    return EFI_INVALID_PARAMETER;
}

static CALL set_timer(EFI_EVENT event, EFI_TIMER_DELAY type, UINT64 units)
{
    struct event *it = event;
    uint64_t delay = units / UNITS;
    it->is_armed = type != TimerCancel;
    it->due = now + delay;
    it->period = type != TimerPeriodic ? 0 : delay ? delay : 1;
    return EFI_SUCCESS;
}

static CALL signal_event(EFI_EVENT event)
{
    signal_one(event);
    run_due();
    return EFI_SUCCESS;
}

static CALL check_event(EFI_EVENT event)
{
    struct event *it = event;
    events_pass(A_CALL);
    if (event == (EFI_EVENT)&console_event)
        return console_has_key() ? EFI_SUCCESS : EFI_NOT_READY;
    if (!it->is_signalled && it->type & EVT_NOTIFY_WAIT && it->notify)
        it->notify(it, it->context);
    bool was_signalled = it->is_signalled;
    it->is_signalled = false;
    return was_signalled ? EFI_SUCCESS : EFI_NOT_READY;
}

static CALL wait_for_event(UINTN count, EFI_EVENT *all, UINTN *index)
{
    for (UINTN i = 0;; i = (i + 1) % count) {
        if (check_event(all[i]) != EFI_SUCCESS)
            continue;
        *index = i;
        return EFI_SUCCESS;
    }
}

static CALL stall(UINTN microseconds)
{
    bus_wait(run_bus, (unsigned int)microseconds);
    events_pass(microseconds);
    return EFI_SUCCESS;
}

static CALL next_count(UINT64 *count)
{
    static UINT64 last;
    *count = ++last;
    return EFI_SUCCESS;
}

static CALL nothing(void)
{
    return EFI_SUCCESS;
}

void events_serve(EFI_BOOT_SERVICES *services)
{
    services->RaiseTPL = (void *)raise_level;
    services->RestoreTPL = (void *)restore_level;
    services->CreateEvent = (void *)create;
    services->CreateEventEx = (void *)create_of_group;
    services->CloseEvent = (void *)close_event;
    services->SetTimer = (void *)set_timer;
    services->SignalEvent = (void *)signal_event;
    services->CheckEvent = (void *)check_event;
    services->WaitForEvent = (void *)wait_for_event;
    services->Stall = (void *)stall;
    services->GetNextMonotonicCount = (void *)next_count;
    services->SetWatchdogTimer = (void *)nothing;
}
