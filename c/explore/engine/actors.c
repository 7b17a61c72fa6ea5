/* Which actors are runnable, and the device's steps. */
#include <stdio.h>
#include <string.h>

#include "engine.h"
#include "weak.h"
#include "words.h"

static void add(uint8_t kind, uint16_t of, int on)
{
    struct actor *actor = &nicxi.actors[nicxi.count++];
    actor->kind = kind;
    actor->of = of;
    actor->on = on;
    actor->last = kind == BY_OLDER ? UINT32_MAX : 0; /* so that it never counts as having acted longest ago */
    actor->offered = actor->since = 0;
}

static void add_starts(uint16_t handler)
{
    int where = nicxi.threads[handler].where;
    nicxi.threads[handler].starts = nicxi.count;
    if (where == NICX_ANYWHERE)
        for (uint16_t task = 0; task < nicxi.tasks; task++)
            add(BY_START, handler, task);
    add(BY_START, handler, where >= 0 ? where : -1);
    nicxi.threads[handler].end = nicxi.count;
}

static void add_threads(void)
{
    for (uint16_t task = 0; task < nicxi.tasks; task++)
        add(BY_THREAD, task, -1);
    for (uint16_t handler = 0; handler < nicxi.handlers; handler++)
        add(BY_THREAD, (uint16_t)(NICX_TASKS + handler), -1);
}

/* Weak memory: one actor for each possible pending store of a thread, and one for each age of an older load. */
static void add_memory(uint16_t thread)
{
    for (int place = 0; place < NICX_STORES; place++)
        add(BY_STORE, thread, place);
    for (int older = 1; older <= NICX_OLDER; older++)
        add(BY_OLDER, thread, older);
}

/* The positions of the device's steps in the list of actors. A queue's two enables are adjacent, receive first. */
static struct {
    uint16_t tx, messages, enables, eeprom;
} first;

static void add_device(void)
{
    const nicx_scenario *scenario = nicxi.scenario;
    add(BY_RX, 0, -1);
    first.tx = nicxi.count;
    for (uint16_t queue = 0; queue < scenario->queues; queue++)
        add(BY_TX, queue, -1);
    first.messages = nicxi.count;
    for (uint16_t group = 0; group <= scenario->vfs; group++)
        add(BY_INT, group, -1);
    first.enables = nicxi.count;
    for (uint16_t queue = 0; queue < scenario->queues; queue++) {
        add(BY_RX_ENABLE, queue, -1);
        add(BY_TX_ENABLE, queue, -1);
    }
    first.eeprom = nicxi.count;
    add(BY_EEPROM, 0, -1);
}

static void wake(uint16_t number)
{
    nicxi.awake[number / 64] |= UINT64_C(1) << number % 64;
}

static void wake_all(uint16_t from, uint16_t to, uint16_t step)
{
    for (uint16_t k = from; k < to; k = (uint16_t)(k + step))
        wake(k);
}

void nicxi_list_actors(void)
{
    nicxi.count = 0;
    memset(nicxi.awake, 0, sizeof nicxi.awake);
    add_threads();
    for (uint16_t handler = 0; handler < nicxi.handlers; handler++)
        add_starts((uint16_t)(NICX_TASKS + handler));
    nicxi.steps_from = nicxi.steps_to = nicxi.count;
    if (nicxi.is_program)
        return;
    add(BY_WIRE, 0, -1);
    add(BY_LINK, 0, -1);
    nicxi.steps_from = nicxi.count;
    add_device();
    nicxi.steps_to = nicxi.count;
    if (!nicxi.is_idle)
        wake_all(nicxi.steps_from, nicxi.steps_to, 1);
    for (uint16_t k = 0; nicxi.is_weak && k < NICX_TASKS + nicxi.handlers; k++)
        if (k < nicxi.tasks || k >= NICX_TASKS)
            add_memory(k);
}

static bool holds(const struct thread *thread)
{
    nicxi.asker = nicxi_condition;
    bool it_holds = thread->condition(thread->condition_argument);
    nicxi.asker = NULL;
    return it_holds;
}

bool nicxi_can_go_on(const struct thread *thread)
{
    if (thread->interrupted_by >= 0)
        return false;
    switch (thread->state) {
    case READY: return true;
    case WAITING: return nicxi_others_acted(thread);
    case PAUSED: return nicxi_others_acted(thread);
    case UNTIL: return holds(thread);
    case LOCKED: return nicxi_lock_is_free(thread->lock);
    default: return false;
    }
}

/* An ended task can't be interrupted, but the handlers on it still run. */
static bool can_start(const struct thread *handler, int on)
{
    if (!handler->pending || handler->state != OFF || (handler->is_timer && !handler->within))
        return false;
    if (on < 0)
        return true;
    const struct thread *task = &nicxi.threads[on];
    if (task->state == OFF)
        return handler->where >= 0;
    return task->interrupted_by < 0 && !task->masked;
}

bool nicxi_can_act(const struct actor *actor)
{
    switch (actor->kind) {
    case BY_THREAD: return nicxi_can_go_on(&nicxi.threads[actor->of]);
    case BY_START: return can_start(&nicxi.threads[actor->of], actor->on);
    case BY_WIRE: return nicxi.next_frame < nicxi.frame_count;
    case BY_LINK: return nicxi.next_link < nicxi.link_count;
    case BY_STORE: return nicxi_can_land(actor);
    case BY_OLDER: return nicxi_can_be_older(actor);
    default: return !nicxi_is_idle((uint16_t)(actor - nicxi.actors));
    }
}

/* --- what a step wakes: waking too many actors is harmless; waking too few is noticed when a schedule comes to rest
   --- */

enum {
    WAKES_RX = 1 << BY_RX,
    WAKES_TX = 1 << BY_TX,
    WAKES_INT = 1 << BY_INT,
    WAKES_EEPROM = 1 << BY_EEPROM,
    WAKES_RECEIVE = WAKES_RX | 1 << BY_RX_ENABLE,
    WAKES_TRANSMIT = WAKES_TX | 1 << BY_TX_ENABLE,
    WAKES_ALL = WAKES_RECEIVE | WAKES_TRANSMIT | WAKES_INT | WAKES_EEPROM
};

/* The queue to wake, or EACH_QUEUE. With few queues, all are woken: that costs little, and each seed still yields the
   same schedules. */
enum { EACH_QUEUE = UINT16_MAX };

uint16_t nicxi_few_queues = FEW_QUEUES;

struct woken {
    unsigned kinds;
    uint16_t queue;
};

/* What a register write wakes: a queue's registers wake that queue's side, interrupt registers the messages, and EERD
   the EEPROM. Other registers wake everything. */
static struct woken woken_by_write(uint32_t address)
{
    if (address >= 0x00800 && address < 0x01000)
        return (struct woken){WAKES_INT, EACH_QUEUE};
    if (address >= 0x01000 && address < 0x02000)
        return (struct woken){WAKES_RECEIVE, (uint16_t)((address - 0x01000) / 0x40)};
    if (address >= 0x0D000 && address < 0x0E000)
        return (struct woken){WAKES_RECEIVE, (uint16_t)(64 + (address - 0x0D000) / 0x40)};
    if (address >= 0x06000 && address < 0x08000)
        return (struct woken){WAKES_TRANSMIT, (uint16_t)((address - 0x06000) / 0x40)};
    return (struct woken){address == NIC_EERD ? WAKES_EEPROM : WAKES_ALL, EACH_QUEUE};
}

static struct woken woken_by_vf_write(const struct step *step)
{
    uint32_t offset = step->address;
    if (offset >= 0x100 && offset < 0x300)
        return (struct woken){WAKES_INT, EACH_QUEUE};
    if (offset >= 0x1000 && offset < 0x3000 && step->physical != NO_ADDRESS)
        return woken_by_write(step->physical);
    return (struct woken){WAKES_ALL, EACH_QUEUE};
}

static struct woken woken_by(const struct step *step)
{
    switch (step->kind) {
    case STEP_WRITE: return woken_by_write(step->address);
    case STEP_VF_WRITE: return woken_by_vf_write(step);
    case STEP_ARRIVE: return (struct woken){WAKES_RX | WAKES_INT, EACH_QUEUE};
    case STEP_READ:
    case STEP_VF_READ:
    case STEP_LINK:
    case STEP_TX:
    case STEP_RX: return (struct woken){WAKES_INT, EACH_QUEUE};
    case STEP_RX_ENABLE: return (struct woken){WAKES_RX, EACH_QUEUE};
    case STEP_TX_ENABLE: return (struct woken){WAKES_TX, step->of};
    default: return (struct woken){0, EACH_QUEUE};
    }
}

static void wake_queues(const struct woken *woken)
{
    uint16_t queues = (uint16_t)(first.messages - first.tx), from = 0, to = queues;
    if (woken->queue != EACH_QUEUE && queues > nicxi_few_queues) {
        from = woken->queue < queues ? woken->queue : queues;
        to = (uint16_t)(from + (from < queues));
    }
    if (woken->kinds & WAKES_TX)
        wake_all((uint16_t)(first.tx + from), (uint16_t)(first.tx + to), 1);
    if (woken->kinds & 1 << BY_RX_ENABLE)
        wake_all((uint16_t)(first.enables + 2 * from), (uint16_t)(first.enables + 2 * to), 2);
    if (woken->kinds & 1 << BY_TX_ENABLE)
        wake_all((uint16_t)(first.enables + 2 * from + 1), (uint16_t)(first.enables + 2 * to + 1), 2);
}

void nicxi_wake(const struct step *step)
{
    struct woken woken = woken_by(step);
    nicxi.is_changed = true;
    if (!woken.kinds || nicxi.steps_from == nicxi.steps_to)
        return;
    if (woken.kinds & WAKES_RX)
        wake(nicxi.steps_from);
    if (woken.kinds & (WAKES_TRANSMIT | 1 << BY_RX_ENABLE))
        wake_queues(&woken);
    if (woken.kinds & WAKES_INT)
        wake_all(first.messages, first.enables, 1);
    if (woken.kinds & WAKES_EEPROM)
        wake(first.eeprom);
}

/* --- the steps --- */

static void arrive(struct step *step)
{
    const struct frame *frame = &nicxi.frames[nicxi.next_frame];
    step->kind = STEP_ARRIVE;
    step->of = nicxi.next_frame;
    nicxi.next_frame = nicxi_next_kept(nicxi.omitted.frames, (uint16_t)(step->of + 1), nicxi.frame_count);
    nicxi.came++;
    step->status = nic_arrive(&nicxi.device, frame->bytes, frame->length, &step->outcome);
}

static void change_link(struct step *step)
{
    step->kind = STEP_LINK;
    step->of = nicxi.next_link;
    step->word = nicxi.links[step->of];
    nicxi.next_link = nicxi_next_kept(nicxi.omitted.links, (uint16_t)(step->of + 1), nicxi.link_count);
    step->status = nic_link(&nicxi.device, step->word != 0);
}

static void message(const struct actor *actor, struct step *step)
{
    step->kind = STEP_INT;
    step->status = nic_int_step(&nicxi.device, (uint8_t)actor->of, &step->outcome);
    if (step->status != NIC_MESSAGE)
        return;
    for (uint16_t k = NICX_TASKS; k < NICX_TASKS + nicxi.handlers; k++) {
        struct thread *handler = &nicxi.threads[k];
        if (handler->group == actor->of && handler->vector == step->outcome.vector)
            handler->pending = !nicxi.omitted.threads[k];
    }
}

void nicxi_judge(const struct step *step)
{
    char back[MOST_WORDS];
    if (step->status == NIC_OUT_OF_MEMORY)
        nicxi_failed(NICX_MISUSE, "the controller ran out of memory");
    if (step->status != NIC_FAULT || (nicxi.scenario->allowed & NICX_FAULTS))
        return;
    if (step->outcome.why == NIC_FAULT_NOT_LENT)
        nicxi_failed(NICX_FAULT, "queue %u: 0x%llx isn't lent%s", step->outcome.queue,
                     (unsigned long long)step->outcome.bus, nicxi_taken_words(step->outcome.bus, back));
    else
        nicxi_failed(NICX_FAULT, "queue %u: %s", step->outcome.queue, nic_fault_name(step->outcome.why));
}

bool nicxi_device_step(struct actor *actor, struct step *step)
{
    nic *device = &nicxi.device;
    step->of = actor->of;
    switch (actor->kind) {
    case BY_RX:
        step->kind = STEP_RX;
        step->status = nic_rx_step(device, &step->outcome);
        break;
    case BY_TX:
        step->kind = STEP_TX;
        step->status = nic_tx_step(device, actor->of, &step->outcome);
        break;
    case BY_RX_ENABLE:
        step->kind = STEP_RX_ENABLE;
        step->status = nic_queue_step(device, false, actor->of, &step->outcome);
        break;
    case BY_TX_ENABLE:
        step->kind = STEP_TX_ENABLE;
        step->status = nic_queue_step(device, true, actor->of, &step->outcome);
        break;
    case BY_INT: message(actor, step); break;
    case BY_EEPROM:
        step->kind = STEP_EEPROM;
        step->status = nic_eeprom_step(device, &step->outcome);
        break;
    case BY_WIRE: arrive(step); return true;
    case BY_STORE: nicxi_land(actor, step); return true;
    default: change_link(step); return true;
    }
    nicxi_judge(step);
    if (nicxi.is_weak && nicxi.phase == RUNNING)
        nicxi_memory_changed(step);
    return step->status != NIC_IDLE && step->status != NIC_NO_GROUP;
}

uint16_t nicxi_next_kept(const bool *omitted, uint16_t from, uint16_t count)
{
    while (from < count && omitted[from])
        from++;
    return from;
}

/* --- names --- */

static const char *start_name(const struct actor *actor, char *room, size_t size)
{
    const char *handler = nicxi.threads[actor->of].name;
    if (nicxi.threads[actor->of].is_timer)
        snprintf(room, size, "fire %s", handler);
    else if (actor->on < 0)
        snprintf(room, size, "start %s beside", handler);
    else
        snprintf(room, size, "start %s on %s", handler, nicxi.threads[actor->on].name);
    return room;
}

static const char *numbered(const char *word, unsigned number, char *room, size_t size)
{
    snprintf(room, size, "%s %u", word, number);
    return room;
}

/* A store is numbered by its position, 0 for the oldest; an older load by how many changes old it is. */
static const char *memory_name(const struct actor *actor, char *room, size_t size)
{
    snprintf(room, size, "%s %s %d", actor->kind == BY_STORE ? "store" : "older", nicxi.threads[actor->of].name,
             actor->on);
    return room;
}

const char *nicx_actor_name(uint16_t number, char room[96])
{
    if (nicxi_is_value(number))
        return numbered("value", number - VALUES + 0u, room, 96);
    if (number >= nicxi.count)
        return "nobody";
    const struct actor *actor = &nicxi.actors[number];
    switch (actor->kind) {
    case BY_THREAD:
        snprintf(room, 96, "%s %s", actor->of < NICX_TASKS ? "task" : "handler", nicxi.threads[actor->of].name);
        return room;
    case BY_START: return start_name(actor, room, 96);
    case BY_STORE:
    case BY_OLDER: return memory_name(actor, room, 96);
    case BY_RX: return "rx";
    case BY_TX: return numbered("tx", actor->of, room, 96);
    case BY_RX_ENABLE: return numbered("qstep rx", actor->of, room, 96);
    case BY_TX_ENABLE: return numbered("qstep tx", actor->of, room, 96);
    case BY_INT: return actor->of ? numbered("int", actor->of - 1u, room, 96) : "int pf";
    case BY_EEPROM: return "eestep";
    case BY_WIRE: return "arrive";
    default: return "link";
    }
}
