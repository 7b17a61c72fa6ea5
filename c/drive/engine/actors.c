/* The threads that call the driver to receive, send, open and close; its handlers; and the driver's own threads. */
#include <string.h>

#include "drive.h"

enum { VECTORS = 16, AGAIN = 40 };

static const uint16_t numbers[VECTORS] = {0, 1, 2, 3, 4, 5, 6, 7, 8, 9, 10, 11, 12, 13, 14, 15};

static void *argument(unsigned number)
{
    return (void *)(uintptr_t)&numbers[number];
}

static uint16_t number_of(const void *given)
{
    return *(const uint16_t *)given;
}

/* --- open and close --- */

/* Counts an interruption of the flow: frames received or accepted before this call may be lost. */
static void next_life(void)
{
    nicd.life++;
    nicd.events++;
    memset(nicd.accepted_now, 0, sizeof nicd.accepted_now);
    memset(nicd.went_now, 0, sizeof nicd.went_now);
}

/* Records that this thread is now in the given driver call, so that a failure's message can name the call. */
static void begin_call(enum call call)
{
    nicd.doing = (uint8_t)call;
    nicd.doer = nicxo_thread();
    if (nicd.doer != NICXO_NO_THREAD && call == nicd.reached->call)
        nicd.era = DURING;
    nicd_reach_call();
    nicd_calls(OF_CONTROL);
}

static void end_call(bool is_done)
{
    enum call call = nicd.doing;
    nicd_called(OF_CONTROL);
    nicd.doing = NO_CALL;
    if (nicd.era == DURING && call == nicd.reached->call)
        nicd.era = AFTER;
    if (!is_done)
        nicd_failed("%s returned false", nicd_call_name(call));
    if (nicd.reached->call == call)
        nicd_reach(CALLED);
}

bool nicd_open(void)
{
    nicd.is_ended = false;
    begin_call(CALL_OPEN);
    bool is_open = nicd.driver->open(&nicd.setup);
    end_call(true);
    if (!is_open)
        return false;
    next_life();
    nicd.is_open = nicd.is_running = true;
    nicd_reach(WAS_OPENED);
    if (nicd.was_ended)
        nicd_reach(WAS_REOPENED);
    return true;
}

void nicd_close(void)
{
    next_life();
    begin_call(CALL_CLOSE);
    nicd.driver->close();
    end_call(true);
    nicd.is_open = nicd.is_running = false;
    nicd.is_ended = nicd.was_ended = true;
    nicd_reach(WAS_CLOSED);
}

void nicd_reset(void)
{
    begin_call(CALL_RESET);
    end_call(nicd.driver->reset());
}

bool nicd_try_to_resize(uint16_t slots)
{
    begin_call(CALL_RESIZE);
    bool is_done = nicd.driver->resize(slots);
    end_call(true);
    if (is_done)
        nicd.setup.slots = slots;
    return is_done;
}

void nicd_resize(uint16_t slots)
{
    if (!nicd_try_to_resize(slots))
        nicd_failed("resize returned false");
}

void nicd_mtu(uint32_t frame)
{
    begin_call(CALL_MTU);
    end_call(nicd.driver->mtu(frame));
    nicd.setup.frame = frame;
}

void nicd_suspend(void)
{
    begin_call(CALL_SUSPEND);
    end_call(nicd.driver->suspend());
    nicd.is_asleep = true;
}

void nicd_resume(void)
{
    nicd.is_asleep = false;
    begin_call(CALL_RESUME);
    end_call(nicd.driver->resume());
}

void nicd_set_filter(const nicd_filter *filter)
{
    begin_call(CALL_FILTER);
    end_call(nicd.driver->filter(filter));
}

void nicd_set_rss(const nicd_rss *rss)
{
    begin_call(CALL_RSS);
    end_call(nicd.driver->rss(rss));
}

static bool is_quiet(void *unused)
{
    (void)unused;
    for (unsigned k = 0; k < NICD_QUEUES; k++)
        if (nicd.pollers[k].busy)
            return false;
    return !nicd.calls;
}

void nicd_hold(void)
{
    next_life();
    nicd.is_running = false;
    nicx_wait_until(is_quiet, NULL);
}

/* Releases `count` of the late frames. Returns how many of the declared frames have now been released. */
static uint16_t let_come(uint16_t count)
{
    nicd.late = (uint16_t)(nicd.late - count);
    return nicxo_let_come(count);
}

void nicd_let_come(uint16_t count)
{
    let_come(count);
}

void nicd_go_on(void)
{
    next_life();
    nicd_let_come(nicd.late);
    nicd.is_running = nicd.is_open;
    for (unsigned k = 0; k < NICD_QUEUES; k++)
        nicd.pollers[k].scheduled = true;
}

uint16_t nicd_let_one_come(void)
{
    nicd.events++;
    return (uint16_t)(let_come(1) - 1);
}

/* --- receiving --- */

static void judge_beyond(uint16_t queue)
{
    const uint8_t *beyond = nicd.room[queue].beyond;
    for (unsigned k = 0; k < sizeof nicd.room[queue].beyond; k++)
        if (beyond[k])
            nicd_failed("receive of queue %u writes past the end of its frame's buffer", queue);
}

bool nicd_receive(uint16_t queue)
{
    nicd_frame *frame = &nicd.room[queue].frame;
    frame->length = 0;
    nicd_calls(OF_QUEUE);
    bool is_there = nicd.driver->receive(queue, frame);
    nicd_called(OF_QUEUE);
    judge_beyond(queue);
    if (!is_there)
        return false;
    nicd_deliver(queue, frame->bytes, frame->length);
    return true;
}

static bool may_run(void *unused)
{
    (void)unused;
    return nicd.is_running;
}

static bool has_happened(void *seen)
{
    return nicd.events != *(const uint32_t *)seen;
}

void nicd_wait_for_event(uint32_t seen)
{
    if (nicd.driver->threads)
        nicx_wait(); /* actions of the driver's own threads don't count as events */
    else
        nicx_wait_until(has_happened, &seen);
}

/* Returns the number of events so far. A poll after this call sees at least the stores made in these events, so a
   polling thread eventually sees each store. */
uint32_t nicd_before_look(void)
{
    uint32_t seen = nicd.events;
    nicx_rmb();
    return seen;
}

/* Body of a thread that polls again after each device step. */
static void poll(void *given)
{
    struct poller *poller = &nicd.pollers[number_of(given)];
    for (;;) {
        uint32_t seen;
        nicx_wait_until(may_run, NULL);
        poller->busy = true;
        do
            seen = nicd_before_look();
        while (nicd_receive(poller->queue) && nicd.is_running);
        poller->busy = false;
        nicd_wait_for_event(seen);
    }
}

static bool is_scheduled(void *given)
{
    return nicd.is_running && nicd.pollers[number_of(given)].scheduled;
}

void nicd_rearm(uint16_t queue)
{
    nicd_calls(OF_QUEUE);
    nicd.driver->rearm(queue);
    nicd_called(OF_QUEUE);
}

/* Body of a thread that polls when a handler requests it. */
static void serve(void *given)
{
    uint16_t queue = number_of(given);
    struct poller *poller = &nicd.pollers[queue];
    for (;;) {
        nicx_wait_until(is_scheduled, given);
        nicd_begin_poll(queue);
        nicx_rmb();
        while (nicd.driver->receive && nicd_receive(queue))
            continue;
        if (nicd.driver->reclaim)
            nicd_reclaim(queue);
        if (nicd.driver->rearm)
            nicd_rearm(queue);
        poller->busy = false;
    }
}

static bool is_not_opening(void *unused)
{
    (void)unused;
    return nicd.doing != CALL_OPEN;
}

/* Calls the driver's handler. A message that arrives while the driver opens is handled after open has returned. */
static void handle(void *given)
{
    if (!is_not_opening(NULL))
        nicx_wait_until(is_not_opening, NULL);
    if (!nicd.is_open || nicd.is_asleep)
        return;
    if (nicd_peek(NIC_RDH(nicd.base)) == nicd_peek(NIC_RDT(nicd.base)))
        nicd_reach(LATE_CALL);
    nicd_interrupt((uint8_t)number_of(given));
}

/* --- vectors in use; all vectors if the driver isn't open yet --- */

static bool is_vector(uint32_t byte, unsigned vector)
{
    return byte & 0x80 && (byte & 0x3F) == vector;
}

static bool is_in_word(uint32_t address, unsigned vector)
{
    uint32_t word = nicd_peek(address);
    for (unsigned k = 0; k < 32; k += 8)
        if (is_vector(word >> k, vector))
            return true;
    return false;
}

static bool is_used(unsigned vector)
{
    if (!nicd.is_open)
        return nicd.setup.port ? vector < 3 : true;
    if (nicd.setup.port)
        return is_in_word(NIC_PVTIVAR(nicd.base / 2u), vector) ||
               is_in_word(NIC_PVTIVAR_MISC(nicd.setup.port - 1u), vector);
    for (unsigned queue = 0; queue < nicd.setup.queues; queue += 2)
        if (is_in_word(NIC_IVAR(queue / 2), vector))
            return true;
    return is_in_word(NIC_IVAR_MISC, vector);
}

/* A message arms its vector's timer. In a LATE row only the timer calls the driver's handler; in an OFTEN row the timer
   calls it again. */
static void handle_by_timer(void *given)
{
    if (nicd.scenario->ways & OFTEN)
        handle(given);
    nicx_arm(nicd.timers[number_of(given)]);
}

static void add_timer(unsigned vector)
{
    static const char *const names[VECTORS] = {"again0",  "again1",  "again2",  "again3", "again4",  "again5",
                                               "again6",  "again7",  "again8",  "again9", "again10", "again11",
                                               "again12", "again13", "again14", "again15"};
    static const char *const late[VECTORS] = {"late0",  "late1",  "late2",  "late3", "late4",  "late5",
                                              "late6",  "late7",  "late8",  "late9", "late10", "late11",
                                              "late12", "late13", "late14", "late15"};
    bool is_late = nicd.scenario->ways & LATE;
    nicd.timers[vector] =
        nicx_timer(is_late ? late[vector] : names[vector], handle, argument(vector), is_late ? NICX_AT_REST : AGAIN);
}

static void add_handlers(void)
{
    static const char *const names[VECTORS] = {"vector0",  "vector1",  "vector2",  "vector3", "vector4",  "vector5",
                                               "vector6",  "vector7",  "vector8",  "vector9", "vector10", "vector11",
                                               "vector12", "vector13", "vector14", "vector15"};
    bool by_timer = nicd.scenario->ways & (LATE | OFTEN);
    for (unsigned vector = 0; vector < VECTORS; vector++) {
        if (!is_used(vector))
            continue;
        nicx_handler(names[vector], nicd.setup.port, (uint8_t)vector, by_timer ? handle_by_timer : handle,
                     argument(vector), nicd.is_open ? NICX_ANYWHERE : NICX_BESIDE);
        if (by_timer)
            add_timer(vector);
    }
}

void nicd_take_frames(void)
{
    static const char *const names[NICD_QUEUES] = {"receive0", "receive1", "receive2", "receive3"};
    bool serves = nicd.setup.interrupts && nicd.driver->interrupt;
    for (uint16_t queue = 0; queue < nicd.setup.queues && (nicd.driver->receive || serves); queue++)
        nicx_service(names[queue], serves ? serve : poll, argument(queue));
}

/* --- sending --- */

uint32_t nicd_reclaim(uint16_t queue)
{
    struct poller *poller = &nicd.pollers[queue];
    uint32_t accepted = nicd.accepted_now[queue], life = nicd.life;
    if (!nicd.driver->reclaim)
        return nicd.out[queue] = nicd.accepted[queue] - nicd.went[queue];
    nicd.calls++;
    nicx_lock(&poller->lock);
    nicd_calls(OF_QUEUE);
    uint32_t left = nicd.driver->reclaim(queue);
    nicd_called(OF_QUEUE);
    nicx_unlock(&poller->lock);
    nicd.calls--;
    if (!left && life == nicd.life)
        nicd_judge_reclaimed(queue, accepted);
    nicd.events += left < nicd.out[queue];
    return nicd.out[queue] = left;
}

bool nicd_send(uint16_t queue, uint32_t length)
{
    static uint8_t rooms[NICX_TASKS][NICD_FRAME_MOST];
    uint8_t *bytes = rooms[nicxo_thread() % NICX_TASKS];
    bool is_shared = (nicd.driver->can & NICD_SHARED_SEND) != 0;
    struct poller *poller = &nicd.pollers[queue];
    uint16_t number = (uint16_t)nicd.numbers++;
    uint32_t life = nicd.life;
    nicd_make_sent(number, length, bytes);
    nicd.calls++;
    if (++nicd.sending[queue] > 1)
        nicd_reach(OVERLAPS);
    if (!is_shared)
        nicx_lock(&poller->lock);
    nicd_calls(OF_QUEUE);
    bool is_taken = nicd.driver->send(queue, bytes, length);
    nicd_called(OF_QUEUE);
    if (is_taken) {
        struct sent *sent = &nicd.sent[queue][nicd.accepted[queue]++ % MOST_OUT];
        nicd.accepted_now[queue] += life == nicd.life;
        sent->number = number;
        sent->length = length;
        sent->life = life;
        nicd.out[queue]++;
    }
    if (!is_shared)
        nicx_unlock(&poller->lock);
    nicd.calls--;
    nicd.sending[queue]--;
    nicd.is_refused[queue] = !is_taken;
    memset(bytes, 0xA5, length);
    return is_taken;
}

struct sender {
    uint16_t queue;
    uint32_t count, length;
    uint8_t number;
};

static struct sender senders[NICX_TASKS];
static uint32_t sender_count;

/* Tries to send a frame. Returns whether the driver accepted it. If `send` refuses the frame and `reclaim` frees
   nothing, waits for an event. */
static bool try_to_send(uint16_t queue, uint32_t length)
{
    uint32_t seen = nicd_before_look();
    if (!nicd.is_running)
        return false;
    if (nicd_send(queue, length))
        return true;
    uint32_t out = nicd.out[queue];
    if (!nicd.is_running || nicd_reclaim(queue) >= out)
        nicd_wait_for_event(seen);
    return false;
}

void nicd_send_surely(uint16_t queue, uint32_t length)
{
    while (!try_to_send(queue, length))
        continue;
}

/* Returns false if all of a queue's frames are sent. Otherwise waits for an event if the driver is running, and returns
   true. */
static bool wait_for_some(uint16_t queue)
{
    uint32_t seen = nicd_before_look();
    nicd.is_awaited[queue] = true;
    if (!nicd.is_running)
        return true;
    if (!nicd_reclaim(queue))
        return false;
    nicd_wait_for_event(seen);
    return true;
}

void nicd_wait_until_out(uint16_t queue)
{
    while (wait_for_some(queue))
        continue;
}

static bool may_send(void *unused)
{
    (void)unused;
    return nicd.is_running || nicd.is_ended;
}

/* Waits until the driver is running or closed. Returns whether it is running. */
static bool wait_to_send(void)
{
    nicx_wait_until(may_send, NULL);
    return nicd.is_running;
}

static void send_all(void *given)
{
    const struct sender *it = given;
    for (uint32_t k = 0; k < it->count && wait_to_send();)
        k += try_to_send(it->queue, it->length);
    while (wait_to_send() && wait_for_some(it->queue))
        continue;
}

void nicd_send_frames(uint16_t queue, uint32_t count, uint32_t length)
{
    static const char *const names[] = {"send0", "send1", "send2", "send3", "send4", "send5", "send6", "send7"};
    struct sender *it = &senders[sender_count % 8];
    it->queue = queue;
    it->count = count;
    it->length = length;
    nicx_task(names[sender_count++ % 8], send_all, it);
}

/* --- the mailbox --- */

bool nicd_mailbox_send(uint8_t vf, const uint32_t *words, uint32_t count)
{
    nicd_calls(OF_MAILBOX);
    bool is_sent = nicd.driver->mailbox_send(vf, words, count);
    nicd_called(OF_MAILBOX);
    return is_sent;
}

bool nicd_mailbox_receive(uint8_t vf, uint32_t *words)
{
    nicd_calls(OF_MAILBOX);
    bool is_there = nicd.driver->mailbox_receive(vf, words);
    nicd_called(OF_MAILBOX);
    return is_there;
}

bool nicd_mailbox_ready(void)
{
    nicd_calls(OF_QUEUE);
    return nicd.driver->mailbox_ready();
}

/* --- threads of the scenario --- */

static void (*control)(void);

static void run_control(void *unused)
{
    (void)unused;
    control();
}

void nicd_control(void (*function)(void))
{
    control = function;
    nicx_task("control", run_control, NULL);
}

static void (*other)(void);

static void run_other(void *unused)
{
    (void)unused;
    other();
}

void nicd_other(const char *name, void (*function)(void), bool waits_for_ever)
{
    other = function;
    int number = waits_for_ever ? nicx_service(name, run_other, NULL) : nicx_task(name, run_other, NULL);
    nicd.cards |= 1u << number;
}

static bool has_come(void *unused)
{
    (void)unused;
    for (unsigned queue = 0; queue < NICD_QUEUES; queue++)
        if (nicd.went[queue] < nicd.accepted[queue])
            return false;
    return nicd.delivered == nicd.count;
}

void nicd_wait_for_rest(void)
{
    nicx_wait_until(has_come, NULL);
}

static bool has_so_many(void *given)
{
    return nicd.delivered >= *(const uint32_t *)given;
}

void nicd_wait_for(uint32_t delivered)
{
    static uint32_t wanted;
    wanted = delivered;
    nicx_wait_until(has_so_many, &wanted);
}

/* --- threads of the driver --- */

static bool was_open(void *unused)
{
    (void)unused;
    return nicd.is_open;
}

static void run_thread(void *given)
{
    nicx_wait_until(was_open, NULL);
    nicd_calls(OF_QUEUE);
    nicd.driver->thread(number_of(given));
}

static void add_threads(void)
{
    static const char *const names[MOST_THREAD] = {"thread0", "thread1", "thread2", "thread3"};
    for (uint32_t k = 0; k < nicd.driver->threads && k < MOST_THREAD; k++)
        nicx_service(names[k], run_thread, argument(k));
}

/* --- a schedule begins --- */

static uint32_t or_else(uint32_t given, uint32_t usual)
{
    return given ? given : usual;
}

static void set_up(void)
{
    static const uint8_t address[6] = {2, 0, 0, 0, 0, 1};
    nicd.setup = nicd.scenario->setup;
    nicd.setup.queues = (uint16_t)or_else(nicd.setup.queues, 1);
    nicd.setup.slots = (uint16_t)or_else(nicd.setup.slots, 8);
    if (nicd.setup.slots < nicd.driver->slots)
        nicd.setup.slots = nicd.driver->slots;
    nicd.setup.frame = or_else(nicd.setup.frame, 1514);
    nicd.setup.interrupts |= !nicd.driver->receive;
    nicd.setup.interrupts &= nicd.driver->interrupt != NULL;
    memcpy(nicd.setup.address, address, 6);
    nicd.base = nicd.setup.port ? (uint16_t)(2 * (nicd.setup.port - 1)) : 0;
}

static void forget(void)
{
    nicd.is_open = nicd.is_running = nicd.is_ended = nicd.was_ended = nicd.is_asleep = false;
    nicd.doing = NO_CALL;
    nicd.era = BEFORE;
    nicd.links = 0;
    nicd.life = nicd.cards = nicd.calls = nicd.events = 0;
    memset(nicd.sending, 0, sizeof nicd.sending);
    nicd.too_long = 0;
    nicd.by_card = false;
    sender_count = 0;
    memset(nicd.pollers, 0, sizeof nicd.pollers);
    for (unsigned k = 0; k < NICD_QUEUES; k++)
        memset(nicd.room[k].beyond, 0, sizeof nicd.room[k].beyond);
    for (uint16_t k = 0; k < NICD_QUEUES; k++) {
        nicd.pollers[k].queue = k;
        nicd.pollers[k].lock.name = "queue";
    }
}

/* Returns the number of frames that a scenario requests; 0 if none. */
static uint32_t frames_of(const struct scenario *it, int more)
{
    return more ? (uint32_t)(it->rings * nicd.setup.slots + more) : 0;
}

static void name_all(const struct scenario *it)
{
    uint32_t length = or_else(it->length, 60);
    if (it->control)
        nicd_control(it->control);
    if (it->begin)
        it->begin();
    if (it->takes)
        nicd_take_frames();
    if (it->sends && nicd.driver->send)
        nicd_send_frames(0, frames_of(it, it->sends), length);
    nicd_come_plain(frames_of(it, it->comes), length);
    for (unsigned k = 0; k < it->links; k++)
        nicx_link_change(k % 2);
    nicd_come_late((uint32_t)it->late, length);
}

void nicd_begin(void)
{
    if (nicd.driver->begin)
        nicd.driver->begin();
    set_up();
    forget();
    nicd_memory_begin();
    nicd_contract_begin();
    nicd_judge_begin();
    nicd_watch_begin();
    if (!(nicd.scenario->ways & OPENS) && !nicd_open())
        nicd_note("open returned false");
    name_all(nicd.scenario);
    nicxo_hold_back(nicd.late);
    add_threads();
    if (nicd.setup.interrupts && nicd.driver->interrupt)
        add_handlers();
}

const char *nicd_always(void)
{
    return nicd.fault;
}

const char *nicd_end(void)
{
    const char *fault = nicd_judge_end();
    if (!fault && nicd.scenario->end)
        fault = nicd.scenario->end();
    return fault;
}
