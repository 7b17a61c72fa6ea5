/* Searches for the order of steps that breaks a driver. A scenario is a driver's code, written as tasks and interrupt
   handlers over one controller of nic82599.h. Each access by a task is a point at which any actor may run: another
   task, a handler, a step of the device, the next frame, the link. A schedule lists the actor at each point, so a run
   can be repeated. A failing schedule is shrunk and saved in a file, and the device's events in it are written as a
   script. docs/explore.md starts with an example.

   This part is tested, not proved. One process runs its schedules one after the other on one thread; each task has its
   own stack. Make the calls below only in the scenario's functions, in tasks and in handlers. A task that is still
   running when its schedule ends doesn't finish, so memory that it got from malloc leaks. Therefore make your driver's
   state static, and set it up in `begin`.

   Other threads of the process may use their own controllers while a search runs. A controller that the scenario's
   functions open begins each schedule in its state after the bring-up, and is closed by nicx_close. In these functions,
   don't use a controller that was opened before nicx_open. */
#ifndef NIC82599_EXPLORE_H
#define NIC82599_EXPLORE_H

#ifdef _WIN32
#error "the explorer isn't available on Windows, because it depends on Linux's stacks, threads and processes"
#endif

#include "nic82599.h"

#ifdef __cplusplus
extern "C" {
#endif

/* --- a scenario --- */

/* What a scenario doesn't count as a failure. */
enum nicx_allowed {
    NICX_FAULTS = 1,  /* a device step that returns NIC_FAULT */
    NICX_NOT_LENT = 2 /* a read or write by the driver in memory that isn't lent */
};

/* How a driver's stores to lent memory and its loads from it may be reordered (docs/explore.md, "Missing barriers"). */
enum nicx_memory {
    NICX_WEAK = 1,         /* stores may be late and loads stale, as with --memory weak */
    NICX_WRITES_ORDER = 2, /* a register write is ordered after all earlier stores, as with Linux's writel() */
    NICX_READS_ORDER = 4,  /* no load after a register read is older than that read, as with Linux's readl() */
    NICX_TSO = 8           /* instead of NICX_WEAK: stores may be late but stay in order, as on x86 (--memory tso) */
};

typedef struct nicx_scenario {
    const char *name; /* letters, digits, '-' and '_', at most 63; the base name of the files written */

    /* The device, with the arguments that nic_new takes. `blocks` is at most 65,536. A script has only 256 blocks, so
       no script is written for a scenario with more. */
    uint8_t vfs;
    uint16_t fifo;
    uint32_t blocks;
    /* The device runs the enable and transmit steps of queues 0 .. queues - 1 only (1 to 128). The receive step, the
       EEPROM step, and the messages of the physical function and of each virtual function can always run. */
    uint16_t queues;

    /* Runs once in each process. Sets the device up with nicx_ calls, which aren't points here. Returns null, or why it
       failed. Every schedule starts from the state that the device has when this function returns. During a wait or a
       pause here, or a loop that keeps reading the same value, the device runs its steps. */
    const char *(*bring_up)(void);
    /* Runs before each schedule. Initializes the driver's state, and declares its tasks, its handlers, and the frames
       and link changes to come. Accesses take effect immediately; waits work as in bring_up. */
    void (*begin)(void);
    /* Runs after each step; may be null. Returns null, or what is wrong. It may look at the device through
       nicx_device(), with calls that have no effects (nic_peek32, nic_dma_read); a call that has an effect fails as
       misuse. */
    const char *(*always)(void);
    /* Runs when all is at rest: no task, handler or device step can continue. Returns null, or what is wrong. */
    const char *(*end)(void);

    uint32_t points;  /* a longer schedule fails as endless; 0 means 2,000 */
    uint32_t stack;   /* bytes of a task's stack, at least 16,384; 0 means 65,536 */
    uint32_t allowed; /* flags of enum nicx_allowed */
    uint32_t memory;  /* flags of enum nicx_memory; without NICX_WEAK, the _ORDER flags apply only with --memory weak */
    /* Promises that tasks and handlers touch shared memory of the driver only under a common nicx_mutex, and that no
       condition touches it. The exhaustive search then leaves out schedules that differ only in the order of steps
       that touch different parts of the device. If the promise doesn't hold, the search may miss a failure. */
    bool race_free;
} nicx_scenario;

/* --- in `begin` --- */

enum {
    NICX_TASKS = 16,    /* limit on tasks */
    NICX_HANDLERS = 32, /* limit on handlers and timers */
    NICX_FRAMES = 256,  /* limit on frames, and on link changes */
    NICX_VALUES = 256,  /* limit on the bound of nicx_choose */
    NICX_STORES = 8,    /* weak memory: limit on a processor's pending stores */
    NICX_OLDER = 3,     /* weak memory: limit on the changes that a stale load misses */
    NICX_AT_REST = 0,   /* the timer fires when no other actor can run */
    NICX_ANYWHERE = -1, /* the handler interrupts any task, or runs beside all of them */
    NICX_BESIDE = -2    /* the handler runs beside all tasks, as its own thread */
};

/* Declares a task: a thread of the driver, or a processor. Returns its number, counted from 0. Names are unique. */
int nicx_task(const char *name, void (*function)(void *), void *argument);
/* Declares a task that may wait forever, such as a loop that serves interrupts. A schedule that ends while it is still
   waiting isn't a deadlock. */
int nicx_service(const char *name, void (*function)(void *), void *argument);

/* Declares the handler that a message of this group (0 for the physical function, v + 1 for virtual function v) and
   vector starts. `where` is NICX_ANYWHERE, NICX_BESIDE, or the number of a task, which continues only after the handler
   has returned. If several messages arrive before the handler starts, they start it only once. A message that arrives
   while it runs starts it again afterwards. A message without a handler starts nothing. */
void nicx_handler(const char *name, uint16_t group, uint8_t vector, void (*function)(void *), void *argument,
                  int where);

/* Declares a timer. When it fires, it starts the function beside all tasks, as a message starts a handler. It counts as
   one of the handlers, and fires once each time it is armed. `within` is NICX_AT_REST, to fire when no other actor can
   run, or a number of points N, at least 1. In that case the timer fires at one of the N points after the point that
   armed it. If it hasn't fired before the last of them, it fires there, before all other actors. Returns its number for
   nicx_arm. */
int nicx_timer(const char *name, void (*function)(void *), void *argument, uint32_t within);

/* Declares a frame of at most 16,384 bytes, which will arrive after those already declared. The bytes are copied. */
void nicx_frame(const uint8_t *frame, size_t length);
/* Declares a link change, down or up. Link changes happen in the order of these calls, independently of frames. */
void nicx_link_change(bool up);
/* Returns the number of frames that have arrived so far, including dropped ones. Shrinking leaves frames out of a
   failure, so have `end` compare with this number instead of the number of frames declared. */
uint32_t nicx_came(void);

/* --- in tasks and handlers: each of these is a point --- */

/* These work like the nic82599.h calls with the same names. */
uint32_t nicx_read32(uint32_t address); /* the word as a driver sees it, even for a stray access */
uint8_t nicx_write32(uint32_t address, uint32_t word);
uint32_t nicx_vf_read32(uint8_t vf, uint32_t offset);
uint8_t nicx_vf_write32(uint8_t vf, uint32_t offset, uint32_t word);
uint64_t nicx_get64(uint64_t bus); /* 0 if the memory isn't lent, which is a failure without NICX_NOT_LENT */
uint8_t nicx_put64(uint64_t bus, uint64_t value);
uint8_t nicx_dma_read(uint64_t bus, uint8_t *bytes, size_t length);
uint8_t nicx_dma_write(uint64_t bus, const uint8_t *bytes, size_t length);
uint8_t nicx_lend(uint32_t block);
uint8_t nicx_take(uint32_t block);

/* Adds a point without an access, for example between two accesses to the driver's own memory. */
void nicx_point(void);

/* Waits until another actor has run: while (!ready) nicx_wait(); */
void nicx_wait(void);
/* Waits until a condition on the driver's own memory holds. The condition must not make any of these calls. The whole
   wait is one point, whereas a loop of nicx_wait is a point after each step of another actor. */
void nicx_wait_until(bool (*condition)(void *), void *argument);
/* A condition for nicx_wait_until: whether a flag, a bool, is set. */
static inline bool nicx_is_set(void *flag)
{
    return *(const bool *)flag;
}
/* Gives other actors the chance to run before this task continues; if none can, the task continues immediately. For
   loops that poll a bounded number of times. */
void nicx_pause(void);

/* A lock in the driver's memory. {0} is a free lock, and all locks are free when a schedule starts. If its holder takes
   it again, the call never returns. A task or handler that ends while it holds a lock fails the schedule. */
typedef struct nicx_mutex {
    const char *name; /* for reports; may be null */
    uint64_t kept;    /* private */
} nicx_mutex;

void nicx_lock(nicx_mutex *lock);
void nicx_unlock(nicx_mutex *lock);

/* Arms the timer with this number, or arms it again. Also allowed in `begin`, where it isn't a point. A number that
   nicx_timer didn't return is misuse. */
void nicx_arm(int timer);
/* Disarms a timer, and returns whether it was armed. Doesn't wait for the timer's function if that has already
   started. */
bool nicx_disarm(int timer);

/* Barriers for weak memory; with strong memory they are no-ops and aren't points. When nicx_wmb returns, all earlier
   stores of the task's processor to lent memory have reached memory. The processor's atomic stores to the driver's own
   memory may still be pending, but take effect before all later stores. A load after nicx_rmb returns no value older
   than the barrier. nicx_mb does both, and leaves no store pending. Locks are barriers too: taking one orders loads,
   and releasing one orders stores. */
void nicx_wmb(void);
void nicx_rmb(void);
void nicx_mb(void);
/* The same barriers without a point, for code that has already had its point, such as an atomic operation that releases
   or acquires. */
void nicx_release(void);
void nicx_acquire(void);

/* Turn interrupts off and on for this task: while they are off, no handler starts on it. Calls are counted, so pairs
   nest. These calls aren't points. */
void nicx_interrupts_off(void);
void nicx_interrupts_on(void);

/* Returns a value below the bound (1 to NICX_VALUES) that is part of the schedule: whether an allocation fails, which
   input arrives. All strategies choose it, and shrinking tries lower values. No actor runs between this call and the
   one before it. Also allowed in `begin`; in `bring_up`, `always`, `end` and conditions it is misuse. */
uint32_t nicx_choose(uint32_t bound);

/* Fails the schedule with this message, of which only the pointer is kept. Doesn't return. */
void nicx_fail(const char *words);
static inline void nicx_check(bool holds, const char *words)
{
    if (!holds)
        nicx_fail(words);
}

/* --- a kit for scenarios --- */

/* Writes or reads a descriptor with one access at one point; two nicx_put64 would be two points. Reads zeros if the
   memory isn't lent. */
uint8_t nicx_put_desc(uint64_t ring, uint32_t slot, nic_desc d);
nic_desc nicx_get_desc(uint64_t ring, uint32_t slot);

enum { NICX_TCP = 6, NICX_UDP = 17, NICX_MAILBOX = 16 };
#define NICX_TORN UINT32_MAX

/* An IPv4 flow: its addresses and, with NICX_TCP or NICX_UDP, its ports. */
typedef struct nicx_flow {
    uint32_t from, to;
    uint16_t from_port, to_port;
    uint8_t protocol;
} nicx_flow;

/* Builds a frame of 60 to 16,384 bytes in which each byte after the header depends on the number. Returns false for
   another length. A flow's frame is 60 to 1,518 bytes long and has valid checksums. */
bool nicx_numbered_frame(uint8_t *frame, size_t length, uint32_t number);
bool nicx_flow_frame(uint8_t *frame, size_t length, const nicx_flow *flow, uint32_t number);
/* Returns the frame's number, below NICX_TORN, or NICX_TORN if a byte belongs to another frame or to none. */
uint32_t nicx_frame_number(const uint8_t *frame, size_t length);
/* In `begin`: declares `count` numbered frames, at most NICX_FRAMES, with numbers 0 to count - 1. An invalid length is
   misuse. */
void nicx_frames(uint32_t count, size_t length);

/* Return the hash of a flow (0 if none is computed) and the queue of its frames, according to the current MRQC, RSSRK
   and RETA. The queue is 0 without a hash or if bits 3:0 of MRQC aren't 1. These calls aren't points. */
uint32_t nicx_rss_hash(const nicx_flow *flow);
uint16_t nicx_rss_queue(const nicx_flow *flow);

/* A virtual function's mailbox, as its driver keeps it: {.vf = 3}. `seen` keeps the bits that a read clears. */
typedef struct nicx_mailbox {
    uint8_t vf;
    uint32_t seen;
} nicx_mailbox;

/* The calls for both sides of a mailbox. A sender waits for the mailbox and takes it, writes at most
   NICX_MAILBOX words, and signals the other side. `receives` checks for a signal; if there is one, it takes the
   mailbox, reads it, and acknowledges. `is_acked` checks whether the other side has acknowledged the message. Each
   signal and each acknowledgement is reported once. */
void nicx_function_sends(nicx_mailbox *mailbox, const uint32_t *words, uint32_t count);
bool nicx_function_receives(nicx_mailbox *mailbox, uint32_t *words, uint32_t count);
bool nicx_function_is_acked(nicx_mailbox *mailbox);
void nicx_host_sends(uint8_t vf, const uint32_t *words, uint32_t count);
bool nicx_host_receives(uint8_t vf, uint32_t *words, uint32_t count);
bool nicx_host_is_acked(uint8_t vf);

/* --- in `bring_up` and `end` --- */

/* The controller, for calls that the explorer needn't see: calls without effects, or any call in `end`. nic_lend_memory
   is misuse anywhere in a scenario, for the scenario's controller and for any others that it opens: a store to the
   driver's own memory isn't a point, so a search would miss races on it. */
nic *nicx_device(void);

/* Lends all blocks that aren't lent. Returns NIC_DONE or NIC_OUT_OF_MEMORY. Never call it in a task or a handler. */
uint8_t nicx_lend_all(void);
/* Runs the device's own steps until none has anything to do. Only in `bring_up`; elsewhere it is misuse. */
void nicx_settle(void);

/* --- a whole program --- */

/* Searches as the arguments say (docs/explore.md, or --help). Returns 0 if no failure was found, 1 if one was found, 2
   if an argument, a schedule or the scenario is refused. */
int nicx_main(int argc, char **argv, const nicx_scenario *scenario);

/* --- the functions below nicx_main, for other front ends (a fuzzer, another language) --- */

enum nicx_outcome {
    NICX_FINE = 0,
    NICX_END = 1,      /* `end` returned an error */
    NICX_ALWAYS = 2,   /* `always` returned an error */
    NICX_DEADLOCK = 3, /* tasks wait, and no actor can run */
    NICX_ENDLESS = 4,  /* more points than a schedule may have */
    NICX_FAULT = 5,    /* a queue fault */
    NICX_MEMORY = 6,   /* the driver accessed memory that isn't lent, or that it freed */
    NICX_CHECK = 7,    /* nicx_fail */
    NICX_MISUSE = 8,   /* a call that isn't allowed at that place, such as unlocking another task's lock */
    NICX_CRASH = 9,    /* a signal ended the process */
    NICX_HANG = 10,    /* a task reached no point for ten seconds */
    NICX_RACE = 11     /* two unordered memory accesses, at least one of them a write */
};

typedef struct nicx_result {
    uint8_t outcome;   /* enum nicx_outcome */
    uint32_t points;   /* number of choices in the schedule */
    uint32_t switches; /* number of points at which the actor differs from the previous point's */
    char words[256];   /* what is wrong; "" if nothing is */
} nicx_result;

/* Chooses a schedule's actors. `can` contains the numbers of the `count` runnable actors; the one that acted last comes
   first if it can continue. Returns the index of the actor to run. If that is a device step with nothing to do, the
   function is called again at the same point, without that step among the actors. */
typedef struct nicx_chooser {
    uint32_t (*choose)(void *argument, const uint16_t *can, uint32_t count);
    void *argument;
} nicx_chooser;

/* Brings a scenario's device up. Returns null, or why it failed; then nothing stays open. Only one scenario can be open
   at a time. */
const char *nicx_open(const nicx_scenario *scenario);
/* Runs one schedule. Doesn't return if the driver crashes. */
void nicx_run(const nicx_chooser *chooser, nicx_result *result);
/* Return the actors of the last schedule, point by point, and the name of an actor, as in files. */
const uint16_t *nicx_schedule(uint32_t *points);
const char *nicx_actor_name(uint16_t actor, char room[96]);
/* Closes the scenario that nicx_open opened. */
void nicx_close(void);

#ifdef __cplusplus
}
#endif

#endif
