/* Replaces engine/fiber.c: implements the stacks of engine/fiber.h as threads of the process. A switch wakes the other
   thread, and waits for its own turn.

   A thread that is inside a call when its schedule ends is unwound then, so that Python's frames on it end. A forked
   process has no threads; there they are created again. */
#define _GNU_SOURCE
#include "../engine/fiber.h"

#include <errno.h>
#include <poll.h>
#include <pthread.h>
#include <semaphore.h>
#include <signal.h>
#include <stdlib.h>
#include <sys/eventfd.h>
#include <sys/mman.h>
#include <unistd.h>

#include "../engine/engine.h"
#include "../engine/heap.h"
#include "../engine/search.h"
#include "python.h"

enum { LEAST_ROOM = 4 << 20, MOST_CALLS_ON = 100, SLICE = 100 };

#define MOST_TOOK (1.5e-3 * SLICE)

struct host {
    struct fiber *fiber;
    pid_t process; /* process that its thread belongs to; 0: it has none */
    pthread_t thread;
    sem_t turn;
    bool is_inside, is_left, is_ended, is_stuck;
    unsigned calls_on; /* calls that the thread has made although it should leave */
    struct nicp_way *way;
};

/* The main thread blocks in read rather than on a lock: a search would mistake a thread that waits for a lock for a
   thread of the driver. */
static struct {
    pid_t process;
    int turn;
    struct nicp_way *way;
} outside;

static __thread struct host *here;
static __thread bool is_outside;
static void (*begin_in_python)(void *host);

void (*nicp_at_end)(void);
uint32_t nicp_hang;

struct nicp_way **nicp_way(void)
{
    return here ? &here->way : is_outside ? &outside.way : NULL;
}

bool nicp_is_left(void)
{
    return here && here->is_left;
}

void nicp_leave(void)
{
    struct nicp_way **way = nicp_way();
    if (!way || !*way)
        abort();
    longjmp((*way)->place, 1);
}

static void give_turn(struct host *host);

static void stay(void)
{
    for (;;)
        pause();
}

/* A thread that hung was already abandoned. */
void nicp_calls_on(void)
{
    if (here->is_stuck)
        stay();
    if (++here->calls_on < MOST_CALLS_ON)
        return;
    here->is_stuck = true;
    give_turn(NULL);
    stay();
}

/* --- turns --- */

static void fatal(bool is_wrong)
{
    if (is_wrong)
        abort();
}

/* Each process needs its own eventfd; otherwise a forked process would take its parent's turns. */
static void renew(void)
{
    if (outside.process == getpid())
        return;
    outside.process = getpid();
    outside.turn = eventfd(0, EFD_CLOEXEC);
    fatal(outside.turn < 0);
}

void nicp_open_stacks(void (*begin_thread)(void *host))
{
    begin_in_python = begin_thread;
    is_outside = true;
    renew();
}

static void give_turn(struct host *host)
{
    uint64_t one = 1;
    if (host)
        fatal(sem_post(&host->turn) != 0);
    else
        fatal(write(outside.turn, &one, sizeof one) != sizeof one);
}

/* Makes this thread the one that the engine and its memory run on. */
static void take_over(void)
{
    nicxi_is_made_here();
    nicxi_heap_is_mine();
}

/* Waits until the main thread may have its turn. Returns false if the running thread hangs. Waiting takes longer than a
   slice if the process is stopped, and less if a signal interrupts it; neither must make a hang. */
static bool comes(void)
{
    struct pollfd turn = {.fd = outside.turn, .events = POLLIN};
    uint32_t points = *nicxi.points;
    double seconds = 0;
    while (seconds < nicp_hang) {
        double began = nicxi_now();
        if (poll(&turn, 1, SLICE) == 1)
            return true;
        double took = nicxi_now() - began;
        seconds = points == *nicxi.points ? seconds + (took < MOST_TOOK ? took : MOST_TOOK) : 0;
        points = *nicxi.points;
    }
    return !nicp_hang;
}

/* Waits for the main thread's turn. Returns false if the running thread hangs. */
static bool wait_outside(void)
{
    uint64_t count;
    bool it_comes = comes();
    while (it_comes && read(outside.turn, &count, sizeof count) != sizeof count)
        fatal(errno != EINTR);
    take_over();
    return it_comes;
}

/* Doesn't return if the thread must leave its schedule. */
static void wait_for_turn(struct host *host)
{
    while (sem_wait(&host->turn) != 0)
        fatal(errno != EINTR);
    if (host->is_left)
        nicp_leave();
    take_over();
}

/* --- a thread --- */

void nicp_live(void *given)
{
    struct host *host = given;
    struct nicp_way way = {.outer = NULL};
    here = host;
    while (!host->is_ended) {
        host->way = &way;
        if (setjmp(way.place) == 0) {
            wait_for_turn(host);
            host->is_inside = true;
            host->fiber->function(host->fiber->argument);
            abort();
        }
        host->is_left = host->is_inside = false;
        if (!host->is_ended) /* otherwise it is joined */
            give_turn(NULL);
    }
}

static void *begin_thread(void *host)
{
    begin_in_python(host);
    return NULL;
}

/* Starts a thread. Signals are left to the main thread. */
static bool start(struct host *host)
{
    sigset_t all, before;
    pthread_attr_t how;
    renew();
    fatal(sem_init(&host->turn, 0, 0) != 0);
    host->is_inside = host->is_left = host->is_ended = host->is_stuck = false;
    host->calls_on = 0;
    sigfillset(&all);
    pthread_attr_init(&how);
    pthread_attr_setstack(&how, host->fiber->bottom, host->fiber->size);
    pthread_sigmask(SIG_SETMASK, &all, &before);
    int fault = pthread_create(&host->thread, &how, begin_thread, host);
    pthread_sigmask(SIG_SETMASK, &before, NULL);
    pthread_attr_destroy(&how);
    host->process = fault ? 0 : getpid();
    return !fault;
}

static bool take_stack(struct fiber *fiber, size_t room)
{
    char *memory =
        mmap(NULL, room + NICX_GUARD, PROT_READ | PROT_WRITE, MAP_PRIVATE | MAP_ANONYMOUS | MAP_NORESERVE, -1, 0);
    if (memory == MAP_FAILED)
        return false;
    if (mprotect(memory, NICX_GUARD, PROT_NONE) != 0) {
        munmap(memory, room + NICX_GUARD);
        return false;
    }
    fiber->bottom = memory + NICX_GUARD;
    fiber->size = room;
    return true;
}

/* Called by the main thread: makes a thread leave its schedule, and returns when it is back at its beginning. A thread
   that keeps running is abandoned with its stack, and replaced by another thread. */
static void unwind(struct host *host)
{
    bool hangs = host->is_stuck;
    struct fiber *fiber = host->fiber;
    host->is_left = true;
    host->calls_on = 0;
    if (!hangs) {
        give_turn(host);
        host->is_stuck = !wait_outside() || host->is_stuck;
    }
    if (!host->is_stuck)
        return;
    struct host *other = calloc(1, sizeof *other); /* (the thread still uses its own) */
    fatal(!other || !take_stack(fiber, fiber->size));
    other->fiber = fiber;
    fiber->top = other;
}

/* --- called by the engine --- */

/* Returns the thread that a fiber runs on; null for the main thread. */
static struct host *host_of(const struct fiber *fiber)
{
    return fiber->bottom ? fiber->top : NULL;
}

int nicxi_fiber_open(struct fiber *fiber, size_t size)
{
    struct host *host = calloc(1, sizeof *host);
    if (!host || !take_stack(fiber, size < LEAST_ROOM ? LEAST_ROOM : size)) {
        free(host);
        return 0;
    }
    host->fiber = fiber;
    fiber->top = host;
    return 1;
}

void nicxi_fiber_close(struct fiber *fiber)
{
    struct host *host = host_of(fiber);
    if (!host)
        return;
    if (host->process == getpid()) {
        host->is_ended = host->is_left = true;
        give_turn(host);
        pthread_join(host->thread, NULL);
    }
    munmap(fiber->bottom - NICX_GUARD, fiber->size + NICX_GUARD);
    free(host);
    fiber->bottom = NULL;
}

void nicxi_fiber_begin(struct fiber *fiber, void (*function)(void *), void *argument)
{
    struct host *host = host_of(fiber);
    fatal(host->process == getpid() && host->is_inside);
    fiber->function = function;
    fiber->argument = argument;
    if (host->process != getpid() && !start(host))
        abort();
}

/* Called if the running thread reaches no point: ends the schedule, and abandons the thread where it is. */
static void give_up(void)
{
    struct thread *self = nicxi.self;
    struct host *host = host_of(&self->fiber);
    host->is_stuck = host->is_left = true;
    nicxi_failed(NICX_HANG, "%s runs without reaching a point", self->name);
    nicxi.self = NULL;
}

/* Called when the schedule is over: makes its threads leave it. */
static void unwind_all(void)
{
    for (int k = 0; k < MOST_THREADS; k++) {
        struct thread *thread = &nicxi.threads[k];
        struct host *host = host_of(&thread->fiber);
        if (!host || thread->stack != BUSY || host->process != getpid() || !host->is_inside)
            continue;
        unwind(host);
        if (host->is_stuck)
            nicxi_failed(NICX_MISUSE, "%s continues after its schedule has ended: does it catch BaseException?",
                         thread->name);
    }
}

void nicxi_fiber_switch(struct fiber *from, struct fiber *to)
{
    struct host *self = host_of(from), *next = host_of(to);
    if (next && next->process != getpid() && !start(next)) /* a thread that hadn't begun in the previous process */
        abort();
    give_turn(next);
    if (self) {
        wait_for_turn(self);
    } else {
        if (!wait_outside())
            give_up();
        if (nicp_at_end)
            nicp_at_end();
        unwind_all();
    }
}
