/* Timed waits are pauses: other actors may run before they end, and if none can, they end. A schedule's clocks always
   start at the same time. They advance by a microsecond for each point, and by the time slept. */
#define _GNU_SOURCE
#include <sched.h>
#include <sys/time.h>
#include <threads.h>
#include <time.h>
#include <unistd.h>

#include "form.h"

enum { SECOND = 1000000000, POINT = 1000, FIRST = 1000000 };

static uint64_t slept, of_epoch;

void nicxi_time_part(struct checkpoint *it)
{
    nicxi_part(it, &slept, sizeof slept);
    nicxi_part(it, &of_epoch, sizeof of_epoch);
}

static uint64_t now(void)
{
    if (of_epoch != nicxi.epoch)
        slept = 0;
    of_epoch = nicxi.epoch;
    slept += POINT; /* each query takes a while, so a polling loop ends */
    return (uint64_t)FIRST * SECOND + slept + (uint64_t)POINT * *nicxi.points;
}

/* Turns a timed wait into a pause. Returns false if the call isn't the search's. */
static bool pause_for(const char *call, uint64_t time)
{
    if (!nicxi_is_ours())
        return false;
    if (nicxi_caller()) {
        nicxi_call(PAUSED, call, NULL);
        nicxi_drain(); /* a thread that sleeps leaves no store pending */
    }
    now();
    slept += time;
    return true;
}

static uint64_t of(const struct timespec *time)
{
    return (uint64_t)time->tv_sec * SECOND + (uint64_t)time->tv_nsec;
}

INTERCEPT_IF(pause_for("sched_yield", 0), int, sched_yield, (void), (), 0)
INTERCEPT_IF(pause_for("usleep", (uint64_t)time * 1000), int, usleep, (useconds_t time), (time), 0)
INTERCEPT_IF(pause_for("sleep", (uint64_t)seconds *SECOND), unsigned, sleep, (unsigned seconds), (seconds), 0)
INTERCEPT_IF(pause_for("nanosleep", of(time)), int, nanosleep, (const struct timespec *time, struct timespec *left),
             (time, left), 0)

int __real_clock_nanosleep(clockid_t clock, int flags, const struct timespec *time, struct timespec *left);
int __wrap_clock_nanosleep(clockid_t clock, int flags, const struct timespec *time, struct timespec *left)
{
    if (!nicxi_is_ours())
        return __real_clock_nanosleep(clock, flags, time, left);
    uint64_t until = of(time), from = flags & TIMER_ABSTIME ? now() : 0;
    pause_for("clock_nanosleep", until > from ? until - from : 0);
    return 0;
}

void __real_thrd_yield(void);
void __wrap_thrd_yield(void)
{
    if (!pause_for("thrd_yield", 0))
        __real_thrd_yield();
}

INTERCEPT_IF(pause_for("thrd_sleep", of(time)), int, thrd_sleep, (const struct timespec *time, struct timespec *left),
             (time, left), 0)

/* --- clocks --- */

static bool is_of_schedule(void)
{
    return nicxi_is_ours() && (nicxi.phase == RUNNING || nicxi_alone);
}

int __real_clock_gettime(clockid_t clock, struct timespec *time);
int __wrap_clock_gettime(clockid_t clock, struct timespec *time)
{
    if (!is_of_schedule())
        return __real_clock_gettime(clock, time);
    time->tv_sec = (time_t)(now() / SECOND);
    time->tv_nsec = (long)(now() % SECOND);
    return 0;
}

int __real_gettimeofday(struct timeval *time, void *zone);
int __wrap_gettimeofday(struct timeval *time, void *zone)
{
    if (!is_of_schedule())
        return __real_gettimeofday(time, zone);
    time->tv_sec = (time_t)(now() / SECOND);
    time->tv_usec = (suseconds_t)(now() % SECOND / 1000);
    return 0;
}

time_t __real_time(time_t *out);
time_t __wrap_time(time_t *out)
{
    if (!is_of_schedule())
        return __real_time(out);
    time_t seconds = (time_t)(now() / SECOND);
    if (out)
        *out = seconds;
    return seconds;
}
