#define _GNU_SOURCE
#include "process.h"

#include <errno.h>
#include <signal.h>
#include <stdio.h>
#include <stdlib.h>
#include <string.h>
#include <sys/mman.h>
#ifdef __linux__
#include <sys/prctl.h>
#include <sys/syscall.h>
#include <ucontext.h>
#endif
#include <sys/time.h>
#include <sys/wait.h>
#include <unistd.h>

#include "search.h"

/* Exit statuses of a child: a task reached no point; a task waits for a lock that the explorer doesn't control; a
   thread that isn't a task made a call. */
enum { HUNG = 77, LOCKED_UP = 78, FOREIGN = 79 };

#define FOREIGN_WORDS "a thread that isn't a task calls the explorer: "

const char *nicxi_for_threads = "link with @nic82599_threads.opts (docs/explore.md)";

static size_t schedule_bytes(void)
{
    return ((size_t)nicxi.most_points + 1) * sizeof(uint16_t);
}

static size_t size_of(uint32_t count)
{
    return count * (sizeof(struct post) + schedule_bytes());
}

struct post *nicxi_posts(uint32_t count)
{
    void *memory = mmap(NULL, size_of(count), PROT_READ | PROT_WRITE, MAP_SHARED | MAP_ANONYMOUS, -1, 0);
    if (memory == MAP_FAILED)
        return NULL;
    struct post *posts = memory;
    char *schedules = (char *)(posts + count);
    for (uint32_t k = 0; k < count; k++)
        posts[k].schedule = (uint16_t *)(void *)(schedules + k * schedule_bytes());
    return posts;
}

void nicxi_free_posts(struct post *posts, uint32_t count)
{
    munmap(posts, size_of(count));
}

void nicxi_note_in(struct post *post)
{
    nicxi.schedule = post->schedule;
    nicxi.points = &post->at;
    nicxi.notes = &post->notes;
    nicxi.coverage = &post->coverage;
}

/* --- hanging tasks --- */

enum { MOST_ODD_TICKS = 60 };

static struct post *watched;
static uint32_t seconds_left, seconds_given, odd_ticks;
static double ticked_at;

/* Whether the signal interrupted a wait for a lock that the explorer doesn't control: then the next instruction repeats
   the futex system call. */
static bool is_locked_up(const void *context)
{
#if defined(__linux__) && defined(__x86_64__)
    const greg_t *registers = ((const ucontext_t *)context)->uc_mcontext.gregs;
    const unsigned char *at = (const unsigned char *)(uintptr_t)registers[REG_RIP];
    return registers[REG_RAX] == SYS_futex && at[0] == 0x0F && at[1] == 0x05;
#elif defined(__linux__) && defined(__aarch64__)
    const mcontext_t *registers = &((const ucontext_t *)context)->uc_mcontext;
    const uint32_t *at = (const uint32_t *)(uintptr_t)registers->pc;
    return registers->regs[8] == SYS_futex && *at == 0xD4000001; /* svc #0 */
#else
    (void)context;
    return false;
#endif
}

/* Whether this tick comes about a second after the last one. If not, the process was stopped or was given no CPU in
   between, so that it reached no point proves nothing. If ticks are seldom in time, they count anyway. */
static bool is_in_time(void)
{
    double now = nicxi_now(), since = now - ticked_at;
    ticked_at = now;
    odd_ticks = since > 0.5 && since < 1.5 ? 0 : odd_ticks + 1;
    return odd_ticks == 0 || odd_ticks > MOST_ODD_TICKS;
}

static void tick(int number, siginfo_t *info, void *context)
{
    static uint64_t seen[2];
    uint64_t now[2] = {watched->runs, watched->at};
    bool in_time = is_in_time();
    (void)number;
    (void)info;
    if (memcmp(seen, now, sizeof now) != 0) {
        memcpy(seen, now, sizeof now);
        seconds_left = seconds_given;
        odd_ticks = 0;
    } else if (!in_time) {
        return;
    } else if (is_locked_up(context) && nicxi.phase == RUNNING) {
        _exit(LOCKED_UP);
    } else if (--seconds_left == 0) {
        _exit(HUNG);
    }
}

static void watch(struct post *post, uint32_t hang)
{
    struct sigaction action;
    struct itimerval each = {{1, 0}, {1, 0}};
    memset(&action, 0, sizeof action);
    action.sa_sigaction = tick;
    action.sa_flags = SA_RESTART | SA_SIGINFO;
    watched = post;
    seconds_left = seconds_given = hang;
    odd_ticks = 0;
    ticked_at = nicxi_now();
    sigaction(SIGALRM, &action, NULL);
    setitimer(ITIMER_REAL, &each, NULL);
}

/* --- starting and ending --- */

bool nicxi_start(struct post *post, uint32_t hang, void (*work)(struct post *, void *), void *argument)
{
    fflush(NULL);
    post->at = 0;
    post->is_running = post->is_found = post->is_done = false;
    pid_t process = fork();
    if (process) {
        post->process = process;
        return process > 0;
    }
#ifdef __linux__
    prctl(PR_SET_PDEATHSIG, SIGKILL); /* killed when its parent exits */
#endif
    nicxi_note_in(post);
    watch(post, hang);
    nicxi_catch_overflows(&post->overflow);
    work(post, argument);
    post->is_done = true;
    fflush(stdout);
    _exit(0);
}

/* Reports that the actor that ran last, or a scenario function called after it, is still running. */
static void tell_hang(const struct post *post, nicx_result *result)
{
    char name[96];
    uint32_t at = post->at, leaves = post->notes.leaves;
    if (leaves) {
        snprintf(result->words, sizeof result->words,
                 "%s's stack can't be unwound: a thread or a destructor there hangs", nicxi.threads[leaves - 1].name);
        return;
    }
    while (at > 1 && nicxi_is_value(post->schedule[at - 1]))
        at--;
    if (at)
        snprintf(result->words, sizeof result->words, "%s reached no further point: does its loop need %swait?",
                 nicx_actor_name(post->schedule[at - 1], name), nicxi_calls);
    else
        snprintf(result->words, sizeof result->words, "begin never returns");
}

static void tell_signal(const struct post *post, int number, nicx_result *result)
{
    if (post->overflow.size)
        nicxi_overflow_words(&post->overflow, result->words, sizeof result->words);
    else
        snprintf(result->words, sizeof result->words, "the process was killed by signal %d (%s)", number,
                 strsignal(number));
}

static void tell_status(const struct post *post, int status, nicx_result *result)
{
    char name[96];
    const char *who = post->at ? nicx_actor_name(post->schedule[post->at - 1], name) : "begin";
    switch (status) {
    case HUNG:
        result->outcome = NICX_HANG;
        tell_hang(post, result);
        break;
    case LOCKED_UP:
        result->outcome = NICX_HANG;
        snprintf(result->words, sizeof result->words,
                 "%s waits for a lock that the explorer doesn't control, so no other task can run: %s", who,
                 nicxi_for_threads);
        break;
    case FOREIGN:
        result->outcome = NICX_MISUSE;
        snprintf(result->words, sizeof result->words, FOREIGN_WORDS "%s", nicxi_for_threads);
        break;
    default: snprintf(result->words, sizeof result->words, "the process exited with status %d", status); break;
    }
}

/* If no parent process watches, this process prints the report itself. */
void nicxi_refuse_thread(void)
{
    if (watched)
        _exit(FOREIGN);
    dprintf(STDERR_FILENO, FOREIGN_WORDS "%s\n", nicxi_for_threads);
    _exit(2);
}

bool nicxi_ended(struct post *post, int status)
{
    nicx_result *result = &post->result;
    if (WIFEXITED(status) && WEXITSTATUS(status) == 0 && post->is_done)
        return post->is_found;
    memset(result, 0, sizeof *result);
    result->points = post->at;
    result->outcome = NICX_CRASH;
    if (WIFSIGNALED(status))
        tell_signal(post, WTERMSIG(status), result);
    else
        tell_status(post, WEXITSTATUS(status), result);
    result->switches = nicxi_switches(post->schedule, post->at);
    return post->is_found = true;
}

bool nicxi_do(struct post *post, uint32_t hang, void (*work)(struct post *, void *), void *argument)
{
    int status = 0;
    if (!nicxi_start(post, hang, work, argument))
        return false;
    while (waitpid(post->process, &status, 0) < 0 && errno == EINTR)
        continue;
    return nicxi_ended(post, status);
}
