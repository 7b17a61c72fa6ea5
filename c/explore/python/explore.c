/* A scenario in Python, given by the module nic82599.explore: the engine calls its functions, and runs its searches and
   replays. What the engine usually prints about these is returned instead. */
#define _GNU_SOURCE
#include <signal.h>
#include <stdio.h>
#include <stdlib.h>
#include <string.h>
#include <sys/prctl.h>

#include "../engine/files.h"
#include "../engine/keep.h"
#include "../engine/parts.h"
#include "../engine/replay.h"
#include "../engine/shrink.h"
#include "../engine/weak.h"
#include "../engine/words.h"
#include "python.h"

/* The functions called in Python, with the module's numbers. */
enum function {
    ASK_BRING_UP,
    ASK_BEGIN,
    ASK_ALWAYS,
    ASK_END,
    ASK_THREAD,
    ASK_CONDITION,
    ASK_CHOOSE,
    ASK_BEGIN_LINE,
    ASK_WAIT_LINES
};

enum { MOST_NAME = 80, MOST_LINES = 4, MOST_NEVER = 16384 };

/* A scenario, as the module passes it. `given` is enum given_memory. */
struct nicp_scenario {
    const char *name;
    uint32_t blocks, points, allowed, memory;
    uint16_t fifo, queues;
    uint8_t vfs, given;
    bool has_always;
    struct nicp_python python;
};

/* What a search found, in memory that the module shares with the searching process. */
struct nicp_found {
    uint64_t distinct, faults;
    bool is_there;
    uint8_t outcome;
    char words[256], where[80], fault[256]; /* `fault`: why there was no search */
    char never[MOST_NEVER];                 /* one line for each thing that never happened */
};

/* A schedule that ran in this process, and the report on it, which the caller frees. */
struct nicp_made {
    char *text;
    bool is_cut;
    nicx_result result;
};

static nicx_scenario scenario;
static char name[MOST_NAME];

/* --- the scenario's functions --- */

static const char *bring_up(void)
{
    return nicp_ask(ASK_BRING_UP, 0, 0, 0) == NICP_RAISED ? "raised an exception" : NULL;
}

/* Python's begin can reach the controller directly, and may change it. */
static void begin(void)
{
    nicxi.is_changed = true;
    if (nicp_ask(ASK_BEGIN, 0, 0, 0) == NICP_RAISED)
        nicxi_failed(NICX_CRASH, "begin raised an exception");
}

static const char *judged(enum function function)
{
    return nicp_ask(function, 0, 0, 0) > 0 ? nicp_words() : NULL;
}

static const char *always(void)
{
    return judged(ASK_ALWAYS);
}

static const char *end(void)
{
    return judged(ASK_END);
}

/* Runs a task, a handler or a timer. If the function raises an exception, the module has already reported that. */
static void run(void *number)
{
    if (nicp_ask(ASK_THREAD, (uintptr_t)number, 0, 0) == NICP_RAISED)
        nicxi_leave();
}

/* --- places in the source --- */

static unsigned line_of_begin(const struct thread *thread, struct source_line *lines, unsigned most)
{
    (void)most;
    return nicp_ask(ASK_BEGIN_LINE, (uintptr_t)thread->argument, (uintptr_t)lines, 0) > 0;
}

/* Collected when the schedule ends, while the threads are still in their waits. */
static struct {
    struct source_line lines[MOST_LINES];
    unsigned count;
} waiting[MOST_THREADS];

static void note_waits(void)
{
    for (int k = 0; k < MOST_THREADS && !nicxi.result.outcome && !nicxi.is_cut; k++) {
        const struct thread *thread = &nicxi.threads[k];
        bool is_there = k < nicxi.tasks || (k >= NICX_TASKS && k < NICX_TASKS + nicxi.handlers);
        waiting[k].count = 0;
        if (!is_there || thread->state == OFF || thread->is_service)
            continue;
        int64_t count = nicp_ask(ASK_WAIT_LINES, (uintptr_t)thread->argument, (uintptr_t)waiting[k].lines, MOST_LINES);
        waiting[k].count = count > 0 ? (unsigned)count : 0;
    }
}

static unsigned lines_of_wait(const struct thread *thread, struct source_line *lines, unsigned most)
{
    unsigned number = (unsigned)(thread - nicxi.threads);
    unsigned count = waiting[number].count < most ? waiting[number].count : most;
    memcpy(lines, waiting[number].lines, count * sizeof *lines);
    return count;
}

/* --- opening and closing --- */

static void refuse_foreign(void)
{
    nicxi_failed(NICX_MISUSE, "a thread that isn't a task calls the explorer");
}

/* Called for a bring-up that waits forever: leaves the call that waits. */
static void give_up(const char *words)
{
    nicxi_failed(NICX_MISUSE, "%s", words);
    nicp_leave();
}

static const char *opened(void)
{
    struct nicp_way way = {.outer = NULL};
    const char *volatile fault = NULL;
    *nicp_way() = &way;
    if (setjmp(way.place) == 0) {
        fault = nicx_open(&scenario);
    } else {
        fault = nicxi_why("%s", nicxi.result.words);
        nicx_close();
    }
    *nicp_way() = NULL;
    return fault;
}

const char *nicp_open_scenario(const struct nicp_scenario *given);

/* Returns null, or why the scenario can't be opened. */
const char *nicp_open_scenario(const struct nicp_scenario *given)
{
    snprintf(name, sizeof name, "%s", given->name);
    scenario = (nicx_scenario){.name = name,
                               .vfs = given->vfs,
                               .fifo = given->fifo,
                               .blocks = given->blocks,
                               .queues = given->queues,
                               .bring_up = bring_up,
                               .begin = begin,
                               .always = given->has_always ? always : NULL,
                               .end = end,
                               .points = given->points,
                               .allowed = given->allowed,
                               .memory = given->memory};
    nicp_open(&given->python, ASK_CONDITION, refuse_foreign);
    nicxi_calls = "";
    nicxi_condition = "a condition of wait_until";
    nicxi_gives_up = give_up;
    nicxi_ask_for_begin = line_of_begin;
    nicxi_ask_for_wait = lines_of_wait;
    nicp_at_end = note_waits;
    nicxi_give_memory((enum given_memory)given->given);
    const char *fault = opened();
    nicxi_give_memory(AS_SCENARIO);
    return fault;
}

nic *nicp_device(void);

/* Returns the controller, at an address that doesn't change. */
nic *nicp_device(void)
{
    return &nicxi.device;
}

/* --- what begin names, by the number of its function --- */

void nicp_task(const char *called, uint64_t number, bool is_service);
void nicp_handler(const char *called, uint64_t number, uint16_t group, uint8_t vector, int where);
int nicp_timer(const char *called, uint64_t number, uint32_t within);

void nicp_task(const char *called, uint64_t number, bool is_service)
{
    (is_service ? nicx_service : nicx_task)(called, run, (void *)(uintptr_t)number);
}

void nicp_handler(const char *called, uint64_t number, uint16_t group, uint8_t vector, int where)
{
    nicx_handler(called, group, vector, run, (void *)(uintptr_t)number, where);
}

int nicp_timer(const char *called, uint64_t number, uint32_t within)
{
    return nicx_timer(called, run, (void *)(uintptr_t)number, within);
}

/* --- calls only for scenarios --- */

void nicp_failed(uint8_t outcome, const char *text);
bool nicp_is_in_thread(void);

/* Fails the schedule; the caller continues for now. */
void nicp_failed(uint8_t outcome, const char *text)
{
    nicxi_failed(outcome, "%s", text);
}

bool nicp_is_in_thread(void)
{
    return nicxi_is_in_thread();
}

NICP_CALL(nicp_fail, (uint8_t outcome, const char *text), (nicp_failed(outcome, text), nicxi_leave(), 0))
NICP_CALL(nicp_lend, (uint32_t block), nicx_lend(block))
NICP_CALL(nicp_take, (uint32_t block), nicx_take(block))
NICP_CALL(nicp_settle, (void), (nicx_settle(), 0))
NICP_CALL(nicp_arm, (int timer), (nicx_arm(timer), 0))
NICP_CALL(nicp_disarm, (int timer), nicx_disarm(timer))

/* --- schedules in this process --- */

static uint32_t choose(void *argument, const uint16_t *can, uint32_t count)
{
    (void)argument;
    int64_t answer = nicp_ask(ASK_CHOOSE, (uintptr_t)can, count, 0);
    return answer < 0 ? count : (uint32_t)answer;
}

static void write_point(void *to, uint16_t actor, const struct step *step)
{
    if (actor != NOBODY && !step->is_beside)
        nicxi_write_point(to, actor, step);
}

static FILE *open_text(struct nicp_made *made)
{
    static size_t size;
    memset(made, 0, sizeof *made);
    return open_memstream(&made->text, &size);
}

const char *nicp_run(uint32_t hang, struct nicp_made *made);
const char *nicp_replay(const char *path, bool is_lenient, uint32_t hang, struct nicp_made *made);

/* Runs a schedule in which Python chooses the steps. Returns null, or why it can't run. */
const char *nicp_run(uint32_t hang, struct nicp_made *made)
{
    const nicx_chooser chooser = {choose, NULL};
    FILE *to = open_text(made);
    if (!to)
        return "out of memory";
    nicp_hang = hang;
    nicxi.listener = write_point;
    nicxi.listener_argument = to;
    nicx_run(&chooser, &made->result);
    nicxi.listener = NULL;
    nicp_hang = 0;
    made->is_cut = nicxi.is_cut;
    fclose(to);
    return NULL;
}

/* Replays a schedule from a file. Returns null, or why the file doesn't fit. */
const char *nicp_replay(const char *path, bool is_lenient, uint32_t hang, struct nicp_made *made)
{
    FILE *to = open_text(made);
    if (!to)
        return "out of memory";
    nicp_hang = hang;
    const char *fault = nicxi_follow(to, path, is_lenient, &made->result);
    nicp_hang = 0;
    fclose(to);
    return fault;
}

void nicp_free_text(struct nicp_made *made);

void nicp_free_text(struct nicp_made *made)
{
    free(made->text);
    made->text = NULL;
}

/* --- a search --- */

static void add_line(void *argument, const char *line)
{
    struct nicp_found *found = argument;
    size_t length = strlen(found->never);
    snprintf(found->never + length, sizeof found->never - length, "%s%s", length ? "\n" : "", line);
}

/* Shrinks the failure, and writes its files. */
static void report(const struct options *options, struct failure *failure, struct nicp_found *found)
{
    struct turn turn;
    struct paths paths;
    memset(&turn, 0, sizeof turn);
    nicxi_confirm(options, failure);
    nicxi_where(failure, found->where);
    if (!options->no_shrink && !failure->is_stale && failure->result.outcome != NICX_HANG) {
        nicxi_shrink(options, failure);
        nicxi_find_turn(options, failure, &turn);
    }
    const struct keeping keeping = {options, failure, &turn, options->seed, 0};
    nicxi_keep_failure(&keeping, &paths);
    found->is_there = true;
    found->outcome = failure->result.outcome;
    memcpy(found->words, failure->result.words, sizeof found->words);
}

void nicp_search(int argc, char **argv, struct nicp_found *found);

/* Searches as the arguments of nicx_main say, in a process that ends when its parent does. */
void nicp_search(int argc, char **argv, struct nicp_found *found)
{
    struct options options;
    struct totals totals;
    struct failure failure = {.is_there = false};
    prctl(PR_SET_PDEATHSIG, SIGKILL);
    const char *fault = nicxi_options(argc, argv, &options);
    options.counts_all = true;
    if (!fault)
        fault = nicxi_search(&options, &totals, &failure);
    if (fault) {
        snprintf(found->fault, sizeof found->fault, "%s", fault);
        return;
    }
    found->distinct = totals.distinct;
    found->faults = totals.coverage.faults;
    nicxi_never(&totals.coverage, add_line, found);
    if (failure.is_there)
        report(&options, &failure, found);
    free(failure.schedule);
    free(totals.sketch);
}
