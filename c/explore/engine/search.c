#define _DEFAULT_SOURCE
#include "search.h"

#include <errno.h>
#include <inttypes.h>
#include <stdio.h>
#include <stdlib.h>
#include <string.h>
#include <sys/mman.h>
#include <sys/wait.h>
#include <time.h>
#include <unistd.h>

#include "checkpoint.h"
#include "exhaustive.h"
#include "words.h"

/* The exhaustive search starts without preemptions and raises the bound by one at a time; from SLOWLY onwards, it uses
   the requested bound directly. */
enum {
    TRIED = 16,
    PAUSE = 10000000,
    SLOWLY = 3,
    BOUNDS = SLOWLY + 1,
    RUNS_OF_BOUND = 1 << 24,
    PARTS = 1 << 16, /* the last part and all parts beyond it are counted together */
    RECOUNT = 1024
};

/* Shared by all processes of a search. */
struct common {
    volatile uint64_t lowest; /* the lowest failing run */
    volatile bool stop;
    struct parts parts[BOUNDS];
    volatile uint64_t made[BOUNDS][PARTS]; /* schedules in each part of the exhaustive search */
    struct distinct distinct;
};

struct job {
    const struct options *options;
    struct common *common;
    uint32_t number;
};

double nicxi_now(void)
{
    struct timespec time;
    clock_gettime(CLOCK_MONOTONIC, &time);
    return (double)time.tv_sec + (double)time.tv_nsec * 1e-9;
}

const char *nicxi_where(const struct failure *failure, char room[80])
{
    const char *strategy = nicxi_strategy_name(failure->strategy);
    uint64_t part = failure->run % RUNS_OF_BOUND;
    if (failure->is_trial)
        snprintf(room, 80, "%s before run %" PRIu64, strategy, failure->run);
    else if (failure->strategy != EXHAUSTIVE)
        snprintf(room, 80, "%s in run %" PRIu64, strategy, failure->run);
    else if (failure->preemptions == UNBOUNDED)
        snprintf(room, 80, "%s in part %" PRIu64 " with any number of preemptions", strategy, part);
    else
        snprintf(room, 80, "%s in part %" PRIu64 " with at most %" PRIu32 " preemption%s", strategy, part,
                 failure->preemptions, failure->preemptions == 1 ? "" : "s");
    return room;
}

/* --- in a child process --- */

/* Notes a schedule that ran. Returns whether it failed. */
static bool note(struct post *post, const nicx_result *result)
{
    post->runs++;
    post->points += result->points;
    if (result->outcome == NICX_FINE)
        return false;
    post->result = *result;
    post->is_found = true;
    return true;
}

static bool make(struct post *post, const nicx_chooser *chooser, struct distinct *distinct)
{
    nicx_result result;
    post->is_running = true;
    nicx_run(chooser, &result);
    post->is_running = false;
    if (result.outcome == NICX_FINE)
        nicxi_count_schedule(distinct, post->schedule, result.points);
    return note(post, &result);
}

/* Returns the largest number of points among several random schedules. Priorities change at points below this. */
static uint32_t usual_length(const struct options *options)
{
    struct by_chance state;
    nicx_result result;
    uint32_t most = 1;
    for (uint64_t k = 0; k < TRIED; k++) {
        nicx_chooser chooser = nicxi_by_chance(&state, ~options->seed, k);
        nicx_run(&chooser, &result);
        if (result.points > most)
            most = result.points;
    }
    return most;
}

/* --- random strategies: a run depends only on its number and the options --- */

/* A run: its number, its index among the runs of its strategy, and the usual length of a schedule. */
struct turn {
    const struct options *options;
    uint64_t run, turn;
    uint32_t length;
};

static nicx_chooser random_chooser(const struct turn *it)
{
    static struct by_chance state;
    return nicxi_by_chance(&state, it->options->seed, it->run);
}

/* Mixed cycles through the depths: low ones sooner find failures that need few ordered steps, high ones failures that
   need many. */
static uint32_t depth_of(const struct turn *it)
{
    enum { LEAST = 2, MOST = 6, USUAL = 3 };
    if (it->options->depth)
        return it->options->depth;
    return it->options->strategy == MIXED ? LEAST + (uint32_t)((it->turn + 1) % (MOST - LEAST + 1)) : USUAL;
}

static nicx_chooser priorities_chooser(const struct turn *it)
{
    static struct by_priority state;
    return nicxi_by_priority(&state, it->options->seed, it->run, depth_of(it), it->length);
}

/* Each strategy, the function that creates a run's chooser, and whether it needs the length of schedules. Mixed uses
   the rows in turn. */
static const struct strategy_row {
    enum strategy strategy;
    nicx_chooser (*chooser)(const struct turn *);
    bool needs_length;
} strategies[] = {
    {RANDOM, random_chooser, false},
    {PRIORITIES, priorities_chooser, true},
};
enum { STRATEGIES = sizeof strategies / sizeof *strategies };

/* Returns the row for a run's strategy. */
static const struct strategy_row *row_of(const struct options *options, uint64_t run)
{
    const struct strategy_row *row = &strategies[run % STRATEGIES];
    for (size_t k = 0; k < STRATEGIES; k++)
        if (strategies[k].strategy == options->strategy)
            row = &strategies[k];
    return row;
}

/* Whether the time is up. Each process first runs a schedule, however late it starts: a search that ran none would look
   like one that found nothing. */
static bool is_stopped(const struct job *job, const struct post *post)
{
    return job->common->stop && post->runs;
}

static bool needs_length(const struct options *options)
{
    return options->strategy == MIXED || row_of(options, 0)->needs_length;
}

static void search_by_chance(struct post *post, const struct job *job)
{
    const struct options *options = job->options;
    uint64_t end = options->runs ? options->first + options->runs : UINT64_MAX;
    post->run = options->first;
    post->strategy = RANDOM;
    post->is_trial = true;
    uint32_t length = needs_length(options) ? usual_length(options) : 0;
    post->is_trial = false;
    uint64_t step = (uint64_t)options->jobs * options->shards;
    uint64_t run = options->first + (uint64_t)job->number * options->shards + options->shard;
    for (; run < end; run += step) {
        if (is_stopped(job, post) || run > job->common->lowest)
            return;
        const struct strategy_row *row = row_of(options, run);
        const struct turn turn = {options, run, run / STRATEGIES, length};
        post->run = run;
        post->strategy = (uint8_t)row->strategy;
        nicx_chooser chooser = row->chooser(&turn);
        if (make(post, &chooser, &job->common->distinct))
            return;
    }
}

/* --- the exhaustive search's order: by part, and within a part in the order in which the schedules run --- */

static uint64_t made_of(const struct common *common, uint64_t run)
{
    uint64_t part = run % RUNS_OF_BOUND;
    return common->made[run / RUNS_OF_BOUND][part < PARTS ? part : PARTS - 1];
}

/* Returns the number of schedules run so far in the parts before this one. */
static uint64_t made_before(const struct common *common, uint64_t run)
{
    uint64_t sum = 0, bound = run / RUNS_OF_BOUND, part = run % RUNS_OF_BOUND;
    for (uint64_t k = 0; k <= bound; k++)
        for (uint64_t of = 0; of < PARTS && (of < part || k < bound) && of <= common->parts[k].most; of++)
            sum += common->made[k][of];
    return sum;
}

/* Returns this machine's share of the limit on schedules. */
static uint64_t most_runs(const struct options *options)
{
    return options->runs / options->shards + (options->runs % options->shards != 0);
}

/* Whether the limit on schedules excludes the rest of a part. The schedules before it are counted again from time to
   time, because other processes keep running more. */
static bool is_spent(const struct job *job, const struct post *post)
{
    static uint64_t before, part = UINT64_MAX, counted;
    if (!job->options->runs)
        return false;
    if (part != post->run || post->runs - counted >= RECOUNT) {
        before = made_before(job->common, post->run);
        part = post->run;
        counted = post->runs;
    }
    return before + made_of(job->common, post->run) >= most_runs(job->options);
}

static void count_part(struct common *common, uint64_t run)
{
    uint64_t part = run % RUNS_OF_BOUND, bound = run / RUNS_OF_BOUND;
    volatile uint64_t *made = &common->made[bound][part < PARTS ? part : PARTS - 1];
    if (part == 0) /* (every process runs it) */
        *made = 1;
    else if (part < PARTS - 1)
        ++*made;
    else
        __sync_fetch_and_add(made, 1);
    if (common->parts[bound].most < part)
        common->parts[bound].most = part;
}

static bool make_of_part(struct post *post, const struct job *job, struct exhaustive *state)
{
    nicx_result result;
    nicx_chooser chooser = nicxi_exhaustive_chooser(state);
    nicxi_checkpoints_plan(nicxi_exhaustive_prefix(state));
    post->is_running = true;
    nicx_run(&chooser, &result);
    post->is_running = false;
    if (nicxi_exhaustive_is_glance(state))
        return false;
    if (job->options->counts_all && result.outcome == NICX_FINE)
        nicxi_count_schedule(&job->common->distinct, post->schedule, result.points);
    count_part(job->common, post->run);
    return note(post, &result);
}

/* Runs all schedules within a bound. Runs with a lower bound come before runs with a higher one. Returns false if the
   search is over. */
static bool search_within(struct post *post, const struct job *job, uint32_t preemptions, uint32_t number)
{
    struct parts *parts = &job->common->parts[number];
    struct exhaustive *state = nicxi_exhaustive(preemptions, !job->options->no_sleep, parts, &post->run);
    while (state && nicxi_exhaustive_next(state)) {
        if (is_stopped(job, post) || post->run > job->common->lowest || is_spent(job, post)) {
            nicxi_free_exhaustive(state);
            return false;
        }
        if (make_of_part(post, job, state))
            break;
        nicxi_exhaustive_made(state);
    }
    if (state && nicxi_exhaustive_is_strange(state)) {
        static const nicx_result strange = {
            NICX_MISUSE, 0, 0,
            "a schedule ran differently the second time: begin doesn't initialize all of the driver's state"};
        post->result = strange;
        post->is_found = post->is_stale = true;
    }
    bool is_over = state && !post->is_found;
    nicxi_free_exhaustive(state);
    return is_over;
}

static uint32_t bound_of(const struct options *options, uint32_t number)
{
    return number < SLOWLY && number < options->preemptions ? number : options->preemptions;
}

/* Raises the bound step by step, so the failure found needs as few preemptions as any. */
static void search_all(struct post *post, const struct job *job)
{
    uint32_t most = job->options->preemptions;
    post->strategy = EXHAUSTIVE;
    for (uint32_t number = 0; number < BOUNDS; number++) {
        uint32_t bound = bound_of(job->options, number);
        if (!search_within(post, job, bound, number))
            return;
        post->is_over = bound == most;
        if (post->is_over)
            return;
    }
}

static void work(struct post *post, void *argument)
{
    const struct job *job = argument;
    if (job->options->strategy == EXHAUSTIVE) {
        nicxi_checkpoints_open();
        search_all(post, job);
        nicxi_checkpoints_close();
    } else {
        search_by_chance(post, job);
    }
    if (post->is_found && post->run < job->common->lowest)
        job->common->lowest = post->run;
}

/* --- in the parent --- */

struct search {
    const struct options *options;
    struct totals *totals;
    struct common *common;
    struct post *posts;
    uint32_t living;
    double began, reported;
};

static void sum(struct search *search)
{
    search->totals->runs = search->totals->points = 0;
    for (uint32_t k = 0; k < search->options->jobs; k++) {
        search->totals->runs += search->posts[k].runs;
        search->totals->points += search->posts[k].points;
    }
    search->totals->seconds = nicxi_now() - search->began;
}

/* Adds up the notes from the bring-up and from each process. */
static void sum_notes(struct search *search)
{
    struct notes *all = &search->totals->notes;
    *all = *nicxi.notes;
    search->totals->coverage = *nicxi.coverage;
    for (uint32_t k = 0; k < search->options->jobs; k++) {
        const struct notes *one = &search->posts[k].notes;
        nicxi_cover_more(&search->totals->coverage, &search->posts[k].coverage);
        if (!all->strays && one->strays)
            memcpy(all->stray, one->stray, sizeof all->stray);
        all->strays += one->strays;
        if (!all->beyond)
            all->beyond = one->beyond;
    }
}

static void tell(struct search *search)
{
    double seconds = nicxi_now() - search->began;
    if (search->options->is_quiet || seconds < search->reported + 2)
        return;
    search->reported = seconds;
    sum(search);
    fprintf(stderr, "%s: %" PRIu64 " schedule%s, %.0f s\n", nicxi.scenario->name, search->totals->runs,
            nicxi_s(search->totals->runs), seconds);
}

static void bury(struct search *search, pid_t process, int status)
{
    for (uint32_t k = 0; k < search->options->jobs; k++) {
        struct post *post = &search->posts[k];
        if (post->process != process)
            continue;
        post->process = 0;
        search->living--;
        if (nicxi_ended(post, status) && post->run < search->common->lowest)
            search->common->lowest = post->run;
    }
}

/* Waits only for the search's own processes: the program may have others. */
static void bury_all(struct search *search)
{
    for (uint32_t k = 0; k < search->options->jobs; k++) {
        int status;
        pid_t process = search->posts[k].process;
        if (process > 0 && waitpid(process, &status, WNOHANG) == process)
            bury(search, process, status);
    }
}

static void wait_for_all(struct search *search)
{
    struct timespec pause = {0, PAUSE / 10};
    while (search->living) {
        bury_all(search);
        if (!search->living)
            break;
        if (search->options->seconds && nicxi_now() - search->began >= search->options->seconds)
            search->common->stop = true;
        tell(search);
        nanosleep(&pause, NULL);
        pause.tv_nsec = pause.tv_nsec < PAUSE ? pause.tv_nsec * 2 : PAUSE;
    }
}

/* Whether a failure is within the limit on schedules. Other processes may have run ahead. */
static bool is_within(const struct search *search, const struct post *post)
{
    const struct options *options = search->options;
    if (options->strategy != EXHAUSTIVE || !options->runs || post->is_stale)
        return true;
    uint64_t made = made_before(search->common, post->run) + made_of(search->common, post->run);
    return made + (post->is_running ? 1 : 0) <= most_runs(options);
}

static bool keep_failure(const struct search *search, struct failure *failure)
{
    const struct post *best = NULL;
    for (uint32_t k = 0; k < search->options->jobs; k++) {
        const struct post *post = &search->posts[k];
        if (post->is_found && is_within(search, post) && (!best || post->run < best->run))
            best = post;
    }
    if (!best)
        return true;
    failure->is_there = true;
    failure->is_stale = best->is_stale;
    failure->strategy = (enum strategy)best->strategy;
    failure->run = best->run;
    failure->is_trial = best->is_trial;
    failure->preemptions = bound_of(search->options, (uint32_t)(best->run / RUNS_OF_BOUND));
    failure->result = best->result;
    failure->result.points = best->at;
    failure->schedule = malloc((best->at + 1) * sizeof *failure->schedule);
    if (failure->schedule)
        memcpy(failure->schedule, best->schedule, best->at * sizeof *failure->schedule);
    return failure->schedule != NULL;
}

static bool is_whole(const struct search *search)
{
    for (uint32_t k = 0; k < search->options->jobs; k++)
        if (!search->posts[k].is_over)
            return false;
    return true;
}

static void start_all(struct search *search)
{
    static struct job jobs[256];
    for (uint32_t k = 0; k < search->options->jobs; k++) {
        jobs[k].options = search->options;
        jobs[k].common = search->common;
        jobs[k].number = k;
        if (nicxi_start(&search->posts[k], search->options->hang, work, &jobs[k]))
            search->living++;
    }
}

static struct distinct *sketch_of(const struct search *search)
{
    bool is_asked = search->options->result && search->options->strategy != EXHAUSTIVE;
    struct distinct *sketch = is_asked ? malloc(sizeof *sketch) : NULL;
    if (sketch)
        memcpy(sketch, (const void *)&search->common->distinct, sizeof *sketch);
    return sketch;
}

const char *nicxi_search(const struct options *options, struct totals *totals, struct failure *failure)
{
    struct search search = {options, totals, NULL, NULL, 0, nicxi_now(), 0};
    void *memory = mmap(NULL, sizeof *search.common, PROT_READ | PROT_WRITE, MAP_SHARED | MAP_ANONYMOUS, -1, 0);
    search.posts = nicxi_posts(options->jobs);
    memset(failure, 0, sizeof *failure);
    if (memory == MAP_FAILED || !search.posts)
        return "out of memory for the search";
    search.common = memory;
    search.common->lowest = UINT64_MAX;
    for (uint32_t k = 0; k < BOUNDS; k++) {
        search.common->parts[k].base = (uint64_t)k * RUNS_OF_BOUND;
        search.common->parts[k].shard = options->shard;
        search.common->parts[k].shards = options->shards;
    }
    nicxi_look_for_points(options, &totals->unpointed);
    search.began = nicxi_now();
    start_all(&search);
    const char *fault = search.living == options->jobs ? NULL : "can't start a process";
    if (fault)
        search.common->stop = true;
    wait_for_all(&search);
    sum(&search);
    sum_notes(&search);
    totals->distinct = nicxi_distinct(&search.common->distinct, &totals->is_exact);
    totals->is_whole = is_whole(&search);
    totals->sketch = sketch_of(&search);
    if (!keep_failure(&search, failure))
        fault = "out of memory for the failing schedule";
    munmap(memory, sizeof *search.common);
    nicxi_free_posts(search.posts, options->jobs);
    return fault;
}
