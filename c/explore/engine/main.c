/* A whole program: searches, and reports the result. */
#define _DEFAULT_SOURCE
#include <inttypes.h>
#include <stdio.h>
#include <stdlib.h>
#include <string.h>
#include <sys/stat.h>
#include <unistd.h>

#include "junit.h"
#include "merge.h"
#include "parts.h"
#include "replay.h"
#include "tell.h"
#include "weak.h"
#include "words.h"

enum { NOTHING = 0, FAILURE = 1, REFUSED = 2, VACUOUS = 3 };

static int refuse(const nicx_scenario *scenario, const char *why)
{
    fprintf(stderr, "%s: %s\n", scenario->name ? scenario->name : "nicx", why);
    return REFUSED;
}

static bool cant_write(const char *path)
{
    fprintf(stderr, "%s: can't write the file\n", path);
    return false;
}

/* --- a search --- */

static void show(const struct options *options, struct failure *failure, const char *program, struct paths *paths)
{
    struct turn turn;
    nicx_result found = failure->result;
    nicxi_confirm(options, failure);
    uint32_t tries = options->no_shrink || failure->is_stale ? 0 : nicxi_shrink(options, failure);
    nicxi_find_turn(options, failure, &turn);
    const struct keeping keeping = {options, failure, &turn, options->seed, 0};
    nicxi_keep_failure(&keeping, paths);
    nicxi_tell_failure(failure, &found, tries, &turn);
    nicxi_tell_files(failure, paths, program);
}

static bool write_result(const struct options *options, const struct totals *totals, const struct failure *failure)
{
    struct result result = {*options, *totals, *failure, totals->sketch};
    return !options->result || nicxi_write_result(options->result, &result) || cant_write(options->result);
}

static bool write_junit(const struct junit *junit)
{
    return !junit->options->junit || nicxi_write_junit(junit) || cant_write(junit->options->junit);
}

static int search(const struct options *options, const char *program)
{
    static struct paths paths;
    struct totals totals;
    struct failure failure;
    const char *fault = nicxi_search(options, &totals, &failure);
    if (fault)
        return refuse(nicxi.scenario, fault);
    nicxi_tell_totals(options, &totals);
    nicxi_tell_notes(stdout, &totals.notes);
    if (failure.is_there)
        show(options, &failure, program, &paths);
    bool has_distinct = options->strategy != EXHAUSTIVE;
    int status = failure.is_there ? FAILURE : nicxi_tell_nothing(options, &totals, has_distinct) ? VACUOUS : NOTHING;
    const struct junit_failure reported = {&failure.result, paths.schedule};
    const struct junit junit = {options,   &totals,         has_distinct, nicxi_strategy_name(options->strategy),
                                &reported, failure.is_there};
    if (!write_junit(&junit) || !write_result(options, &totals, &failure))
        status = REFUSED;
    free(failure.schedule);
    free(totals.sketch);
    return status;
}

/* --- merged results --- */

static void tell_merged(const struct merged *merged)
{
    const char *name = nicxi.scenario->name;
    const struct totals *totals = &merged->sum.totals;
    double longest = merged->longest > 0 ? merged->longest : 1e-3;
    printf("%s: %" PRIu32 " result%s, %" PRIu64 " schedule%s, %" PRIu64 " point%s, %.1f s in total, the longest %.1f s"
           " (%.0f schedules per second if they ran in parallel)\n",
           name, merged->results, nicxi_s(merged->results), totals->runs, nicxi_s(totals->runs), totals->points,
           nicxi_s(totals->points), totals->seconds, merged->longest, (double)totals->runs / longest);
    if (*merged->missing)
        printf("%s: note: missing shards: %s\n", name, merged->missing);
    if (totals->is_whole && merged->sum.options.strategy == EXHAUSTIVE)
        printf("%s: searched all schedules\n", name);
}

/* Reports a cause. The failure was already shrunk by the search that found it. */
static void show_cause(const struct options *options, struct cause *cause, uint32_t number, const char *program,
                       struct paths *paths)
{
    struct turn turn;
    nicx_result found = cause->failure.result;
    bool is_elsewhere = !cause->failure.is_stale && !nicxi_fails(options, &cause->failure);
    memset(&turn, 0, sizeof turn);
    if (!is_elsewhere)
        nicxi_find_turn(options, &cause->failure, &turn);
    const struct keeping keeping = {options, &cause->failure, &turn, cause->seed, number};
    nicxi_keep_failure(&keeping, paths);
    nicxi_tell_failure(&cause->failure, &found, 0, &turn);
    printf("%s: fails in %" PRIu32 " results; this schedule is from %s\n", nicxi.scenario->name, cause->count,
           cause->path);
    if (is_elsewhere)
        printf("%s: this program doesn't reproduce the failure: the schedule is %s\n", nicxi.scenario->name,
               paths->schedule);
    else
        nicxi_tell_files(&cause->failure, paths, program);
}

static int show_merged(const struct options *options, struct merged *merged, const char *program)
{
    const char *fault = NULL;
    struct paths *paths = calloc(merged->cause_count + 1, sizeof *paths);
    struct junit_failure *reported = calloc(merged->cause_count + 1, sizeof *reported);
    for (uint32_t k = 0; paths && reported && k < merged->cause_count; k++) {
        show_cause(options, &merged->causes[k], k, program, &paths[k]);
        reported[k].result = &merged->causes[k].failure.result;
        reported[k].schedule = paths[k].schedule;
    }
    int status = merged->cause_count                                                              ? FAILURE
                 : nicxi_tell_nothing(options, &merged->sum.totals, merged->sum.distinct != NULL) ? VACUOUS
                                                                                                  : NOTHING;
    const struct junit junit = {options,  &merged->sum.totals, merged->sum.distinct != NULL, "merged",
                                reported, merged->cause_count};
    if (!paths || !reported)
        fault = "out of memory";
    if (fault || !write_junit(&junit))
        status = fault ? refuse(nicxi.scenario, fault) : REFUSED;
    free(paths);
    free(reported);
    return status;
}

static int merge(const struct options *options, const char *program)
{
    struct merged merged;
    const char *fault = nicxi_merge(options->merge, options->merge_count, &merged);
    int status = REFUSED;
    if (fault) {
        fprintf(stderr, "%s\n", fault);
    } else {
        tell_merged(&merged);
        nicxi_tell_notes(stdout, &merged.sum.totals.notes);
        status = show_merged(options, &merged, program);
    }
    nicxi_free_merged(&merged);
    return status;
}

/* --- arguments --- */

static bool is_folder(const char *path)
{
    struct stat about;
    return stat(path, &about) == 0 && S_ISDIR(about.st_mode) && access(path, W_OK) == 0;
}

/* Whether the file can be written: it is writable, or its folder is. */
static bool is_writable(const char *path)
{
    struct stat about;
    char folder[MOST_PATH];
    const char *slash = strrchr(path, '/');
    if (stat(path, &about) == 0)
        return !S_ISDIR(about.st_mode) && access(path, W_OK) == 0;
    int length = snprintf(folder, sizeof folder, "%.*s", slash ? (int)(slash - path) + 1 : 1, slash ? path : ".");
    return length < MOST_PATH && is_folder(folder);
}

static const char *unwritable(const char *word, const char *path)
{
    return nicxi_why("%s: can't write %.60s", word, path);
}

/* Returns null, or why the files of a search couldn't be written. */
static const char *look_at_files(const struct options *options, const char *name)
{
    if (!is_folder(options->out))
        return "--out: no such folder, or it isn't writable";
    if (strlen(options->out) + strlen(name) + sizeof "/.schedule" > MOST_PATH)
        return "--out: the folder's path is too long";
    if (options->junit && !is_writable(options->junit))
        return unwritable("--junit", options->junit);
    return options->result && !is_writable(options->result) ? unwritable("--result", options->result) : NULL;
}

static const char *ask_for_points(const struct options *options)
{
    const char *fault = options->points ? nicxi_ask_for_points(options->points) : NULL;
    return fault ? nicxi_why("--points: %s", fault) : NULL;
}

int nicx_main(int argc, char **argv, const nicx_scenario *scenario)
{
    struct options options;
    const char *name = scenario->name ? scenario->name : "nicx";
    const char *fault = nicxi_options(argc, argv, &options);
    if (fault) {
        fprintf(stderr, "%s: %s\n", name, fault);
        fprintf(stderr, nicxi_usage, argv[0], name);
        return REFUSED;
    }
    if (options.wants_help) {
        printf(nicxi_usage, argv[0], name);
        return NOTHING;
    }
    fault = ask_for_points(&options);
    if (!fault && !options.replay)
        fault = look_at_files(&options, name);
    if (fault)
        return refuse(scenario, fault);
    nicxi_give_memory((enum given_memory)options.memory);
    fault = nicx_open(scenario);
    nicxi_give_memory(AS_SCENARIO);
    if (fault)
        return refuse(scenario, fault);
    int status = options.replay  ? nicxi_replay(options.replay, options.is_lenient)
                 : options.merge ? merge(&options, argv[0])
                                 : search(&options, argv[0]);
    nicx_close();
    return status;
}
