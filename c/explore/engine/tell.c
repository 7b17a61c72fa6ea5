#include "tell.h"

#include <inttypes.h>
#include <stdio.h>

#include "parts.h"
#include "words.h"

enum { MOST_UNPOINTED_LIST = 1024 };

const char *nicxi_form_options = "nic82599_threads.opts";
const char *nicxi_to_be_seen;

static void tell_never(void *argument, const char *line)
{
    fprintf(argument, "%s: note: %s\n", nicxi.scenario->name, line);
}

/* If an option ended an exhaustive search early, the search covered only part of the schedules. */
static void tell_part(const struct options *options, const struct totals *totals)
{
    const char *by = "";
    if (options->strategy == EXHAUSTIVE && options->seconds > 0 && totals->seconds >= options->seconds)
        by = ": --seconds ended the search";
    else if (options->strategy == EXHAUSTIVE && options->runs)
        by = ": --runs ended the search";
    printf("%s: didn't search all schedules%s\n", nicxi.scenario->name, by);
}

/* Reports a search that found nothing: how much it covered, and what never happened. Returns whether --strict makes
   that a failure. */
bool nicxi_tell_nothing(const struct options *options, const struct totals *totals, bool has_distinct)
{
    const char *name = nicxi.scenario->name;
    const struct coverage *coverage = &totals->coverage;
    bool allows_faults = (nicxi.scenario->allowed & NICX_FAULTS) != 0;
    if (has_distinct)
        printf("%s: %s%" PRIu64 " distinct schedule%s\n", name, totals->is_exact ? "" : "about ", totals->distinct,
               nicxi_s(totals->distinct));
    else if (!totals->is_whole)
        tell_part(options, totals);
    if (coverage->faults)
        printf("%s: note: %" PRIu64 " fault%s, which %s allowed; the first: %s\n", name, coverage->faults,
               nicxi_s(coverage->faults), coverage->faults == 1 ? "is" : "are", coverage->fault);
    else if (allows_faults)
        printf("%s: note: faults are allowed, but none occurred\n", name);
    uint32_t never = nicxi_never(coverage, tell_never, stdout);
    bool fails = never && options->is_strict;
    printf("%s: no failure was found%s\n", name, fails ? ", but part of the scenario never ran (--strict)" : "");
    return fails;
}

/* Prints the first line of the report, if the search doesn't see everything that the driver's threads do. */
static void tell_unseen(void)
{
    char words[MOST_WORDS];
    static const char unseen[] = "the search can't see plain accesses and atomics, so it misses bugs in their order";
    if (!nicxi_races && nicxi_to_be_seen)
        printf("%s: %s: %s\n", nicxi.scenario->name, unseen, nicxi_to_be_seen);
    else if (nicxi_races && nicxi_races->unseen)
        printf("%s: %s: %s\n", nicxi.scenario->name, unseen, nicxi_races->unseen);
    else if (!nicxi_races)
        printf("%s: %s: compile with -fsanitize=thread%s%s\n", nicxi.scenario->name, unseen,
               nicxi_form ? "" : " and link with @", nicxi_form ? "" : nicxi_form_options);
    else if (nicxi_form && nicxi_form->assembly(words, sizeof words))
        printf("%s: the search can't see inline assembly, so %s orders nothing: use atomic_thread_fence, a C11 or "
               "compiler atomic, or nicx_mb instead\n",
               nicxi.scenario->name, words);
}

static void tell_unpointed(const struct unpointed_list *found)
{
    char words[MOST_UNPOINTED_LIST];
    for (uint32_t k = 0; k < found->count; k++) {
        nicxi_unpointed_words(&found->list[k], words, sizeof words);
        printf("%s: note: %s: call nicx_point() in between, or compile with -fsanitize=thread and link with "
               "@%s\n",
               nicxi.scenario->name, words, nicxi_form_options);
    }
}

void nicxi_tell_totals(const struct options *options, const struct totals *totals)
{
    double seconds = totals->seconds > 0 ? totals->seconds : 1e-9;
    tell_unseen();
    tell_unpointed(&totals->unpointed);
    printf("%s: %" PRIu64 " schedule%s, %" PRIu64 " point%s, %.1f s (%.0f schedules per second), %s, seed %" PRIu64
           "\n",
           nicxi.scenario->name, totals->runs, nicxi_s(totals->runs), totals->points, nicxi_s(totals->points),
           totals->seconds, (double)totals->runs / seconds, nicxi_strategy_name(options->strategy), options->seed);
    if (options->strategy != EXHAUSTIVE || !totals->is_whole)
        return;
    printf("%s: searched all schedules", nicxi.scenario->name);
    if (options->preemptions != UNBOUNDED)
        printf(" with at most %" PRIu32 " preemption%s", options->preemptions, nicxi_s(options->preemptions));
    if (options->shards > 1)
        printf(" of shard %" PRIu32 "/%" PRIu32, options->shard + 1, options->shards);
    printf("\n");
}

static uint32_t count_of(const bool *list, uint32_t length)
{
    uint32_t count = 0;
    for (uint32_t k = 0; k < length; k++)
        count += list[k];
    return count;
}

/* Prints what shrinking left out, such as ", without 1 task, 3 frames". */
static void tell_omitted(const struct omitted *omitted)
{
    const struct {
        const char *name;
        uint32_t count;
    } kinds[] = {
        {"task", count_of(omitted->threads, NICX_TASKS)},
        {"handler", count_of(omitted->threads + NICX_TASKS, NICX_HANDLERS)},
        {"frame", count_of(omitted->frames, NICX_FRAMES)},
        {"link change", count_of(omitted->links, NICX_FRAMES)},
    };
    const char *before = ", without";
    for (uint32_t k = 0; k < sizeof kinds / sizeof *kinds; k++) {
        if (!kinds[k].count)
            continue;
        if (k == 3 && kinds[k].count > 1)
            printf("%s %" PRIu32 " link changes", before, kinds[k].count);
        else
            printf("%s %" PRIu32 " %s%s", before, kinds[k].count, kinds[k].name, kinds[k].count > 1 ? "s" : "");
        before = ",";
    }
}

static void tell_turn(const struct turn *turn)
{
    char words[MOST_TURN];
    if (nicxi_fails_always(turn))
        printf("%s: %s\n", nicxi.scenario->name, nicxi_turn_words(turn, words));
    if (turn->kind == TURN_FOUND)
        printf("%s: point of no return: point %" PRIu32 ": if %s there instead, the run could still succeed\n",
               nicxi.scenario->name, turn->point, nicxi_turn_other(turn, words));
}

void nicxi_tell_failure(const struct failure *failure, const nicx_result *found, uint32_t tries,
                        const struct turn *turn)
{
    char where[80];
    const char *name = nicxi.scenario->name;
    printf("%s: FAILED %s: %s\n", name, nicxi_outcome_name(failure->result.outcome), failure->result.words);
    printf("%s: found by %s, %" PRIu32 " point%s and %" PRIu32 " switch%s", name, nicxi_where(failure, where),
           found->points, nicxi_s(found->points), found->switches, found->switches == 1 ? "" : "es");
    if (tries) /* a schedule with fewer switches may have more points */
        printf("; %s in %" PRIu32 " %s to %" PRIu32 " and %" PRIu32,
               failure->result.points > found->points ? "reordered" : "shrunk", tries, tries == 1 ? "try" : "tries",
               failure->result.points, failure->result.switches);
    if (failure->cycle)
        printf(", the last %" PRIu32 " points repeating", failure->cycle);
    tell_omitted(&failure->omitted);
    printf("\n");
    tell_turn(turn);
}

void nicxi_tell_files(const struct failure *failure, const struct paths *paths, const char *program)
{
    const char *name = nicxi.scenario->name;
    printf("%s: the schedule is %s, the script for nicbench is %s, the page is %s\n", name, paths->schedule,
           paths->script, paths->page);
    if (failure->is_stale)
        printf("%s: the schedule doesn't fail by itself: to find the failure again, use the same options and number of "
               "processes\n",
               name);
    else
        printf("%s: again: %s --replay %s\n", name, program, paths->schedule);
}
