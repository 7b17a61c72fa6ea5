/* Replaces nicx_main in a test's program: runs the scenario's exhaustive search twice, once with each schedule from its
   start, and once from checkpoints, and compares what each schedule did. `PROGRAM MODE.. PREEMPTIONS SCHEDULES` prints
   how many schedules there were and how many began at a checkpoint; the exit status is 1 if the two searches differ.
   The search restores this file's variables too, so both searches keep theirs on the process's stack. */
#include <inttypes.h>
#include <stdio.h>
#include <stdlib.h>
#include <string.h>

#include "../engine/chance.h"
#include "../engine/checkpoint.h"
#include "../engine/exhaustive.h"
#include "../engine/options.h"
#include "../engine/words.h"

int compared_main(int argc, char **argv, const nicx_scenario *scenario);

enum { APART = 3 };

struct search {
    uint64_t schedules, most, sum, from_checkpoints;
    uint32_t preemptions;
    struct notes notes;
    struct coverage coverage;
};

/* Other fields of a step may have values from earlier schedules. */
static uint64_t sum_of_step(uint64_t sum, const struct step *step)
{
    char words[MOST_WORDS];
    for (const char *at = nicxi_words(step, words); *at; at++)
        sum = chance_mixed(sum, (unsigned char)*at);
    return chance_mixed(chance_mixed(sum, step->waits), chance_mixed(step->touched[0], step->touched[1]));
}

static uint64_t sum_of_schedule(uint64_t sum, const nicx_result *result)
{
    uint32_t points;
    const uint16_t *schedule = nicx_schedule(&points);
    for (uint32_t k = 0; k < points; k++)
        sum = sum_of_step(chance_mixed(sum, schedule[k]), &nicxi.steps[k]);
    for (const char *at = result->words; *at; at++)
        sum = chance_mixed(sum, (unsigned char)*at);
    return chance_mixed(chance_mixed(sum, result->switches), (uint64_t)result->outcome << 32 | result->points);
}

static void search_all(struct search *it, bool from_start)
{
    struct parts parts = {0};
    volatile uint64_t part;
    uint64_t runs = nicxi.epoch;
    memset(nicxi.notes, 0, sizeof *nicxi.notes);
    memset(nicxi.coverage, 0, sizeof *nicxi.coverage);
    nicxi_checkpoints_open();
    nicxi_checkpoints_apart = APART;
    struct exhaustive *state = nicxi_exhaustive(it->preemptions, true, &parts, &part);
    while (state && it->schedules < it->most && nicxi_exhaustive_next(state)) {
        nicx_result result;
        nicx_chooser chooser = nicxi_exhaustive_chooser(state);
        if (!from_start)
            nicxi_checkpoints_plan(nicxi_exhaustive_prefix(state));
        nicx_run(&chooser, &result);
        it->sum = sum_of_schedule(it->sum, &result);
        it->schedules++;
        nicxi_exhaustive_made(state);
    }
    if (!state || nicxi_exhaustive_is_strange(state))
        it->sum = UINT64_MAX - from_start;
    nicxi_free_exhaustive(state);
    nicxi_checkpoints_close();
    it->from_checkpoints = it->schedules - (nicxi.epoch - runs);
    it->notes = *nicxi.notes;
    it->coverage = *nicxi.coverage;
}

static bool are_equal(const struct search *a, const struct search *b)
{
    return a->schedules == b->schedules && a->sum == b->sum && !memcmp(&a->notes, &b->notes, sizeof a->notes) &&
           !memcmp(&a->coverage, &b->coverage, sizeof a->coverage) && !a->from_checkpoints;
}

int compared_main(int argc, char **argv, const nicx_scenario *scenario)
{
    struct search from_start, from_checkpoints;
    memset(&from_start, 0, sizeof from_start);
    from_start.most = strtoull(argv[argc - 1], NULL, 10);
    from_start.preemptions = (uint32_t)strtoul(argv[argc - 2], NULL, 10);
    from_checkpoints = from_start;
    const char *why = nicx_open(scenario);
    if (why) {
        fprintf(stderr, "%s: %s\n", scenario->name, why);
        return 2;
    }
    search_all(&from_start, true);
    search_all(&from_checkpoints, false);
    bool are = are_equal(&from_start, &from_checkpoints);
    printf("%s: %" PRIu64 " schedules, %" PRIu64 " from checkpoints, %s\n", scenario->name, from_start.schedules,
           from_checkpoints.from_checkpoints, are ? "equal" : "NOT EQUAL");
    return are ? 0 : 1;
}
