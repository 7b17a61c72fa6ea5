#include "merge.h"

#include <inttypes.h>
#include <stdio.h>
#include <stdlib.h>
#include <string.h>

#include "shrink.h"
#include "words.h"

/* --- which results belong together --- */

static bool are_of_one_search(const struct options *a, const struct options *b)
{
    return a->strategy == b->strategy && a->seed == b->seed && a->first == b->first && a->runs == b->runs &&
           a->depth == b->depth && a->preemptions == b->preemptions && a->no_sleep == b->no_sleep &&
           a->shards == b->shards;
}

/* The results must be different shards of one search, or different searches. */
static const char *check_shards(char **paths, const struct options *all, uint32_t count)
{
    for (uint32_t k = 0; k < count; k++)
        for (uint32_t of = 0; of < k; of++)
            if (are_of_one_search(&all[k], &all[of]) && all[k].shard == all[of].shard)
                return nicxi_why("%.400s: shard %u/%u of this search is also in %.400s", paths[k],
                                 (unsigned)all[k].shard + 1, (unsigned)all[k].shards, paths[of]);
    return NULL;
}

static bool has_shard(const struct options *all, uint32_t count, uint32_t shard)
{
    for (uint32_t k = 0; k < count; k++)
        if (all[k].shard == shard)
            return true;
    return false;
}

/* If all results belong to one search, notes its missing shards. */
static void note_missing(struct merged *merged, const struct options *all, uint32_t count)
{
    size_t length = 0;
    uint32_t missing = 0;
    merged->is_one = true;
    for (uint32_t k = 1; k < count; k++)
        merged->is_one = merged->is_one && are_of_one_search(&all[0], &all[k]);
    for (uint32_t shard = 0; merged->is_one && shard < all[0].shards; shard++) {
        if (has_shard(all, count, shard))
            continue;
        if (length + 40 < sizeof merged->missing)
            length += (size_t)snprintf(merged->missing + length, sizeof merged->missing - length, "%s%" PRIu32,
                                       missing ? ", " : "", shard + 1);
        missing++;
    }
    if (missing)
        snprintf(merged->missing + length, sizeof merged->missing - length, " (%" PRIu32 " of %" PRIu32 ")", missing,
                 all[0].shards);
}

/* --- sums --- */

static void add_totals(struct totals *sum, const struct totals *one)
{
    sum->runs += one->runs;
    sum->points += one->points;
    sum->seconds += one->seconds;
    sum->is_whole = sum->is_whole && one->is_whole;
    if (!sum->notes.strays && one->notes.strays)
        memcpy(sum->notes.stray, one->notes.stray, sizeof sum->notes.stray);
    sum->notes.strays += one->notes.strays;
    if (!sum->notes.beyond)
        sum->notes.beyond = one->notes.beyond;
    nicxi_cover_more(&sum->coverage, &one->coverage);
}

/* If one count is an estimate, so is the sum. */
static void add_distinct(struct distinct *sum, const struct distinct *one)
{
    bool is_exact = false;
    nicxi_distinct(one, &is_exact);
    for (uint32_t k = 0; is_exact && k < 2 * EXACT; k++)
        if (one->table[k])
            nicxi_count_bits(sum, one->table[k]);
    for (uint32_t k = 0; k < RANKS; k++)
        if (one->ranks[k] > sum->ranks[k])
            sum->ranks[k] = one->ranks[k];
    if (!is_exact)
        sum->count = EXACT + 1;
}

/* --- failures --- */

static struct cause *cause_of(const struct merged *merged, const struct failure *failure)
{
    for (uint32_t k = 0; k < merged->cause_count; k++)
        if (nicxi_is_the_same(&merged->causes[k].failure.result, &failure->result) &&
            merged->causes[k].failure.is_stale == failure->is_stale)
            return &merged->causes[k];
    return NULL;
}

/* Moves a failure out of its result if no earlier failure has the same cause, or if this one's run is lower. */
static bool add_failure(struct merged *merged, struct result *result, const char *path)
{
    if (!result->failure.is_there)
        return true;
    struct cause *cause = cause_of(merged, &result->failure);
    if (!cause) {
        cause = realloc(merged->causes, (merged->cause_count + 1) * sizeof *cause);
        if (!cause)
            return false;
        merged->causes = cause;
        cause = &merged->causes[merged->cause_count++];
        memset(cause, 0, sizeof *cause);
        cause->failure.run = UINT64_MAX;
    }
    cause->count++;
    if (result->failure.run >= cause->failure.run)
        return true;
    free(cause->failure.schedule);
    cause->failure = result->failure;
    cause->path = path;
    cause->seed = result->options.seed;
    result->failure.schedule = NULL;
    return true;
}

static const char *add_result(struct merged *merged, char *path, struct options *options)
{
    struct result one;
    const char *fault = nicxi_read_result(path, &one);
    if (!fault) {
        if (!merged->results++) {
            merged->sum.options = one.options;
            merged->sum.totals.is_whole = true;
        }
        *options = one.options;
        add_totals(&merged->sum.totals, &one.totals);
        if (one.totals.seconds > merged->longest)
            merged->longest = one.totals.seconds;
        if (one.distinct && !merged->sum.distinct)
            merged->sum.distinct = calloc(1, sizeof *merged->sum.distinct);
        if (one.distinct && merged->sum.distinct)
            add_distinct(merged->sum.distinct, one.distinct);
        if (!add_failure(merged, &one, path) || (one.distinct && !merged->sum.distinct))
            fault = "out of memory";
    }
    nicxi_free_result(&one);
    return fault;
}

const char *nicxi_merge(char **paths, uint32_t count, struct merged *merged)
{
    struct options *all = calloc(count, sizeof *all);
    const char *fault = all ? NULL : "out of memory";
    memset(merged, 0, sizeof *merged);
    for (uint32_t k = 0; k < count && !fault; k++)
        fault = add_result(merged, paths[k], &all[k]);
    if (!fault)
        fault = check_shards(paths, all, count);
    if (!fault)
        note_missing(merged, all, count);
    merged->sum.totals.is_whole = merged->sum.totals.is_whole && merged->is_one && !*merged->missing;
    if (merged->sum.distinct)
        merged->sum.totals.distinct = nicxi_distinct(merged->sum.distinct, &merged->sum.totals.is_exact);
    free(all);
    return fault;
}

void nicxi_free_merged(struct merged *merged)
{
    for (uint32_t k = 0; k < merged->cause_count; k++)
        free(merged->causes[k].failure.schedule);
    free(merged->causes);
    nicxi_free_result(&merged->sum);
    memset(merged, 0, sizeof *merged);
}
