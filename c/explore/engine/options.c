#define _DEFAULT_SOURCE
#include "options.h"

#include <errno.h>
#include <stdio.h>
#include <stdlib.h>
#include <string.h>
#include <unistd.h>

#include "parts.h"
#include "strategy.h"
#include "weak.h"
#include "words.h"

const char nicxi_usage[] =
    "usage: %s [options]\n"
    "Searches for a schedule of scenario %s that fails. Status 0: none failed; 1: one failed; 2: the arguments, the\n"
    "scenario or a schedule file can't be used; 3: with --strict, part of the scenario never ran.\n"
    "  --strategy NAME    random, priorities, exhaustive, or mixed: random and priorities alternately (mixed)\n"
    "  --runs N           at most N schedules (10,000; for the exhaustive search, all)\n"
    "  --seconds S        at most S seconds, but at least one schedule in each process\n"
    "  --seed N           seed for the random choices (1)\n"
    "  --first N          number of the first run (0); with --runs 1, repeats that run alone\n"
    "  --depth D          for priorities: they change at D - 1 points, D from 1 to 16 (3; for mixed, 2 to 6 in turn)\n"
    "  --preemptions N    for the exhaustive search: at most N preemptions; any: no limit (2)\n"
    "  --no-sleep         for the exhaustive search: also tries each order of independent steps\n"
    "  --jobs N           number of processes, 1 to 256 (one for each core)\n"
    "  --shard K/N        searches part K of N, counted from 1, if N machines share a search; N up to 65,536 (1/1)\n"
    "  --memory KIND      weak: stores to lent memory and the driver's own atomic stores may be late, and loads of\n"
    "                     lent memory may be old; tso: stores may be late but stay in order, as on x86; strong:\n"
    "                     neither (the scenario's model, otherwise strong)\n"
    "  --points memory    adds a point at each known access to the driver's own memory; memory:NAME: only at accesses\n"
    "                     to that variable or in that function\n"
    "  --hang S           a task that reaches no point for S seconds counts as hung (10)\n"
    "  --out FOLDER       the folder for a failure's files (.)\n"
    "  --junit FILE       writes the result as JUnit XML\n"
    "  --result FILE      writes what was searched and found, for --merge\n"
    "  --merge FILE ..    merges the results of several searches instead of searching\n"
    "  --no-shrink        reports a failing schedule as it was found\n"
    "  --replay FILE      replays one schedule exactly, in this process, and prints each point\n"
    "  --lenient          with --replay: follows the schedule as far as possible, and reports where a changed driver\n"
    "                     departs from it\n"
    "  --strict           exits with status 3 if part of the scenario never ran\n"
    "  --quiet            prints no progress\n"
    "  --help             prints this text\n";

const char *nicxi_strategy_name(enum strategy strategy)
{
    static const char *const names[] = {"mixed", "random", "priorities", "exhaustive"};
    return names[strategy];
}

static const char *refused(const char *word, const char *what)
{
    return nicxi_why("%.60s: %s", *word ? word : "\"\"", what);
}

static const char *without_word(const char *word)
{
    return refused(word, "missing value");
}

/* --- one option --- */

static const char *take_number(const char *word, const char *text, uint64_t least, uint64_t most, uint64_t *number)
{
    char *end, range[80];
    if (!*text)
        return without_word(word);
    errno = 0;
    unsigned long long value = strtoull(text, &end, 10);
    if (*text >= '0' && *text <= '9' && !*end && !errno && value >= least && value <= most) {
        *number = value;
        return NULL;
    }
    snprintf(range, sizeof range, "\"%.20s\" isn't a number from %llu to %llu", text, (unsigned long long)least,
             (unsigned long long)most);
    return refused(word, range);
}

static const char *take_small(const char *word, const char *text, uint32_t least, uint32_t most, uint32_t *number)
{
    uint64_t value;
    const char *fault = take_number(word, text, least, most, &value);
    if (!fault)
        *number = (uint32_t)value;
    return fault;
}

static const char *take_seconds(const char *word, const char *text, double *seconds)
{
    char *end, range[80];
    if (!*text)
        return without_word(word);
    double value = strtod(text, &end);
    if (strspn(text, "0123456789.e-+") == strlen(text) && !*end && value > 0 && value <= 1e9) {
        *seconds = value;
        return NULL;
    }
    snprintf(range, sizeof range, "\"%.20s\" isn't a number of seconds above 0 and up to 1000000000", text);
    return refused(word, range);
}

static const char *take_shard(const char *word, const char *text, struct options *options)
{
    char first[12];
    const char *slash = strchr(text, '/');
    uint32_t shard = 0, shards = 0;
    if (!*text)
        return without_word(word);
    if (!slash || slash - text >= (int)sizeof first)
        return refused(word, "expected K/N, for example 1/4");
    snprintf(first, sizeof first, "%.*s", (int)(slash - text), text);
    const char *fault = !slash[1] ? "" : take_small(word, slash + 1, 1, 65536, &shards);
    if (!fault)
        fault = !*first ? "" : take_small(word, first, 1, shards, &shard);
    if (fault)
        return *fault ? fault : refused(word, "expected K/N, for example 1/4");
    options->shard = shard - 1;
    options->shards = shards;
    return NULL;
}

static const char *take_strategy(const char *text, struct options *options)
{
    if (!*text)
        return without_word("--strategy");
    for (int k = MIXED; k <= EXHAUSTIVE; k++)
        if (!strcmp(text, nicxi_strategy_name((enum strategy)k))) {
            options->strategy = (enum strategy)k;
            return NULL;
        }
    return refused("--strategy", "expected random, priorities, exhaustive or mixed");
}

static const char *take_preemptions(const char *word, const char *text, struct options *options)
{
    if (!strcmp(text, "any")) {
        options->preemptions = UNBOUNDED;
        return NULL;
    }
    return take_small(word, text, 0, 1000, &options->preemptions);
}

static const char *take_memory(const char *word, const char *text, struct options *options)
{
    if (!*text)
        return without_word(word);
    for (enum given_memory memory = STRONG; memory <= TSO; memory++)
        if (!strcmp(text, nicxi_memory_word(memory))) {
            options->memory = memory;
            return NULL;
        }
    return refused(word, "expected weak, tso or strong");
}

static const char *take_name(const char *word, const char *text, const char **name)
{
    *name = text;
    return *text ? NULL : without_word(word);
}

static const char *take_points(const char *word, const char *text, struct options *options)
{
    options->points = text;
    if (!*text)
        return without_word(word);
    if (!nicxi_are_points(text))
        return refused(word, "expected memory, or memory:NAME with a variable or a function");
    return NULL;
}

static const char *take_value(const char *word, const char *text, struct options *options)
{
    if (!strcmp(word, "--strategy"))
        return take_strategy(text, options);
    if (!strcmp(word, "--runs"))
        return take_number(word, text, 1, (uint64_t)1 << 62, &options->runs);
    if (!strcmp(word, "--first"))
        return take_number(word, text, 0, (uint64_t)1 << 62, &options->first);
    if (!strcmp(word, "--seed"))
        return take_number(word, text, 0, UINT64_MAX, &options->seed);
    if (!strcmp(word, "--seconds"))
        return take_seconds(word, text, &options->seconds);
    if (!strcmp(word, "--depth"))
        return take_small(word, text, 1, MOST_DEPTH, &options->depth);
    if (!strcmp(word, "--preemptions"))
        return take_preemptions(word, text, options);
    if (!strcmp(word, "--jobs"))
        return take_small(word, text, 1, 256, &options->jobs);
    if (!strcmp(word, "--shard"))
        return take_shard(word, text, options);
    if (!strcmp(word, "--memory"))
        return take_memory(word, text, options);
    if (!strcmp(word, "--hang"))
        return take_small(word, text, 1, 86400, &options->hang);
    if (!strcmp(word, "--out"))
        return take_name(word, text, &options->out);
    if (!strcmp(word, "--junit"))
        return take_name(word, text, &options->junit);
    if (!strcmp(word, "--result"))
        return take_name(word, text, &options->result);
    if (!strcmp(word, "--points"))
        return take_points(word, text, options);
    if (!strcmp(word, "--replay"))
        return take_name(word, text, &options->replay);
    return refused(word, "no such option");
}

static bool take_flag(const char *word, struct options *options)
{
    if (!strcmp(word, "--quiet"))
        options->is_quiet = true;
    else if (!strcmp(word, "--strict"))
        options->is_strict = true;
    else if (!strcmp(word, "--lenient"))
        options->is_lenient = true;
    else if (!strcmp(word, "--no-sleep"))
        options->no_sleep = true;
    else if (!strcmp(word, "--no-shrink"))
        options->no_shrink = true;
    else if (!strcmp(word, "--help"))
        options->wants_help = true;
    else
        return false;
    return true;
}

static void set_usual(struct options *options)
{
    long cores = sysconf(_SC_NPROCESSORS_ONLN);
    memset(options, 0, sizeof *options);
    options->seed = 1;
    options->preemptions = 2;
    options->hang = 10;
    options->shards = 1;
    options->out = ".";
    options->jobs = cores < 1 ? 1 : cores > 256 ? 256 : (uint32_t)cores;
}

/* The files are all arguments up to the next option. Returns how many arguments the option takes in total. */
static int take_merge(int argc, char **argv, int at, struct options *options)
{
    int end = at + 1;
    while (end < argc && strncmp(argv[end], "--", 2) != 0)
        end++;
    options->merge = argv + at + 1;
    options->merge_count = (uint32_t)(end - at - 1);
    return end - at;
}

const char *nicxi_options(int argc, char **argv, struct options *options)
{
    set_usual(options);
    for (int k = 1; k < argc; k++) {
        if (take_flag(argv[k], options))
            continue;
        if (!strcmp(argv[k], "--merge")) {
            k += take_merge(argc, argv, k, options) - 1;
            if (!options->merge_count)
                return without_word("--merge");
            continue;
        }
        if (strncmp(argv[k], "--", 2) != 0)
            return refused(argv[k], "no such option");
        const char *fault = take_value(argv[k], k + 1 < argc ? argv[k + 1] : "", options);
        if (fault)
            return fault;
        k++;
    }
    if (options->is_lenient && !options->replay)
        return refused("--lenient", "only valid with --replay");
    if (!options->runs && !options->seconds && options->strategy != EXHAUSTIVE)
        options->runs = 10000;
    return NULL;
}
