/* The command line of nicx_main. */
#ifndef NICX_OPTIONS_H
#define NICX_OPTIONS_H

#include <stdbool.h>
#include <stdint.h>

enum strategy { MIXED, RANDOM, PRIORITIES, EXHAUSTIVE };

enum { UNBOUNDED = 1000000 };

struct options {
    enum strategy strategy;
    uint64_t runs;  /* maximum number of schedules to run; 0: as many as there are, or as time allows */
    uint64_t first; /* number of the first run */
    uint64_t seed;
    double seconds;       /* time limit; 0: none */
    uint32_t depth;       /* depth of priorities, 1 to 16; 0: the default depths */
    uint32_t preemptions; /* the exhaustive search's bound on preemptions; UNBOUNDED: none */
    uint32_t jobs;        /* processes, 1 to 256 */
    uint32_t shard;       /* the shard to search, from 0 to `shards` - 1 */
    uint32_t shards;      /* machines that share a search, 1 to 65,536 */
    uint32_t hang;        /* seconds without a point after which a task counts as hung */
    uint8_t memory;       /* enum given_memory */
    const char *replay;   /* schedule file to replay, or null */
    const char *out;      /* the folder for output, which must exist */
    const char *junit;    /* JUnit file to write, or null */
    const char *result;   /* result file to write, or null */
    char **merge;         /* result files of other searches, or null */
    uint32_t merge_count;
    const char *points; /* accesses that become points: "memory", "memory:NAME"; or null */
    bool is_quiet, is_strict, is_lenient, no_sleep, no_shrink, wants_help;
    bool counts_all; /* count distinct schedules in the exhaustive search too */
};

/* Parses the arguments. Returns null, or what is wrong with them. */
const char *nicxi_options(int argc, char **argv, struct options *options);

extern const char nicxi_usage[];

const char *nicxi_strategy_name(enum strategy strategy);

#endif
