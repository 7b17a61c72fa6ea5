/* Merges the results of several searches into one. */
#ifndef NICX_MERGE_H
#define NICX_MERGE_H

#include "result.h"

/* A cause, with the failure of the lowest run that had it. */
struct cause {
    struct failure failure;
    const char *path; /* the result that contains it */
    uint32_t count;   /* how many results have this cause */
    uint64_t seed;
};

struct merged {
    struct result sum; /* sum of all results, with the first result's options and without a failure */
    struct cause *causes;
    uint32_t cause_count, results;
    double longest;    /* seconds of the longest search */
    char missing[200]; /* the missing shards, or "" */
    bool is_one;       /* all belong to one search: the same strategy, seed and so on */
};

/* Returns null, or why they can't be merged. */
const char *nicxi_merge(char **paths, uint32_t count, struct merged *merged);
void nicxi_free_merged(struct merged *merged);

#endif
