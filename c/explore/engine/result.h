/* What a search found, as a file. Results of searches on several machines can be merged. */
#ifndef NICX_RESULT_H
#define NICX_RESULT_H

#include "options.h"
#include "search.h"

struct result {
    struct options options; /* what was searched: strategy, seed, first, runs, depth, preemptions, shard */
    struct totals totals;
    struct failure failure;
    struct distinct *distinct; /* null: not counted */
};

/* Returns false if the file can't be written. */
bool nicxi_write_result(const char *path, const struct result *result);

/* Reads a result of the open scenario. Returns null or "PATH:LINE: why", which is valid until the next call. Either
   way, free its memory with nicxi_free_result. */
const char *nicxi_read_result(const char *path, struct result *result);
void nicxi_free_result(struct result *result);

#endif
