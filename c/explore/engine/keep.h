/* The files kept for a failure: its schedule, a script of the device's events, and a page. */
#ifndef NICX_KEEP_H
#define NICX_KEEP_H

#include "search.h"
#include "turn.h"

enum { MOST_PATH = 1024 };

struct paths {
    char schedule[MOST_PATH], script[MOST_PATH], page[MOST_PATH];
};

struct keeping {
    const struct options *options;
    const struct failure *failure;
    const struct turn *turn;
    uint64_t seed;
    uint32_t number; /* number of this failure among several, from 0 */
};

/* Writes the files, and prints where they are. */
void nicxi_keep_failure(const struct keeping *keeping, struct paths *paths);

#endif
