/* Runs a schedule from a file again. */
#ifndef NICX_REPLAY_H
#define NICX_REPLAY_H

#include <stdbool.h>
#include <stdio.h>

#include "nic82599_explore.h"

struct notes;

/* Prints notes: not failures themselves, but possibly the reason for one. */
void nicxi_tell_notes(FILE *to, const struct notes *notes);

/* Replays a schedule exactly, or leniently: as far as the driver follows it. Returns null, or why the file doesn't fit.
   Prints each point and the verdict to `to`. */
const char *nicxi_follow(FILE *to, const char *path, bool is_lenient, nicx_result *result);

/* Replays to standard output. Returns the exit status of nicx_main. */
int nicxi_replay(const char *path, bool is_lenient);

#endif
