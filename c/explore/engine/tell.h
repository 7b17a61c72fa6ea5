/* Prints the report of a search to standard output. */
#ifndef NICX_TELL_H
#define NICX_TELL_H

#include "keep.h"

void nicxi_tell_totals(const struct options *options, const struct totals *totals);

/* Reports a search that found nothing: how much it covered, and what never happened. Returns whether --strict makes
   that a failure. */
bool nicxi_tell_nothing(const struct options *options, const struct totals *totals, bool has_distinct);

/* `found` is the failure before shrinking; `tries` counts the attempts to shrink it. */
void nicxi_tell_failure(const struct failure *failure, const nicx_result *found, uint32_t tries,
                        const struct turn *turn);
void nicxi_tell_files(const struct failure *failure, const struct paths *paths, const char *program);

#endif
