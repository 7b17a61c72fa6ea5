/* The result as JUnit XML: a test suite for the scenario, with one case for each failure, or a single passing case. */
#ifndef NICX_JUNIT_H
#define NICX_JUNIT_H

#include "search.h"

struct junit_failure {
    const nicx_result *result;
    const char *schedule; /* path of the schedule file */
};

struct junit {
    const struct options *options;
    const struct totals *totals;
    bool has_distinct; /* distinct schedules were counted */
    const char *name;  /* name of the case; for the second and later failures it includes a number */
    const struct junit_failure *failures;
    uint32_t count;
};

/* Returns false if the file can't be written. */
bool nicxi_write_junit(const struct junit *junit);

#endif
