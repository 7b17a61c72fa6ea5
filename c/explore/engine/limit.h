/* A limit for work other than searching: CPU seconds of this process and of the children that it has waited for, or ten
   times as many elapsed seconds. So a busy machine gets as much done as a quiet one. */
#ifndef NICXI_LIMIT_H
#define NICXI_LIMIT_H

#include <stdbool.h>

struct limit {
    double used, clock;
};

struct limit nicxi_limit(double seconds);
/* Upper bound on the remaining CPU seconds. Another process may use it as its own limit. */
double nicxi_left(const struct limit *limit);
bool nicxi_is_over(const struct limit *limit);

#endif
