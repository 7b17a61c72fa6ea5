#define _DEFAULT_SOURCE
#include "limit.h"

#include <sys/resource.h>

#include "search.h"

enum { CLOCK_TIMES = 10 };

static double seconds_of(int who)
{
    struct rusage used;
    getrusage(who, &used);
    return (double)(used.ru_utime.tv_sec + used.ru_stime.tv_sec) +
           (double)(used.ru_utime.tv_usec + used.ru_stime.tv_usec) * 1e-6;
}

static double used(void)
{
    return seconds_of(RUSAGE_SELF) + seconds_of(RUSAGE_CHILDREN);
}

struct limit nicxi_limit(double seconds)
{
    return (struct limit){used() + seconds, nicxi_now() + CLOCK_TIMES * seconds};
}

double nicxi_left(const struct limit *limit)
{
    double by_used = limit->used - used(), by_clock = (limit->clock - nicxi_now()) / CLOCK_TIMES;
    return by_used < by_clock ? by_used : by_clock;
}

bool nicxi_is_over(const struct limit *limit)
{
    return nicxi_left(limit) <= 0;
}
