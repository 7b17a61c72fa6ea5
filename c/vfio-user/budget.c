#define _POSIX_C_SOURCE 200809L
#include "budget.h"

#include <time.h>

uint64_t budget_time(void)
{
    struct timespec time;
    clock_gettime(CLOCK_MONOTONIC, &time);
    return (uint64_t)time.tv_sec * 1000000u + (uint64_t)time.tv_nsec / 1000u;
}

bool budget_is_late(uint64_t began)
{
    return budget_time() - began >= BUDGET_MICROSECONDS;
}
