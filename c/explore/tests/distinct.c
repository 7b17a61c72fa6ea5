/* Counts distinct schedules: exactly up to a number, and by an estimate above it. */
#include <inttypes.h>
#include <stdio.h>
#include <stdlib.h>

#include "coverage.h"

/* Counts schedules that differ in one point, each counted twice. */
static uint64_t counted(uint32_t many, uint32_t points, bool *is_exact)
{
    uint16_t schedule[64] = {0};
    struct distinct *distinct = calloc(1, sizeof *distinct);
    if (!distinct)
        exit(1);
    for (uint32_t k = 0; k < 2 * many; k++) {
        schedule[points / 2] = (uint16_t)(k % many);
        schedule[points - 1] = (uint16_t)(k % many >> 16);
        nicxi_count_schedule(distinct, schedule, points);
    }
    uint64_t count = nicxi_distinct(distinct, is_exact);
    free(distinct);
    return count;
}

int main(void)
{
    bool is_exact;
    for (uint32_t points = 3; points < 64; points += 7)
        if (counted(1000, points, &is_exact) != 1000 || !is_exact)
            return 1;
    if (counted(EXACT, 9, &is_exact) != EXACT || !is_exact)
        return 2;
    uint64_t about = counted(1000000, 17, &is_exact);
    if (is_exact || about < 950000 || about > 1050000)
        return 3;
    printf("65,536 distinct schedules counted, and 1,000,000 estimated within 5%%\n");
    return 0;
}
