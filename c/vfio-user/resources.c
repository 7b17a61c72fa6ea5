#define _GNU_SOURCE
#include "resources.h"

#include <inttypes.h>
#include <stdint.h>
#include <stdio.h>
#include <sys/resource.h>
#include <sys/sysinfo.h>

#include "channel.h"
#include "closer.h"
#include "log.h"
#include "memory_map.h"
#include "protocol.h"

#define OWN_FILES 40u      /* standard files, control, wire, and outputs */
#define MEMORY_LEAST 4u    /* files that each client may map as memory */
#define FILES_MOST 65536u  /* the largest number of files to request */
#define OWN_MAPPINGS 2048u /* mappings of the program itself */
#define MAPPINGS_USUAL 65530u
#define ADDRESSES (UINT64_C(1) << 46) /* bytes for clients' memory, half of a process's address space */

/* Raises this process's limit for open files to the hard limit, at most FILES_MOST, and returns the new limit. */
static uint64_t all_files(void)
{
    struct rlimit limit;
    if (getrlimit(RLIMIT_NOFILE, &limit) != 0)
        return 0;
    uint64_t most = limit.rlim_max > FILES_MOST ? FILES_MOST : limit.rlim_max;
    if (limit.rlim_cur < most) {
        limit.rlim_cur = most;
        setrlimit(RLIMIT_NOFILE, &limit);
        getrlimit(RLIMIT_NOFILE, &limit);
    }
    return limit.rlim_cur;
}

static uint64_t all_mappings(void)
{
    uint64_t most = 0;
    FILE *file = fopen("/proc/sys/vm/max_map_count", "re");
    if (file) {
        if (fscanf(file, "%" SCNu64, &most) != 1)
            most = 0;
        fclose(file);
    }
    return most ? most : MAPPINGS_USUAL;
}

static unsigned int between(uint64_t number, unsigned int least, unsigned int most)
{
    return number < least ? least : number > most ? most : (unsigned int)number;
}

/* Returns how many ranges each client may have. Counts each range as a window of at most two mappings, and reserves
   mappings for windows waiting to be unmapped. */
static unsigned int ranges_of(unsigned int clients)
{
    uint64_t all = all_mappings();
    uint64_t each = all > OWN_MAPPINGS ? (all - OWN_MAPPINGS) / (2 * clients) : 0;
    return between(each > MEMORY_RETIRED_MOST ? each - MEMORY_RETIRED_MOST : 0, MEMORY_RETIRED_MOST, VFU_MAPS_MOST);
}

/* Returns how many bytes each client may map: `asked`, or (0) as much as the machine has, but at most a share of the
   addresses. The share is halved, because removed memory takes addresses until it is unmapped. */
static uint64_t bytes_of(unsigned int clients, uint64_t asked)
{
    struct sysinfo machine;
    uint64_t most = ADDRESSES / (2 * clients), has = most;
    if (asked)
        has = asked;
    else if (sysinfo(&machine) == 0)
        has = ((uint64_t)machine.totalram + machine.totalswap) * machine.mem_unit;
    return has < most ? has : most;
}

bool resources_share(unsigned int clients, unsigned int vectors, uint64_t bytes, bool trusts_files)
{
    uint64_t all = all_files();
    uint64_t least = OWN_FILES + vectors + (2 + MEMORY_LEAST) * clients;
    /* files of received messages and of the wire, and those waiting to be closed */
    uint64_t passing = 2 * CHANNEL_FILES_AT_ONCE + CLOSER_FOREIGN_MOST +
                       clients * (CHANNEL_FILES + CLOSER_FOREIGN_MOST + CLOSER_OWN_MOST);
    if (all < least) {
        log_line(LOG_SERVER,
                 "%u sockets need at least %" PRIu64 " open files, but this process may open only %" PRIu64
                 ": raise the limit (ulimit -n)",
                 clients, least, all);
        return false;
    }
    uint64_t left = all > least + passing ? (all - least - passing) / clients : 0;
    unsigned int ranges = ranges_of(clients);
    memory_map_limit(&(struct memory_limits){.ranges = ranges,
                                             .windows = between(ranges, MEMORY_RETIRED_MOST, MEMORY_WINDOWS_MOST),
                                             .files = between(left, MEMORY_LEAST, MEMORY_FILES_MOST),
                                             .bytes = bytes_of(clients, bytes),
                                             .trusts_files = trusts_files});
    return true;
}
