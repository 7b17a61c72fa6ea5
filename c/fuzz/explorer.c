/* Reads files as the explorer does: schedules, strictly or leniently, and results of searches. The input's first byte
   selects how, and the rest is the file. For one of its values, the rest is a result without its last line: the
   checksum, which is then added here. Each actor in an accepted schedule must belong to the scenario, or be NOBODY if
   the schedule was read leniently. An accepted result must be accepted again after it is written. */
#define _GNU_SOURCE
#include <fcntl.h>
#include <inttypes.h>
#include <sys/mman.h>
#include <unistd.h>

#include "files.h"
#include "input.h"
#include "result.h"

#define FIRST_SUM UINT64_C(0xCBF29CE484222325)
#define SUM_TIMES UINT64_C(0x100000001B3)
#define PATH_MOST 32

/* --- a scenario with something of each kind that a file can name --- */

static void act(void *unused)
{
    (void)unused;
    nicx_write32(NIC_EIMC, 1);
}

static const char *bring_up(void)
{
    nicx_lend_all();
    return NULL;
}

static void begin(void)
{
    static const uint8_t frame[60] = {2};
    nicx_task("one", act, NULL);
    nicx_service("two", act, NULL);
    nicx_handler("isr", 0, 5, act, NULL, NICX_ANYWHERE);
    nicx_frame(frame, sizeof frame);
    nicx_frame(frame, sizeof frame);
    nicx_link_change(false);
}

static const char *end(void)
{
    return NULL;
}

static uint32_t first(void *unused, const uint16_t *can, uint32_t count)
{
    (void)unused;
    (void)can;
    (void)count;
    return 0;
}

/* Its actors are known after the first schedule. */
static void open_scenario(void)
{
    static const nicx_scenario scenario = {.name = "fuzz",
                                           .vfs = 1,
                                           .fifo = 8,
                                           .blocks = 8,
                                           .queues = 2,
                                           .bring_up = bring_up,
                                           .begin = begin,
                                           .end = end};
    const nicx_chooser chooser = {first, NULL};
    nicx_result result;
    static bool is_open;
    if (is_open)
        return;
    const char *fault = nicx_open(&scenario);
    if (fault)
        fprintf(stderr, "%s\n", fault);
    MUST(!fault);
    nicx_run(&chooser, &result);
    is_open = true;
}

/* --- a file --- */

static int make_file(char path[PATH_MOST])
{
    int file = memfd_create("input", MFD_CLOEXEC);
    MUST(file >= 0);
    snprintf(path, PATH_MOST, "/proc/self/fd/%d", file);
    return file;
}

static void put(int file, const void *bytes, size_t length)
{
    MUST(write(file, bytes, length) == (ssize_t)length);
}

/* --- the trials --- */

static void try_schedule(const char *path, bool is_lenient)
{
    struct schedule_file read;
    char name[96];
    if (!nicxi_read_schedule(path, is_lenient, &read)) {
        MUST(read.cycle <= read.length);
        for (uint32_t k = 0; k < read.length; k++)
            MUST((is_lenient && read.list[k] == NOBODY) || *nicx_actor_name(read.list[k], name));
    }
    nicxi_free_schedule(&read);
}

static void add_sum(int file, const uint8_t *bytes, size_t length)
{
    char line[32];
    uint64_t sum = FIRST_SUM;
    for (size_t k = 0; k < length; k++)
        sum = (sum ^ bytes[k]) * SUM_TIMES;
    put(file, line, (size_t)snprintf(line, sizeof line, "sum %016" PRIx64 "\n", sum));
}

static void try_result(const char *path)
{
    struct result result, again;
    char other[PATH_MOST];
    int file = make_file(other);
    if (!nicxi_read_result(path, &result)) {
        MUST(nicxi_write_result(other, &result));
        MUST(!nicxi_read_result(other, &again));
        MUST(again.failure.result.points == result.failure.result.points);
        MUST(again.totals.points == result.totals.points && !again.distinct == !result.distinct);
        nicxi_free_result(&again);
    }
    nicxi_free_result(&result);
    close(file);
}

int LLVMFuzzerTestOneInput(const uint8_t *bytes, size_t length)
{
    char path[PATH_MOST];
    if (!length)
        return 0;
    open_scenario();
    int file = make_file(path);
    put(file, bytes + 1, length - 1);
    switch (bytes[0] % 4) {
    case 0:
    case 1: try_schedule(path, bytes[0] % 4); break;
    case 2: add_sum(file, bytes + 1, length - 1); /* fall through */
    default: try_result(path); break;
    }
    close(file);
    return 0;
}
