/* Turns a fuzzer's input into a schedule: coverage of the driver, and of which actor follows which, guides the fuzzer.
   This file defines nicx_main, so link it with a scenario's program before the explorer's archive; the scenario stays
   as it is. docs/explore.md has the commands.

   Built by afl-clang-fast, it is an AFL++ harness in persistent mode; with -DNICX_LIBFUZZER and
   -Dmain=nicx_scenario_main, a libFuzzer harness. Built by any compiler, `PROGRAM INPUT` runs the schedule of one input
   and writes NAME.schedule, which the scenario's own program replays. */
#include <stdio.h>
#include <stdlib.h>
#include <string.h>

#include "nic82599_explore.h"

enum { MOST_ACTORS = 2048, IN_A_ROW = 32, MOST_INPUT = 1 << 16 };

static const nicx_scenario *scenario;

/* The input, and the position in it. Each choice among two or more takes one byte; 0 is the actor that acted last, if
   it can continue. */
static struct {
    const uint8_t *bytes;
    size_t length, at;
    uint32_t points, row;
    uint16_t last;
    uint32_t acted[MOST_ACTORS];
} input;

/* A separate place in the code for each of 256 numbers, so that both fuzzers see which ones occurred. */
#define PLACE(k)                                                                                                       \
    case k:                                                                                                            \
        __asm__ volatile("" : : "i"(k));                                                                               \
        break;
#define PLACES4(k) PLACE(k) PLACE(k + 1) PLACE(k + 2) PLACE(k + 3)
#define PLACES16(k) PLACES4(k) PLACES4(k + 4) PLACES4(k + 8) PLACES4(k + 12)
#define PLACES64(k) PLACES16(k) PLACES16(k + 16) PLACES16(k + 32) PLACES16(k + 48)

static void cover(uint8_t number)
{
    switch (number) {
        PLACES64(0)
        PLACES64(64)
        PLACES64(128)
        PLACES64(192)
    }
}

static uint32_t longest_ago(const uint16_t *can, uint32_t count)
{
    uint32_t best = 0;
    for (uint32_t k = 1; k < count; k++)
        if (input.acted[can[k] % MOST_ACTORS] < input.acted[can[best] % MOST_ACTORS])
            best = k;
    return best;
}

/* After the end of the input, the actor that acted last continues, but not more than IN_A_ROW times in a row: two
   actors that wake each other would otherwise keep out all others. */
static uint32_t chosen(const uint16_t *can, uint32_t count)
{
    if (count == 1)
        return 0;
    if (input.at < input.length)
        return input.bytes[input.at++] % count;
    return can[0] == input.last && input.row < IN_A_ROW ? 0 : longest_ago(can, count);
}

static uint32_t choose(void *unused, const uint16_t *can, uint32_t count)
{
    (void)unused;
    uint32_t k = chosen(can, count);
    cover((uint8_t)(input.last * 31u + can[k]));
    input.row = can[k] == input.last ? input.row + 1 : 0;
    input.last = can[k];
    input.acted[can[k] % MOST_ACTORS] = ++input.points;
    return k;
}

static void run(const uint8_t *bytes, size_t length, nicx_result *result)
{
    const nicx_chooser chooser = {choose, NULL};
    memset(&input, 0, sizeof input);
    input.bytes = bytes;
    input.length = length;
    input.last = UINT16_MAX;
    nicx_run(&chooser, result);
}

/* --- called by each fuzzer --- */

#ifdef NICX_LIBFUZZER

int nicx_scenario_main(int argc, char **argv);
int LLVMFuzzerInitialize(int *argc, char ***argv);
int LLVMFuzzerTestOneInput(const uint8_t *bytes, size_t length);

/* Only opens the scenario, when the fuzzer starts. */
int nicx_main(int argc, char **argv, const nicx_scenario *given)
{
    (void)argc, (void)argv;
    scenario = given;
    const char *fault = nicx_open(given);
    if (fault)
        fprintf(stderr, "%s: %s\n", given->name, fault);
    return fault ? 2 : 0;
}

int LLVMFuzzerInitialize(int *argc, char ***argv)
{
    int status = nicx_scenario_main(*argc, *argv);
    if (status)
        exit(status);
    return 0;
}

int LLVMFuzzerTestOneInput(const uint8_t *bytes, size_t length)
{
    nicx_result result;
    run(bytes, length, &result);
    if (result.outcome != NICX_FINE) {
        fprintf(stderr, "%s: FAILED: %s\n", scenario->name, result.words);
        abort();
    }
    return 0;
}

#else

/* Writes the last schedule, which the scenario's own program replays. */
static int write_schedule(const nicx_result *result)
{
    char path[96], room[96];
    uint32_t points = 0;
    const uint16_t *schedule = nicx_schedule(&points);
    snprintf(path, sizeof path, "%s.schedule", scenario->name);
    FILE *file = fopen(path, "w");
    if (!file) {
        fprintf(stderr, "%s: can't write the file\n", path);
        return 2;
    }
    fprintf(file, "# %s\nscenario %s\n", result->words, scenario->name);
    for (uint32_t k = 0; k < points; k++)
        fprintf(file, "%s\n", nicx_actor_name(schedule[k], room));
    if (fclose(file) != 0)
        return 2;
    printf("%s: %s%s; the schedule is %s\n", scenario->name,
           result->outcome == NICX_FINE ? "fine" : "FAILED: ", result->words, path);
    return result->outcome == NICX_FINE ? 0 : 1;
}

static int show(const char *path)
{
    static uint8_t bytes[MOST_INPUT];
    nicx_result result;
    FILE *file = fopen(path, "rb");
    if (!file) {
        fprintf(stderr, "%s: can't read the file\n", path);
        return 2;
    }
    size_t length = fread(bytes, 1, sizeof bytes, file);
    fclose(file);
    run(bytes, length, &result);
    return write_schedule(&result);
}

#ifdef __AFL_COMPILER
__AFL_FUZZ_INIT();

static int fuzz(void)
{
    nicx_result result;
    __AFL_INIT();
    const uint8_t *bytes = __AFL_FUZZ_TESTCASE_BUF;
    while (__AFL_LOOP(100000)) {
        run(bytes, (size_t)__AFL_FUZZ_TESTCASE_LEN, &result);
        if (result.outcome != NICX_FINE)
            abort();
    }
    return 0;
}
#else
static int fuzz(void)
{
    fprintf(stderr, "%s: pass an input file as an argument, or build with afl-clang-fast\n", scenario->name);
    return 2;
}
#endif

int nicx_main(int argc, char **argv, const nicx_scenario *given)
{
    scenario = given;
    const char *fault = nicx_open(given);
    if (fault) {
        fprintf(stderr, "%s: %s\n", given->name, fault);
        return 2;
    }
    int status = argc > 1 ? show(argv[1]) : fuzz();
    nicx_close();
    return status;
}

#endif
