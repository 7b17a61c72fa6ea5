/* A refused scenario leaves nothing open: after each refusal another scenario is opened, runs a schedule, and is
   closed. What `begin` does in a schedule doesn't depend on earlier schedules. */
#include <stdio.h>
#include <string.h>

#include "nic82599_explore.h"

static const char *no_use(void)
{
    return "it has no use";
}

static const char *come_up(void)
{
    return NULL;
}

static void look(void *unused)
{
    (void)unused;
    (void)nicx_read32(0x00008);
}

static void begin_nothing(void)
{
}

static void begin(void)
{
    nicx_task("look", look, NULL);
}

/* Reading the EEPROM is a device step that is pending when schedules start. */
static const char *ask_eeprom(void)
{
    nicx_write32(NIC_EERD, NIC_EERD_START);
    return NULL;
}

/* If the reads of all schedules counted as one loop, this read would wait, and the device would run the EEPROM step. */
static void begin_with_a_look(void)
{
    look(NULL);
    begin();
}

static const char *end(void)
{
    return NULL;
}

static uint32_t first_of(void *unused, const uint16_t *can, uint32_t count)
{
    (void)unused;
    (void)can;
    (void)count;
    return 0;
}

static const nicx_chooser chooser = {first_of, NULL};

static int opened(void)
{
    static const nicx_scenario fine = {
        .name = "fine", .fifo = 4, .blocks = 4, .queues = 1, .bring_up = come_up, .begin = begin, .end = end};
    nicx_result result;
    const char *fault = nicx_open(&fine);
    if (fault) {
        printf("fine: %s\n", fault);
        return 1;
    }
    nicx_run(&chooser, &result);
    nicx_close();
    return result.outcome != NICX_FINE;
}

static int refused(const nicx_scenario *scenario, const char *wanted)
{
    const char *fault = nicx_open(scenario);
    if (fault && strstr(fault, wanted))
        return opened();
    printf("%s: %s\n", scenario->name, fault ? fault : "it opens, although it must be refused");
    return 1;
}

/* Whether schedules with the same choices differ, which they must not. */
static int differs(void)
{
    static const nicx_scenario looks = {.name = "looks",
                                        .fifo = 4,
                                        .blocks = 4,
                                        .queues = 1,
                                        .bring_up = ask_eeprom,
                                        .begin = begin_with_a_look,
                                        .end = end};
    nicx_result first, result;
    int others = 0;
    if (nicx_open(&looks))
        return 1;
    nicx_run(&chooser, &first);
    for (int k = 0; k < 20; k++) {
        nicx_run(&chooser, &result);
        others += result.points != first.points;
    }
    nicx_close();
    if (others)
        printf("looks: %d schedules differ in length from the first one\n", others);
    return others != 0;
}

int main(void)
{
    static const nicx_scenario small = {
        .name = "small", .fifo = 0, .blocks = 4, .queues = 1, .bring_up = come_up, .begin = begin, .end = end};
    static const nicx_scenario down = {
        .name = "down", .fifo = 4, .blocks = 4, .queues = 1, .bring_up = no_use, .begin = begin, .end = end};
    static const nicx_scenario idle = {
        .name = "idle", .fifo = 4, .blocks = 4, .queues = 1, .bring_up = come_up, .begin = begin_nothing, .end = end};
    int faults = refused(&small, "can't open the device") + refused(&down, "it has no use") +
                 refused(&idle, "begin creates no task") + differs();
    printf("%d faults\n", faults);
    return faults != 0;
}
