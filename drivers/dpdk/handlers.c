#include "handlers.h"

#include "card.h"
#include "run.h"
#include "verdict.h"

#define CALLS_MOST 1000 /* calls in a row before a cause counts as stuck */

static struct handlers_way way;
static bool is_running;
static unsigned int polls, calls;
static uint64_t by_line;

void handlers_begin(struct handlers_way chosen)
{
    way = chosen;
    is_running = false;
    polls = 0;
    by_line = 0;
}

void handlers_message(void *of, unsigned int function, unsigned int vector)
{
    (void)of;
    if (vector == 0)
        card_interrupt(function);
}

void handlers_run(void)
{
    if (is_running)
        return;
    is_running = true;
    for (bool any = true; any;) {
        any = bus_messages(run_bus) > 0;
        if (way.by_line && bus_line(run_bus) && card_interrupt(BUS_PHYSICAL)) {
            by_line++;
            any = true;
        }
        if (any && ++calls > CALLS_MOST) {
            problem("a handler was called %u times, but its cause is still set", CALLS_MOST);
            break;
        }
    }
    calls = 0;
    is_running = false;
}

void handlers_reading(void *of, unsigned int function, uint32_t offset)
{
    (void)of;
    if (way.late && !is_running && function != BUS_PHYSICAL && offset == NIC_VFMAILBOX && ++polls % way.late == 0)
        handlers_run();
}

void handlers_written(void *of, const struct bus_access *access)
{
    (void)of, (void)access;
    if (!way.late)
        handlers_run();
}

uint64_t handlers_by_line(void)
{
    return by_line;
}
