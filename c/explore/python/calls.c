/* How functions in Python are called, and the nic82599_explore.h calls that a driver in Python makes. */
#include <stdio.h>

#include "../engine/parts.h"
#include "../engine/places.h"
#include "python.h"

enum { MOST_FAILURE_WORDS = 256 };

static struct nicp_python python;
static uint32_t condition_function;
static void (*refuse_foreign)(void);
static char words[MOST_FAILURE_WORDS];
/* How many functions in Python are running on this thread. */
static __thread unsigned depth;

static unsigned lines_of(struct source_line *lines, unsigned most)
{
    return depth ? python.lines(lines, most) : 0;
}

void nicp_open(const struct nicp_python *given, uint32_t condition, void (*foreign)(void))
{
    python = *given;
    condition_function = condition;
    refuse_foreign = foreign;
    nicxi_ask_for_lines = lines_of;
    nicxi_to_be_seen = "call self.point() where the driver's threads share state";
    nicp_open_stacks(python.begin_thread);
}

void nicp_set_words(const char *answer)
{
    snprintf(words, sizeof words, "%s", answer);
}

const char *nicp_words(void)
{
    return words;
}

int64_t nicp_ask(uint32_t function, uint64_t a, uint64_t b, uint64_t c)
{
    depth++;
    int64_t answer = python.call(function, a, b, c);
    depth--;
    if (answer == NICP_OVER || nicp_is_left())
        nicp_leave();
    return answer;
}

bool nicp_may_call(void)
{
    if (!nicp_way()) {
        refuse_foreign();
        return false;
    }
    if (nicp_is_left())
        nicp_calls_on();
    return !nicp_is_left();
}

/* Evaluates a condition in Python, given by its number. If it raises an exception, the schedule fails, and the caller
   continues. */
static bool holds(void *number)
{
    int64_t answer = nicp_ask(condition_function, (uintptr_t)number, 0, 0);
    if (answer == NICP_RAISED)
        nicxi_failed(NICX_CHECK, "%s", words);
    return answer > 0;
}

NICP_CALL(nicp_read32, (uint32_t address), nicx_read32(address))
NICP_CALL(nicp_write32, (uint32_t address, uint32_t word), nicx_write32(address, word))
NICP_CALL(nicp_vf_read32, (uint8_t vf, uint32_t offset), nicx_vf_read32(vf, offset))
NICP_CALL(nicp_vf_write32, (uint8_t vf, uint32_t offset, uint32_t word), nicx_vf_write32(vf, offset, word))
NICP_CALL(nicp_dma_read, (uint64_t bus, uint8_t *bytes, size_t length), nicx_dma_read(bus, bytes, length))
NICP_CALL(nicp_dma_write, (uint64_t bus, const uint8_t *bytes, size_t length), nicx_dma_write(bus, bytes, length))
NICP_CALL(nicp_point, (void), (nicx_point(), 0))
NICP_CALL(nicp_wait, (void), (nicx_wait(), 0))
NICP_CALL(nicp_pause, (void), (nicx_pause(), 0))
NICP_CALL(nicp_wait_until, (uint64_t number), (nicx_wait_until(holds, (void *)(uintptr_t)number), 0))
NICP_CALL(nicp_lock, (nicx_mutex * lock), (nicx_lock(lock), 0))
NICP_CALL(nicp_unlock, (nicx_mutex * lock), (nicx_unlock(lock), 0))
NICP_CALL(nicp_interrupts, (bool on), (on ? nicx_interrupts_on() : nicx_interrupts_off(), 0))
NICP_CALL(nicp_wmb, (void), (nicx_wmb(), 0))
NICP_CALL(nicp_rmb, (void), (nicx_rmb(), 0))
NICP_CALL(nicp_mb, (void), (nicx_mb(), 0))
NICP_CALL(nicp_choose, (uint32_t bound), nicx_choose(bound))
