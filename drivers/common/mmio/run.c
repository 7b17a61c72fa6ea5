/* Runs the driver of driver.h with trapping registers: frames arrive, and must come back unchanged. */
#include <stdlib.h>

#include "driver.h"
#include "frames.h"
#include "run.h"
#include "trap.h"
#include "verdict.h"
#include "window.h"

enum { BUS = 0x100000, FRAMES = 2000 };

static const uint8_t card[6] = {2, 0, 0, 0, 0x82, 0x99}, peer[6] = {2, 0, 0, 0, 0, 1};
static unsigned int came_back;

/* Returns the first byte in which the frames differ, or the length of the shorter one. */
static size_t first_difference(const struct frame *wanted, const uint8_t *bytes, size_t length)
{
    size_t at = 0;
    while (at < length && at < wanted->length && bytes[at] == wanted->bytes[at])
        at++;
    return at;
}

static void on_frame(void *of, uint16_t queue, const uint8_t *bytes, size_t length)
{
    (void)of;
    (void)queue;
    struct frame wanted;
    frame_make(&wanted, came_back, FRAME_MAX, card, peer);
    if (!frame_is(&wanted, bytes, length))
        problem("frame %u: %zu of %u bytes came back; they differ from byte %zu on", came_back, length, wanted.length,
                first_difference(&wanted, bytes, length));
    came_back++;
}

static void exchange(void)
{
    struct frame frame;
    for (uint32_t number = 0; number < FRAMES; number++) {
        frame_make(&frame, number, FRAME_MAX, card, peer);
        bus_arrive(run_bus, frame.bytes, frame.length);
        bus_receive(run_bus);
        driver_poll();
    }
}

int main(void)
{
    struct bus_options options = {.mac = {2, 0, 0, 0, 0x82, 0x99}, .fifo = 64, .answers = BUS_ALL};
    void *memory = calloc(1, DRIVER_MEMORY);
    /* no virtual functions; and no hooks, which only code for ring 0 needs */
    if (!memory || !run_open(&options, false) || !memory_lend(&run_memory, BUS, memory, DRIVER_MEMORY) ||
        !window_open(0) || !trap_open(NULL))
        return 2;
    bus_send_to(run_bus, on_frame, NULL);
    driver_open(window_of(BUS_PHYSICAL), memory, BUS);
    exchange();
    trap_close();
    if (all_of("frames came back", came_back, FRAMES))
        printf("%u frames came back unchanged\n", came_back);
    run_check_counts(0, 0);
    window_close();
    run_close();
    free(memory);
    return verdict();
}
