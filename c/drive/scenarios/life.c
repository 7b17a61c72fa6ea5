/* Opening and closing repeatedly, with frames in flight and with failing allocations. */
#include "../engine/drive.h"

/* --- what must not remain after close --- */

static bool is_on(unsigned queue, bool transmit)
{
    return nicd_peek(transmit ? NIC_TXDCTL(queue) : NIC_RXDCTL(queue)) & NIC_RXDCTL_ENABLE;
}

static uint32_t masks(void)
{
    unsigned port = nicd.setup.port;
    return port ? nicd_peek(NIC_PVTEIMS(port - 1)) : nicd_peek(NIC_EIMS);
}

/* Returns null, or what the closed driver left on, enabled or allocated. */
static const char *left(void)
{
    for (unsigned side = 0; side < 2u * nicd.setup.queues; side++)
        if (is_on(nicd.base + side / 2, side % 2)) {
            nicd_note("%s queue %u is on although the driver is closed", side % 2 ? "transmit" : "receive", side / 2);
            return nicd.fault;
        }
    if (masks()) {
        nicd_note("causes are enabled although the driver is closed: the mask is 0x%08x", (unsigned)masks());
        return nicd.fault;
    }
    return nicd_memory_left();
}

static void see_nothing_left(void)
{
    const char *words = left();
    if (words)
        nicx_fail(words);
}

/* --- the scenarios --- */

static void open_and_close(void)
{
    nicx_check(nicd_open(), "open returned false");
    nicd_close();
    see_nothing_left();
}

static void open_alone(void)
{
    nicx_check(nicd_open(), "open returned false");
}

static void open_with_frames(void)
{
    nicx_check(nicd_open(), "open returned false");
    nicd_go_on();
}

enum { ONCE_RECEPTION_IS_ON = 3 };

/* Releases the first frames as soon as reception is enabled, so that `open` finishes during traffic. */
static void see_reception(const nicxo_step *step, bool is_drivers)
{
    if (is_drivers && step->kind == STEP_WRITE && step->address == NIC_RXCTRL && step->word & NIC_RXCTRL_RXEN &&
        nicd.late >= ONCE_RECEPTION_IS_ON)
        nicd_let_come(ONCE_RECEPTION_IS_ON);
}

static void close_all(void)
{
    nicd_hold();
    nicd_close();
    see_nothing_left();
}

static void come_by_two(void)
{
    nicd_take_frames();
    nicd_come_flows(NIC_RSS_TCP_IPV4, 4);
}

static void send_two(void)
{
    for (unsigned k = 0; k < 2 && nicd.driver->send; k++)
        nicd_send_surely(0, 60);
}

static bool all_went(void *unused)
{
    (void)unused;
    return nicd.went[0] == nicd.accepted[0];
}

static bool is_taken(void *number)
{
    return nicd.frames[*(const uint16_t *)number].state == IS_DELIVERED;
}

/* Opens and closes three times. A frame is received each time, so the ring's head and tail have moved before the next
   open. */
static void three_lives(void)
{
    for (unsigned life = 0; life < 3; life++) {
        nicx_check(nicd_open(), "open returned false");
        send_two();
        nicx_wait_until(all_went, NULL);
        uint16_t number = nicd_let_one_come();
        nicx_wait_until(is_taken, &number);
        nicd_hold();
        nicd_close();
        see_nothing_left();
    }
    nicx_check(nicd_open(), "open returned false");
    nicd_let_one_come();
}

/* Makes each allocation of `open` fail once, then none. */
static void refuse_each(void)
{
    bool is_open = false;
    uint32_t refused = 0;
    while (!is_open && refused < 200) {
        nicd.allocations = 0;
        nicd.refuse = ++refused;
        is_open = nicd_open();
        nicd.refuse = 0;
        if (!is_open)
            see_nothing_left();
    }
    nicx_check(is_open, "open returned false, but no allocation failed");
    if (refused > 1)
        nicd_reach(NO_MEMORY);
    nicd_go_on();
}

static void rest_and_go_on(void)
{
    nicd_hold();
    nicd_suspend();
    nicd_resume();
    nicd_go_on();
}

/* Suspends long enough for frames to arrive and the link to go down. */
static void rest_for_long(void)
{
    nicd_hold();
    nicd_suspend();
    for (unsigned k = 0; k < 3; k++)
        nicx_pause();
    nicd_resume();
    nicd_go_on();
}

static const char stop_rule[] =
    "A queue being disabled may receive and send until ENABLE reads 0; only then does software own its memory";

const struct scenario nicd_life[] = {
    ROW("open-close", "open and close leave nothing allocated or enabled",
        "close restores the state before open: queues off, causes masked, memory freed", "the adapter's close", 0,
        .ways = OPENS, .control = open_and_close),
    ROW("open-during-frames", "frames arrive during open", "RXEN is set last", "Receive Initialization", RECEIVES,
        .ways = OPENS | LOSSY | DROPS, .control = open_with_frames, .takes = true, .comes = 3, .late = 2),
    ROW("open-during-interrupts", "frames arrive during open, with interrupts: each accepted frame is delivered",
        "A frame that arrives after reception is enabled raises its cause, so vectors are set before that, or EICS "
        "raises the causes at the end",
        "Interrupt Causes", RECEIVES | INTERRUPTS, .ways = OPENS | DROPS, .setup = {.interrupts = true},
        .control = open_alone, .takes = true, .late = ONCE_RECEPTION_IS_ON, .see = see_reception),
    ROW("close-during-frames", "frames arrive during close", stop_rule, "Dynamic Disabling of Receive Queues", RECEIVES,
        .ways = LOSSY | DROPS, .control = close_all, .takes = true, .comes = 5),
    ROW("close-during-sends", "frames are being sent during close", stop_rule, "Dynamic Disabling of Transmit Queues",
        SENDS, .ways = LOSSY | DROPS, .control = close_all, .sends = 5),
    ROW("close-during-all", "traffic both ways during close, with interrupts", stop_rule,
        "Dynamic Disabling of Receive Queues", RECEIVES | SENDS | INTERRUPTS, .ways = LOSSY | DROPS,
        .setup = {.interrupts = true}, .control = close_all, .takes = true, .sends = 3, .comes = 3),
    ROW("close-two-queues", "a driver with two queues closes while both receive", stop_rule,
        "Dynamic Disabling of Receive Queues", RECEIVES, .ways = LOSSY | DROPS, .setup = {.queues = 2},
        .control = close_all, .begin = come_by_two, .sends = 3),
    ROW("restart", "the driver is opened and closed three times, then opened a fourth time",
        "Leftovers from an earlier run in rings, heads and causes aren't mistaken for new events", "the adapter's open",
        RECEIVES, .ways = OPENS | LOSSY | DROPS, .control = three_lives, .takes = true, .comes = 4, .late = 4,
        .see = nicd_see_held),
    ROW("memory-refused", "each allocation fails once",
        "An open that fails for lack of memory leaves nothing allocated, and the next open succeeds",
        "the adapter's open", RECEIVES, .ways = OPENS | LOSSY | DROPS, .points = 60000, .control = refuse_each,
        .takes = true, .comes = 2, .late = 2),
    ROW("suspend", "suspend and resume during traffic", stop_rule, "the adapter's suspend", RECEIVES | SENDS | SUSPEND,
        .ways = LOSSY | DROPS, .control = rest_and_go_on, .takes = true, .sends = 3, .comes = 3, .late = 2,
        .see = nicd_see_held),
    ROW("suspend-quiet", "frames arrive and the link changes between suspend and resume",
        "While suspended, no cause is enabled, no queue is on, and the driver doesn't access the device",
        "the adapter's suspend", RECEIVES | SUSPEND, .ways = LOSSY | DROPS, .setup = {.interrupts = true},
        .control = rest_for_long, .takes = true, .comes = 3, .links = 2, .late = 2),
    {0}};
