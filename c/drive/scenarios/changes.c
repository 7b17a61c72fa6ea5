/* Link changes, resets, faults, other frame lengths and new rings during traffic. */
#include "../engine/drive.h"

enum { MOST_REFUSED = 6 }; /* one of the first MOST_REFUSED allocations fails */

/* --- the link --- */

const char *nicd_judge_link(void)
{
    bool is_up = nicd_peek(NIC_LINKS) & NIC_LINKS_LINK_UP;
    if (nicd.driver->link() == is_up)
        return NULL;
    return is_up ? "the link is up, but the driver reports it as down"
                 : "the link is down, but the driver reports it as up";
}

static void reset_once(void)
{
    nicd_hold();
    nicd_reset();
    nicd_go_on();
}

/* --- resets --- */

/* Whether the first frame is written, at least in part. */
static bool is_begun(void *unused)
{
    (void)unused;
    return nicd.partial >= 0 || nicd.frames[0].state >= IS_WRITTEN;
}

static void reset_during_frame(void)
{
    nicx_wait_until(is_begun, NULL);
    nicx_pause(); /* gives the driver the chance to read the frame */
    reset_once();
}

static void reset_twice(void)
{
    reset_once();
    for (unsigned k = 0; k < 2 && nicd.driver->send; k++)
        nicd_send_surely(0, 60);
    reset_once();
    for (unsigned k = 0; k < 2 && nicd.driver->send; k++)
        nicd_send_surely(0, 60);
    if (nicd.driver->send)
        nicd_wait_until_out(0);
}

/* The first reset may keep more memory than `open` allocated. If later resets keep still more, memory leaks. */
static void reset_and_count(void)
{
    nicd_hold();
    nicd_reset();
    uint32_t before = nicd_memory_taken();
    for (unsigned k = 0; k < 2; k++)
        nicd_reset();
    const struct piece *it = nicd_memory_newest();
    if (nicd_memory_taken() > before && it)
        nicd_failed("the driver holds %u allocations after one reset but %u after three, for example one of %u bytes "
                    "at 0x%llx, which %s "
                    "allocated",
                    (unsigned)before, (unsigned)nicd_memory_taken(), (unsigned)it->bytes, (unsigned long long)it->bus,
                    it->by);
    nicd_close();
    if (nicd_memory_left())
        nicx_fail(nicd.fault);
}

/* --- a fault: the device finds memory missing, and the queue is disabled --- */

static uint32_t ring_block(bool transmit)
{
    return nicd_peek(transmit ? NIC_TDBAL(nicd.base) : NIC_RDBAL(nicd.base)) / NIC_BLOCK_BYTES;
}

static uint8_t kept[NIC_BLOCK_BYTES];

static bool is_off(bool transmit)
{
    return !(nicd_peek(transmit ? NIC_TXDCTL(nicd.base) : NIC_RXDCTL(nicd.base)) & NIC_RXDCTL_ENABLE);
}

/* Whether the queue hit the fault, or the frame was finished before it. */
static bool is_over(void *transmit)
{
    bool is_gone = *(bool *)transmit ? nicd.went[0] == nicd.accepted[0]
                                     : nicd.frames[0].state != ON_ITS_WAY && nicd.frames[0].state != WAITS;
    return is_gone || is_off(*(bool *)transmit);
}

/* Takes the ring's block away until the queue hits the fault, then lends it again and calls the driver's reset. */
static void break_and_reset(bool transmit)
{
    uint32_t block = ring_block(transmit);
    nicd_hold();
    nic_dma_read(nicx_device(), (uint64_t)block * NIC_BLOCK_BYTES, kept, sizeof kept);
    nicx_take(block);
    nicd.is_running = true; /* a call may fail now, because the card took the memory away */
    nicx_wait_until(is_over, &transmit);
    if (is_off(transmit))
        nicd_reach(MET_FAULT);
    nicd_hold();
    nicx_lend(block);
    nic_dma_write(nicx_device(), (uint64_t)block * NIC_BLOCK_BYTES, kept, sizeof kept);
    nicd_reset();
    nicd_go_on();
}

static void break_receive(void)
{
    break_and_reset(false);
    while (nicd.frames[nicd.count - 1].state != IS_DELIVERED) {
        uint32_t seen = nicd_before_look();
        if (!nicd_receive(0))
            nicd_wait_for_event(seen);
    }
}

static const char *judge_recovery(void)
{
    for (unsigned queue = 0; queue < nicd.setup.queues; queue++) {
        uint32_t receive = nicd_peek(NIC_RXDCTL(nicd.base + queue)),
                 transmit = nicd_peek(NIC_TXDCTL(nicd.base + queue));
        if (nicd.driver->receive && !(receive & NIC_RXDCTL_ENABLE))
            return nicd_words("receive queue %u is off after reset returned: RXDCTL is 0x%08x", queue,
                              (unsigned)receive);
        if (nicd.driver->send && !(transmit & NIC_TXDCTL_ENABLE))
            return nicd_words("transmit queue %u is off after reset returned: TXDCTL is 0x%08x", queue,
                              (unsigned)transmit);
    }
    return NULL;
}

static void break_send(void)
{
    bool transmit = true;
    uint32_t block = ring_block(true);
    nicd_hold();
    nicx_check(nicd_send(0, 60), "send on queue 0 returned false, but no slot of its ring is in use");
    if (nicd.went[0])
        return;
    nic_dma_read(nicx_device(), (uint64_t)block * NIC_BLOCK_BYTES, kept, sizeof kept);
    nicx_take(block);
    nicx_wait_until(is_over, &transmit);
    if (is_off(transmit))
        nicd_reach(MET_FAULT);
    nicx_lend(block);
    nic_dma_write(nicx_device(), (uint64_t)block * NIC_BLOCK_BYTES, kept, sizeof kept);
    nicd_reset();
    nicd_go_on();
    for (unsigned k = 0; k < 3; k++)
        nicd_send_surely(0, 60);
}

/* --- other frame lengths, other rings --- */

static void grow_frames(void)
{
    nicd_hold();
    nicd_mtu(4096);
    nicd_go_on();
    if (nicd.driver->send)
        nicd_send_surely(0, 4096);
}

static void come_longer(void)
{
    nicd_take_frames();
    nicd_come_plain(2, 60);
    nicd_come_late(1, 4096);
    nicd_come_late(1, 60);
}

static void shrink_frames(void)
{
    nicd_hold();
    nicd_mtu(1514);
    nicd_go_on();
}

/* A long frame that arrives after the change must be dropped. */
static const char *judge_shrunk(void)
{
    for (uint16_t k = 0; k < nicd.count; k++)
        if (nicd.frames[k].life == nicd.life && nicd.coming[k].length > 1514 && nicd.frames[k].state == IS_DELIVERED)
            return nicd_words(
                "frame %u, %u bytes long, was received, but mtu set the longest frame to 1514: MAXFRS is 0x%08x", k,
                (unsigned)nicd.coming[k].length, (unsigned)nicd_peek(NIC_MAXFRS));
    return NULL;
}

static void come_shorter(void)
{
    nicd_take_frames();
    nicd_come_plain(1, 4096);
    nicd_come_plain(1, 60);
    nicd_come_late(1, 4096);
    nicd_come_late(1, 60);
}

static void make_rings_longer(void)
{
    nicd_hold();
    nicd_resize(16);
    nicd_go_on();
}

/* Makes one of resize's allocations fail. If resize then returns false, the old rings must still be in use. */
static void refuse_one(void)
{
    uint32_t before = nicd_memory_taken();
    nicd_hold();
    nicd.allocations = 0;
    nicd.refuse = 1 + nicx_choose(MOST_REFUSED);
    bool is_done = nicd_try_to_resize(16);
    nicd.refuse = 0;
    if (!is_done)
        nicd_reach(NO_MEMORY);
    if (!is_done && nicd_memory_taken() != before)
        nicd_failed("an allocation failed in resize: the driver holds %u allocations afterwards, but held %u before",
                    (unsigned)nicd_memory_taken(), (unsigned)before);
    nicd_go_on();
}

static const char *judge_rings(void)
{
    uint32_t length = nicd_peek(NIC_RDLEN(nicd.base));
    if (length == 16u * NIC_DESC_BYTES)
        return NULL;
    nicd_note("the receive ring is %u bytes long, but 16 slots were requested", (unsigned)length);
    return nicd.fault;
}

static const char reset_rule[] =
    "A reset clears all queues, masks and filters; software sets them up again and discards frames in flight";
static const char resize_rule[] =
    "While a queue is on, its base and length must not change, and the device owns its memory";

const struct scenario nicd_link[] = {
    ROW("link-down", "the link goes down, and the driver reports it", "A link change raises LSC; LINKS shows the state",
        "Link Status", RECEIVES | LINK | INTERRUPTS, .setup = {.interrupts = true}, .takes = true, .links = 1,
        .end = nicd_judge_link),
    ROW("link-down-up", "the link goes down and up during traffic", "A link change raises LSC; LINKS shows the state",
        "Link Status", RECEIVES | LINK | INTERRUPTS, .ways = LOSSY | DROPS, .setup = {.interrupts = true},
        .takes = true, .sends = 3, .comes = 4, .links = 2, .end = nicd_judge_link),
    ROW("link-during-reset", "the link goes down while the device is reset",
        "A reset clears causes raised before it, so software checks the link afterwards", "Link Status",
        RECEIVES | LINK | INTERRUPTS | RESET, .ways = LOSSY | DROPS, .setup = {.interrupts = true},
        .control = reset_once, .takes = true, .links = 1, .end = nicd_judge_link),
    {0}};

const struct scenario nicd_resets[] = {
    ROW("reset-during-receive", "a reset while frames are received", reset_rule, "Software Reset", RECEIVES | RESET,
        .ways = LOSSY | DROPS, .control = reset_once, .takes = true, .comes = 4, .late = 2),
    ROW("reset-during-send", "a reset while frames are sent", reset_rule, "Software Reset", SENDS | RESET,
        .ways = LOSSY | DROPS, .control = reset_once, .sends = 6),
    ROW("reset-during-interrupts", "a reset during traffic both ways, with interrupts", reset_rule, "Software Reset",
        RECEIVES | RESET | INTERRUPTS, .ways = LOSSY | DROPS, .setup = {.interrupts = true}, .control = reset_once,
        .takes = true, .sends = 3, .comes = 4, .late = 2),
    ROW("reset-twice", "two resets, then traffic", reset_rule, "Software Reset", RECEIVES | RESET,
        .ways = LOSSY | DROPS, .control = reset_twice, .takes = true, .comes = 3, .late = 2, .see = nicd_see_held),
    ROW("reset-during-chains", "a reset while frames in several buffers arrive",
        "A frame cut short by a reset is dropped", "Software Reset", RECEIVES | RESET, .ways = LOSSY | DROPS,
        .setup = {.frame = 5000}, .control = reset_during_frame, .takes = true, .comes = 2, .late = 2, .length = 5000),
    ROW("reset-memory", "three resets and a close leave nothing allocated",
        "A reset that allocates memory frees what it replaces", "the adapter's reset", RESET, .ways = LOSSY | DROPS,
        .control = reset_and_count, .takes = true, .comes = 2),
    ROW("fault-receive", "a receive queue is reset after a fault",
        "After a fault, a queue is off until software sets it up again", "the adapter's reset", PULLS | RESET,
        .ways = LOSSY | DROPS | FAULTY, .control = break_receive, .comes = 1, .late = 2, .end = judge_recovery),
    ROW("fault-send", "a transmit queue is reset after a fault",
        "After a fault, a queue is off until software sets it up again", "the adapter's reset", SENDS | RESET,
        .ways = LOSSY | DROPS | FAULTY, .control = break_send, .end = judge_recovery),
    {0}};

const struct scenario nicd_changes[] = {
    ROW("mtu-grows", "a larger MTU during traffic", "MAXFRS and JUMBOEN are set before longer frames arrive",
        "Maximum Frame Size", RECEIVES | MTU, .ways = LOSSY | DROPS, .control = grow_frames, .begin = come_longer),
    ROW("mtu-shrinks", "a smaller MTU during traffic", "A frame above MAXFRS is dropped", "Maximum Frame Size",
        RECEIVES | MTU, .ways = LOSSY | DROPS, .setup = {.frame = 4096}, .control = shrink_frames,
        .begin = come_shorter, .end = judge_shrunk),
    ROW("resize-during-traffic", "new rings during traffic", resize_rule, "Dynamic Disabling of Receive Queues",
        RECEIVES | RESIZE, .ways = LOSSY | DROPS, .control = make_rings_longer, .takes = true, .sends = 3, .comes = 4,
        .late = 12, .end = judge_rings, .see = nicd_see_held),
    ROW("resize-during-chains", "new rings while frames in several buffers arrive",
        "A frame cut short by the end of the old ring is dropped", "Dynamic Disabling of Receive Queues",
        RECEIVES | RESIZE, .ways = LOSSY | DROPS, .setup = {.frame = 5000}, .control = make_rings_longer, .takes = true,
        .comes = 2, .late = 2, .length = 5000, .end = judge_rings, .see = nicd_see_held),
    ROW("resize-refused", "new rings are requested, but an allocation fails",
        "A call that returns false changes nothing: traffic continues on the old rings", "the adapter's resize",
        RECEIVES | RESIZE, .ways = LOSSY | DROPS, .control = refuse_one, .takes = true, .sends = 3, .comes = 3,
        .late = 3, .see = nicd_see_held),
    {0}};
