/* Rings that wrap, are full, are empty or have one slot left; bursts; traffic in both directions. */
#include "../engine/drive.h"

/* Whether the ring is full. The row receives no frame before it is. */
static bool is_full(void *unused)
{
    (void)unused;
    return nicd.written_count[0] >= nicd.setup.slots - 1u || nicd.let_in == 0;
}

/* Whether a frame is neither delivered nor dropped yet. */
static bool is_one_left(void)
{
    for (uint16_t k = 0; k < nicd.count; k++)
        if (nicd.frames[k].state != IS_DELIVERED && nicd.frames[k].state != IS_DROPPED)
            return true;
    return false;
}

static void take_late(void)
{
    nicx_wait_until(is_full, NULL);
    while (is_one_left()) {
        uint32_t seen = nicd_before_look();
        if (!nicd_receive(0))
            nicd_wait_for_event(seen);
    }
}

static void look_at_nothing(void)
{
    for (unsigned k = 0; k < 3; k++) {
        nicd_frame *frame = &nicd.room[0].frame;
        nicx_check(!nicd.driver->receive(0, frame), "receive returned true, but no frame arrived");
        nicd_reach(LOOKED);
    }
}

/* Sends until the ring refuses a frame, then sends more as slots become free. */
static void fill_up(void)
{
    uint32_t taken = 0;
    while (taken < 2u * nicd.setup.slots && nicd_send(0, 60))
        taken++;
    if (taken < 2u * nicd.setup.slots)
        nicd_reach(SEND_REFUSED);
    for (uint32_t k = 0; k < 4; k++)
        nicd_send_surely(0, 60);
    nicd_wait_until_out(0);
}

static void send_by_two(void)
{
    nicd_send_frames(0, 3, 60);
    nicd_send_frames(0, 3, 60);
}

static void use_two_queues(void)
{
    nicd_spread_flows();
    nicd_take_frames();
    nicd_send_frames(0, 3, 60);
    nicd_send_frames(1, 3, 60);
    nicd_come_flows(NIC_RSS_TCP_IPV4, 8);
}

/* Tries to send a frame longer than the setup allows. */
static void send_too_long(void)
{
    nicd.too_long = nicd.setup.frame + 1;
    if (nicd_send(0, nicd.too_long))
        nicd_failed("send on queue 0 accepts a %u-byte frame, but the setup's longest is %u", (unsigned)nicd.too_long,
                    (unsigned)nicd.setup.frame);
    nicd.too_long = 0;
    nicd_send_surely(0, nicd.setup.frame);
}

static const char tail_rule[] =
    "If head and tail are equal, the device owns no descriptor, so software leaves one slot of the ring free";
static const char done_rule[] = "Software owns a descriptor again only after the device has set DD in it";
static const char reuse_rule[] =
    "The device owns a buffer from the tail write until its descriptor is reported as done";

const struct scenario nicd_rings[] = {
    ROW("receive-one", "one frame is received", done_rule, "Receive Descriptor Write-Back", RECEIVES, .takes = true,
        .comes = 1),
    ROW("receive-empty", "receive is called without a new frame", done_rule, "Receive Descriptor Write-Back", PULLS,
        .control = look_at_nothing),
    ROW("receive-burst", "as many frames arrive as the ring has room for", tail_rule, "Receive Descriptor Ring",
        RECEIVES, .takes = true, .rings = 1, .comes = -1),
    ROW("receive-wrap", "every slot of the ring receives frames, more than twice",
        "After the last slot the device wraps to the first; a tail is a slot number within the ring",
        "Receive Descriptor Ring", RECEIVES, .takes = true, .rings = 2, .comes = 2),
    ROW("receive-wrap-16", "every slot of a 16-slot ring receives frames, more than twice",
        "Software sets the length of a ring, in multiples of 128 bytes", "Receive Descriptor Length", RECEIVES,
        .setup = {.slots = 16}, .takes = true, .rings = 2, .comes = 2),
    ROW("receive-wrap-24", "every slot of a 24-slot ring (not a power of two) receives frames",
        "Software sets the length of a ring, in multiples of 128 bytes", "Receive Descriptor Length", RECEIVES,
        .setup = {.slots = 24}, .takes = true, .rings = 1, .comes = 10),
    ROW("receive-full", "the ring is full before receive is first called", tail_rule, "Receive Descriptor Ring", PULLS,
        .ways = UNPOLLED, .control = take_late, .rings = 1, .comes = 4),
    ROW("send-one", "one frame is sent", reuse_rule, "Transmit Descriptor Write-Back", SENDS, .sends = 1),
    ROW("send-wrap", "every slot of the ring sends frames, more than twice", reuse_rule, "Transmit Descriptor Ring",
        SENDS, .rings = 2, .sends = 2),
    ROW("send-wrap-16", "every slot of a 16-slot ring sends frames, more than twice", reuse_rule,
        "Transmit Descriptor Ring", SENDS, .setup = {.slots = 16}, .rings = 2, .sends = 2),
    ROW("send-wrap-24", "every slot of a 24-slot ring (not a power of two) sends frames", reuse_rule,
        "Transmit Descriptor Ring", SENDS, .setup = {.slots = 24}, .rings = 1, .sends = 10),
    ROW("send-full", "frames are sent until the ring is full, then more", tail_rule, "Transmit Descriptor Ring", SENDS,
        .control = fill_up),
    ROW("send-too-long", "send is called with a frame longer than the setup allows",
        "The device doesn't send a frame above MAXFRS, so the driver refuses it", "Maximum Frame Size", SENDS,
        .control = send_too_long),
    ROW("send-two-threads", "two threads send on one queue", "Only one thread at a time may write a ring's slot",
        "NICD_SHARED_SEND", SENDS | SHARED_SEND, .begin = send_by_two),
    ROW("both-ways", "frames are received and sent at the same time",
        "A queue's receive and transmit rings are independent", "Descriptor Rings", RECEIVES | SENDS, .takes = true,
        .sends = 6, .comes = 6),
    ROW("two-queues", "two queues on separate threads, traffic both ways", "Queues share only the device's registers",
        "Multiple Queues", RECEIVES | SENDS, .setup = {.queues = 2, .slots = 16}, .begin = use_two_queues),
    {0}};
