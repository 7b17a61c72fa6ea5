/* Messages during a poll, late messages, masked causes, spurious handler calls. */
#include "../engine/drive.h"

static bool has_begun(void *unused)
{
    (void)unused;
    return nicd.let_in > 0;
}

/* Calls the handler without a message. */
static void call_for_nothing(void)
{
    nicx_wait_until(has_begun, NULL);
    for (unsigned k = 0; k < 2; k++) {
        nicd_interrupt(0);
        nicd_reach(SPURIOUS);
        nicx_point();
    }
}

static void come_spurious(void)
{
    nicd_take_frames();
    nicd_control(call_for_nothing);
    nicd_come_plain(3, 60);
}

static void come_by_flows(void)
{
    nicd_spread_flows();
    nicd_come_flows(NIC_RSS_TCP_IPV4, 6);
}

/* Returns the receive vector of a queue. The row checks that rearm enables the causes of its own queue only. */
static uint32_t vector_of(unsigned queue)
{
    return nicd_peek(NIC_IVAR(queue / 2)) >> 16 * (queue % 2) & 0xF;
}

static void rearm_one(void)
{
    nicd_hold();
    uint32_t other = UINT32_C(1) << vector_of(1);
    if (vector_of(0) == vector_of(1))
        return;
    nicd_reach(OWN_VECTORS);
    nicx_write32(NIC_EIMC, other);
    nicd_rearm(0);
    nicx_check(!(nicd_peek(NIC_EIMS) & other), "rearm of queue 0 enables the cause of queue 1 too");
    nicd_rearm(1);
    nicd_go_on();
}

static const char message_rule[] = "A frame that arrives between the last check of a ring and the unmasking of its "
                                   "cause still raises the cause, and the driver must not miss it";
static const char late_rule[] = "With an interval in EITR, one message covers many frames, so a poll receives all of "
                                "them; the bench doesn't throttle, so the report card calls the handler late";

const struct scenario nicd_interrupts[] = {
    ROW("interrupt-receive", "interrupts for received frames", message_rule, "Interrupt Causes", RECEIVES | INTERRUPTS,
        .setup = {.interrupts = true}, .takes = true, .comes = 4),
    ROW("interrupt-both-ways", "interrupts for received and sent frames", message_rule, "Interrupt Causes",
        RECEIVES | SENDS | INTERRUPTS, .setup = {.interrupts = true}, .takes = true, .sends = 4, .comes = 3),
    ROW("interrupt-two-queues", "two queues, each with its own vector",
        "IVAR has a byte for each queue and direction, each with a valid bit", "Interrupt Vector Allocation",
        RECEIVES | INTERRUPTS, .setup = {.queues = 2, .interrupts = true}, .begin = come_by_flows, .takes = true),
    ROW("interrupt-spurious", "the handler is called without a new frame",
        "The handler may be called even if nothing happened", "the adapter's interrupt", RECEIVES | INTERRUPTS,
        .setup = {.interrupts = true}, .begin = come_spurious),
    ROW("interrupt-late", "the handler is called only when the ring is full", late_rule, "Extended Interrupt Throttle",
        RECEIVES | INTERRUPTS, .ways = LATE, .setup = {.interrupts = true}, .takes = true, .rings = 2, .comes = 3),
    ROW("interrupt-late-both-ways", "the handler is called late during traffic both ways", late_rule,
        "Extended Interrupt Throttle", RECEIVES | SENDS | INTERRUPTS, .ways = LATE, .setup = {.interrupts = true},
        .takes = true, .sends = 4, .comes = 3),
    ROW("interrupt-often", "the handler is called more often than the interval allows",
        "An interval in EITR guarantees no minimum gap: a low-latency interrupt may arrive before the interval ends, "
        "and a poll "
        "may take longer",
        "Extended Interrupt Throttle", RECEIVES | INTERRUPTS, .ways = OFTEN, .setup = {.interrupts = true},
        .takes = true, .comes = 4),
    ROW("interrupt-rearm-alone", "rearm enables only its own queue's cause",
        "A write to EIMS enables every cause written as 1; the cause of a queue being polled stays masked",
        "Extended Interrupt Mask Set", PULLS | INTERRUPTS, .setup = {.queues = 2, .interrupts = true},
        .control = rearm_one),
    {0}};
