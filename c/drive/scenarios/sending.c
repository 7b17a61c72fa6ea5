/* Fields of transmit descriptors that the bench doesn't read, and how a driver learns that a frame was sent. */
#include "../engine/drive.h"

/* --- descriptors, judged after the fetch, which leaves the driver's values unchanged --- */

static struct {
    bool is_partial;  /* the frame's first descriptor was fetched, its last wasn't */
    uint32_t payload; /* PAYLEN of the first descriptor */
    uint16_t first;   /* slot of the first descriptor */
    uint32_t length;  /* sum of DTALEN so far */
} frame;

static uint64_t second_of(unsigned queue, unsigned slot)
{
    uint64_t half = 0;
    nic_get64(nicx_device(), nicl_ring_of(nicx_device(), true, queue).base + NIC_DESC_BYTES * slot + 8, &half);
    return half;
}

/* Returns the slot that the device has just fetched. */
static unsigned fetched(unsigned queue)
{
    struct nicl_ring ring = nicl_ring_of(nicx_device(), true, queue);
    return (ring.head ? ring.head : ring.slots) - 1;
}

static void judge_end(unsigned slot)
{
    if (frame.payload != frame.length)
        nicd_note("slot %u has PAYLEN %u for a %u-byte frame in slots %u to %u: the card reads PAYLEN, but the "
                  "bench doesn't",
                  frame.first, (unsigned)frame.payload, (unsigned)frame.length, frame.first, slot);
    frame.is_partial = false;
}

static void see_descriptor(const nicxo_step *step, bool is_drivers)
{
    (void)is_drivers;
    if (step->kind != STEP_TX || (step->status != NIC_SENT && step->status != NIC_ADVANCED))
        return;
    unsigned slot = fetched(step->outcome.queue);
    uint64_t second = second_of(step->outcome.queue, slot);
    if ((second & NIC_TXD_DTYP) != NIC_TXD_DTYP_IS(3))
        return;
    nicd_reach(DESCRIPTOR);
    if (!frame.is_partial) {
        frame.is_partial = true;
        frame.length = 0;
        frame.first = (uint16_t)slot;
        frame.payload = (uint32_t)nic_desc_field(second, NIC_TXD_PAYLEN);
    }
    frame.length += (uint32_t)nic_desc_field(second, NIC_TXD_DTALEN);
    if ((slot == frame.first || second & NIC_TXD_EOP) && !(second & NIC_TXD_IFCS))
        nicd_note("slot %u has no IFCS: the card sends the frame without a frame check sequence; the bench models none",
                  slot);
    if (second & NIC_TXD_EOP)
        judge_end(slot);
}

static void forget_frame(void)
{
    frame.is_partial = false;
}

static void send_short_and_long(void)
{
    nicd_send_surely(0, 60);
    nicd_send_surely(0, nicd.setup.frame);
    nicd_send_surely(0, 61);
    nicd_wait_until_out(0);
}

/* --- the write-back: DD in a slot, or the head if TDWBAL requests it --- */

static bool was_read; /* the driver has read a write-back since it last sent frames */
static bool has_head; /* the driver has read TDH */

static bool reaches(const nicxo_step *step, uint64_t at, uint32_t length)
{
    return step->bus < at + length && at < step->bus + step->length;
}

static uint64_t place_of_head(void)
{
    return ((uint64_t)nicd_peek(NIC_TDWBAH(0)) << 32 | nicd_peek(NIC_TDWBAL(0))) & ~UINT64_C(3);
}

static void see_write_back(const nicxo_step *step, bool is_drivers)
{
    struct nicl_ring ring = nicl_ring_of(nicx_device(), true, 0);
    uint64_t head = nicd_peek(NIC_TDWBAL(0));
    if (!is_drivers)
        return;
    has_head |= step->kind == STEP_READ && step->address == NIC_TDH(0);
    if (step->kind != STEP_PEEK)
        return;
    if (head & NIC_TDWBAL_HEAD_WB_EN)
        was_read |= reaches(step, place_of_head(), 4);
    for (unsigned slot = 0; slot < ring.slots; slot++)
        was_read |= reaches(step, ring.base + NIC_DESC_BYTES * slot + 12, 1) && second_of(0, slot) & NIC_TXWB_DD;
}

static bool have_gone(void *unused)
{
    (void)unused;
    return nicd.went[0] == nicd.accepted[0];
}

/* The card can't see reads through pointers. So it holds back the write-backs until all frames are sent: until then,
   reclaim could learn about them only from TDH. Then the write-backs become visible. */
static void reclaim_in_place(void)
{
    struct nicl_ring ring = nicl_ring_of(nicx_device(), true, 0);
    nicx_wait_until(have_gone, NULL);
    was_read = nicd_reclaim(0) != 0;
    nicd_in_place_copy(ring.base, (uint64_t)NIC_DESC_BYTES * ring.slots);
    nicd_in_place_copy(place_of_head(), 4);
    nicd.events++;
}

static void send_and_reclaim(void)
{
    for (unsigned round = 0; round < 3; round++) {
        was_read = has_head = false;
        nicd.holds_back = true; /* matters only if the ring is in place */
        for (unsigned k = 0; k < 3; k++)
            nicd_send_surely(0, 60);
        if (nicd_in_place_has(nicl_ring_of(nicx_device(), true, 0).base))
            reclaim_in_place();
        nicd.holds_back = false;
        nicd_wait_until_out(0);
        if (!was_read)
            nicd_failed(
                "reclaim reports all of queue 0 as transmitted, but read neither a slot's DD nor a head that the "
                "device wrote%s",
                has_head ? ": it read TDH, which on the card moves before the buffers are read" : "");
        nicd_reach(WRITTEN_BACK);
    }
}

const struct scenario nicd_descriptors[] = {
    ROW("send-descriptor", "transmit descriptor contents",
        "PAYLEN in the first descriptor is the length of the whole frame, and IFCS makes the card append the check "
        "sequence; the bench reads neither",
        "Advanced Transmit Data Descriptor", SENDS | PHYSICAL, .setup = {.frame = 1514}, .control = send_short_and_long,
        .begin = forget_frame, .see = see_descriptor),
    ROW("send-descriptor-chain", "the transmit descriptors of frames in several buffers",
        "PAYLEN in the first descriptor is the length of the whole frame, and IFCS makes the card append the check "
        "sequence; the bench reads neither",
        "Advanced Transmit Data Descriptor", SENDS | PHYSICAL, .setup = {.frame = 9014}, .control = send_short_and_long,
        .begin = forget_frame, .see = see_descriptor),
    {0}};

const struct scenario nicd_write_back[] = {
    ROW("send-write-back", "how reclaim detects that a frame was transmitted",
        "TDH moves when descriptors are fetched, before their buffers are read, so only DD or a head write-back shows "
        "that software owns a buffer again; on the bench TDH moves in the same step",
        "Transmit Descriptor Write-Back", SENDS | RECLAIMS | PHYSICAL, .control = send_and_reclaim,
        .see = see_write_back),
    {0}};
