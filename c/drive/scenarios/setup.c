/* How a driver configures the controller: order and values, including where the bench is more lenient than the card. */
#include "../engine/drive.h"

enum { OTHERS_ACT = 6 }; /* link changes, which may occur between an ENABLE write and the queue's own step */

#define EITR_RESERVED UINT32_C(0x70007007)

static struct {
    bool is_masked; /* all causes were masked by EIMC since the last reset */
    bool was_reset;
    uint32_t highs[2]; /* bit masks of the queues whose RDBAH or TDBAH was written */
} seen;

/* Whether an address belongs, for one of the queues, to the register that begins at `first`. Stores the queue. */
static bool is_of_queue(uint32_t address, uint32_t first, unsigned *queue)
{
    *queue = (address - first) / 0x40;
    return (address - first) % 0x40 == 0 && *queue < NICD_QUEUES;
}

static bool is_write(const nicxo_step *step, bool is_drivers)
{
    return is_drivers && step->kind == STEP_WRITE;
}

/* --- order --- */

static void see_transmit_enable(const nicxo_step *step, bool is_drivers)
{
    unsigned queue;
    if (is_write(step, is_drivers) && is_of_queue(step->address, NIC_TXDCTL(0), &queue) &&
        step->word & NIC_TXDCTL_ENABLE && !(nicd_peek(NIC_DMATXCTL) & NIC_DMATXCTL_TE))
        nicd_note("TXDCTL(%u) enables the queue while DMATXCTL.TE is 0", queue);
}

static void see_tail(const nicxo_step *step, bool is_drivers)
{
    unsigned queue;
    if (is_write(step, is_drivers) && is_of_queue(step->address, NIC_RDT(0), &queue) && step->word &&
        !(nicd_peek(NIC_RXDCTL(queue)) & NIC_RXDCTL_ENABLE))
        nicd_note("RDT(%u) is advanced to %u while RXDCTL.ENABLE reads 0", queue, (unsigned)step->word);
}

static void see_head(const nicxo_step *step, bool is_drivers)
{
    unsigned queue;
    if (!is_write(step, is_drivers))
        return;
    if (is_of_queue(step->address, NIC_RDH(0), &queue) && nicd_peek(NIC_RXDCTL(queue)) & NIC_RXDCTL_ENABLE)
        nicd_note("RDH(%u) is written while the queue is on", queue);
    else if (is_of_queue(step->address, NIC_TDH(0), &queue) && nicd_peek(NIC_TXDCTL(queue)) & NIC_TXDCTL_ENABLE)
        nicd_note("TDH(%u) is written while the queue is on", queue);
}

/* Whether a register must be configured before reception is enabled. */
static bool is_before_reception(uint32_t address)
{
    return address == NIC_HLREG0 || address == NIC_MAXFRS || address == NIC_RDRXCTL || address == NIC_RXCSUM ||
           address == NIC_MRQC || (address >= NIC_RSSRK(0) && address <= NIC_RSSRK(9)) ||
           (address >= NIC_RETA(0) && address <= NIC_RETA(31)) ||
           (address >= NIC_SRRCTL(0) && address % 0x40 == 0x14 && address < 0x2000);
}

static void see_reception(const nicxo_step *step, bool is_drivers)
{
    char name[NICXO_NAME];
    if (is_write(step, is_drivers) && is_before_reception(step->address) && nicd_peek(NIC_RXCTRL) & NIC_RXCTRL_RXEN)
        nicd_note("%s is written after RXCTRL.RXEN", nicxo_register(step->address, name));
}

static void see_masks(const nicxo_step *step, bool is_drivers)
{
    bool is_reset = step->address == NIC_CTRL && step->word & (NIC_CTRL_RST | NIC_CTRL_LRST);
    if (!is_write(step, is_drivers))
        return;
    if (step->address == NIC_EIMC && (step->word & 0x7FFFFFFF) == 0x7FFFFFFF)
        seen.is_masked = true;
    if (is_reset && !seen.is_masked)
        nicd_note("CTRL.RST is written without an earlier write of 0x7fffffff to EIMC: EIMS is 0x%08x",
                  (unsigned)nicd_peek(NIC_EIMS));
    if (!is_reset)
        return;
    seen.was_reset = true;
    seen.is_masked = false;
}

/* Reports a queue's cause that is enabled before its vector is valid, or a vector that is written while causes of
   queues are enabled. */
static void see_vectors(const nicxo_step *step, bool is_drivers)
{
    uint32_t enabled = nicd_peek(NIC_EIMS) & NIC_EICR_RTXQ;
    bool names = step->address >= NIC_IVAR(0) && step->address <= NIC_IVAR(63) && step->address % 4 == 0;
    if (!is_write(step, is_drivers) || !enabled)
        return;
    if (names)
        nicd_note("IVAR(%u) is written while EIMS is 0x%08x: a frame that arrived before has no vector",
                  (unsigned)(step->address - NIC_IVAR(0)) / 4, (unsigned)nicd_peek(NIC_EIMS));
    for (unsigned queue = 0; queue < nicd.setup.queues && step->address == NIC_EIMS; queue++)
        if (!(nicd_peek(NIC_IVAR(queue / 2)) >> 16 * (queue % 2) & 0x80))
            nicd_note("EIMS enables the queue causes 0x%04x, but the IVAR byte of receive queue %u isn't valid",
                      (unsigned)enabled, queue);
}

/* In MSI-X mode, a read of EICR doesn't clear the causes of queues on the card. On the bench it does. */
static void see_cause_read(const nicxo_step *step, bool is_drivers)
{
    uint32_t mode = nicd_peek(NIC_GPIE);
    if (is_drivers && step->kind == STEP_READ && step->address == NIC_EICR && step->word & NIC_EICR_RTXQ &&
        mode & NIC_GPIE_MULTIPLE_MSIX && !(mode & NIC_GPIE_OCD))
        nicd_note("a read of EICR clears the queue causes 0x%04x on the bench; with MSI-X the card leaves them",
                  (unsigned)(step->word & NIC_EICR_RTXQ));
}

/* --- values, checked at each access --- */

/* The high half of a ring's address is undefined after a reset. On the bench it is 0. */
static void see_high_half(const nicxo_step *step)
{
    const struct {
        uint32_t high, control;
        const char *name;
    } sides[2] = {{NIC_RDBAH(0), NIC_RXDCTL(0), "RDBAH"}, {NIC_TDBAH(0), NIC_TXDCTL(0), "TDBAH"}};
    unsigned queue;
    for (unsigned side = 0; side < 2; side++) {
        if (is_of_queue(step->address, sides[side].high, &queue))
            seen.highs[side] |= 1u << queue;
        if (is_of_queue(step->address, sides[side].control, &queue) && step->word & NIC_RXDCTL_ENABLE &&
            !(seen.highs[side] >> queue & 1))
            nicd_note("queue %u is enabled before %s(%u) was written: the register is undefined on the card but 0 on "
                      "the bench",
                      queue, sides[side].name, queue);
    }
}

static void see_ring(const nicxo_step *step, bool is_drivers)
{
    unsigned queue;
    uint32_t address = step->address, word = step->word;
    char name[NICXO_NAME];
    if (!is_write(step, is_drivers))
        return;
    see_high_half(step);
    if ((is_of_queue(address, NIC_RDBAL(0), &queue) || is_of_queue(address, NIC_TDBAL(0), &queue)) && word % 128)
        nicd_note("%s is written with 0x%x: a ring's address must be a multiple of 128", nicxo_register(address, name),
                  (unsigned)word);
    if ((is_of_queue(address, NIC_RDLEN(0), &queue) || is_of_queue(address, NIC_TDLEN(0), &queue)) &&
        (word % 128 || word != NIC_DESC_BYTES * (uint32_t)nicd.setup.slots))
        nicd_note("%s is written with %u bytes: %u slots of 16 bytes each were requested",
                  nicxo_register(address, name), (unsigned)word, nicd.setup.slots);
    if ((is_of_queue(address, NIC_RDT(0), &queue) || is_of_queue(address, NIC_TDT(0), &queue)) &&
        word >= nicd.setup.slots)
        nicd_note("%s is advanced to %u, but the ring has slots 0 to %u", nicxo_register(address, name), (unsigned)word,
                  nicd.setup.slots - 1u);
}

static void see_buffers(const nicxo_step *step, bool is_drivers)
{
    unsigned queue;
    if (!is_write(step, is_drivers) || !is_of_queue(step->address, NIC_SRRCTL(0), &queue))
        return;
    if (nic_field(step->word, NIC_SRRCTL_DESCTYPE) != 1)
        nicd_note("SRRCTL(%u).DESCTYPE is %u: it must be 1 (advanced, one buffer)", queue,
                  (unsigned)nic_field(step->word, NIC_SRRCTL_DESCTYPE));
    if (!nic_field(step->word, NIC_SRRCTL_BSIZEPACKET) || nic_field(step->word, NIC_SRRCTL_BSIZEPACKET) > 16)
        nicd_note("SRRCTL(%u).BSIZEPACKET is %u: it must be 1 to 16 (KB)", queue,
                  (unsigned)nic_field(step->word, NIC_SRRCTL_BSIZEPACKET));
}

static void see_address(const nicxo_step *step, bool is_drivers)
{
    if (is_write(step, is_drivers) && step->address >= NIC_RAH(0) && step->address <= NIC_RAH(127) &&
        step->address % 8 == 4 && step->word & 0x7FFF0000)
        nicd_note("RAH(%u) is written with 0x%08x: bits 30:16 are reserved", (unsigned)(step->address - NIC_RAH(0)) / 8,
                  (unsigned)step->word);
}

static void see_thresholds(const nicxo_step *step, bool is_drivers)
{
    unsigned queue;
    uint32_t word = step->word;
    if (!is_write(step, is_drivers) || !is_of_queue(step->address, NIC_TXDCTL(0), &queue) ||
        !(word & NIC_TXDCTL_ENABLE))
        return;
    if (nic_field(word, NIC_TXDCTL_PTHRESH) && !nic_field(word, NIC_TXDCTL_HTHRESH))
        nicd_note("TXDCTL(%u) has PTHRESH %u and HTHRESH 0: the card needs HTHRESH of at least 1", queue,
                  (unsigned)nic_field(word, NIC_TXDCTL_PTHRESH));
    if (nic_field(word, NIC_TXDCTL_WTHRESH) && nicd_peek(NIC_TDWBAL(queue)) & NIC_TDWBAL_HEAD_WB_EN)
        nicd_note("TXDCTL(%u) has WTHRESH %u with head write-back", queue,
                  (unsigned)nic_field(word, NIC_TXDCTL_WTHRESH));
}

static uint32_t eitr_vectors; /* vectors with an interval */

static void see_moderation(const nicxo_step *step, bool is_drivers)
{
    for (unsigned vector = 0; vector < 16 && is_write(step, is_drivers); vector++) {
        if (step->address != NIC_EITR(vector))
            continue;
        eitr_vectors |= step->word & NIC_EITR_ITR_INTERVAL ? 1u << vector : 0;
        if (step->word & EITR_RESERVED)
            nicd_note("EITR(%u) is written with 0x%08x: bits 30:28, 14:12 and 2:0 are reserved; the interval is in "
                      "11:3",
                      vector, (unsigned)step->word);
    }
}

static void see_alignment(const nicxo_step *step, bool is_drivers)
{
    if (is_drivers && step->kind >= STEP_READ && step->kind <= STEP_VF_WRITE && step->address % 4)
        nicd_note("0x%05x isn't a multiple of 4, so it isn't a register's address", (unsigned)step->address);
}

/* --- values, checked after open --- */

static void check_crc(void)
{
    bool strips = nicd_peek(NIC_RDRXCTL) & NIC_RDRXCTL_CRCSTRIP, said = nicd_peek(NIC_HLREG0) & NIC_HLREG0_RXCRCSTRP;
    nicx_check(strips == said, "RDRXCTL.CRCSTRIP differs from HLREG0.RXCRCSTRP");
}

static void check_fixes(void)
{
    uint32_t word = nicd_peek(NIC_RDRXCTL);
    nicx_check(word & NIC_RDRXCTL_RSCACKC && word & NIC_RDRXCTL_FCOE_WRFIX,
               "RDRXCTL.RSCACKC or FCOE_WRFIX is 0: software sets both after each reset");
}

static void check_mode(void)
{
    nicx_check(
        nicd_peek(NIC_GPIE) & NIC_GPIE_MULTIPLE_MSIX,
        "GPIE.MULTIPLE_MSIX is 0: the card then sends no separate message for each vector; if the driver uses INTx "
        "or MSI, declare NICD_NO_MSIX");
    if (nicd_peek(NIC_EIAM) & NIC_EIAM_RTXQ && !(nicd_peek(NIC_GPIE) & NIC_GPIE_EIAME))
        nicd_failed("EIAM is 0x%08x but GPIE.EIAME is 0: no message masks its cause", (unsigned)nicd_peek(NIC_EIAM));
}

static void check_vectors(void)
{
    for (unsigned queue = 0; queue < nicd.setup.queues; queue++) {
        uint32_t byte = nicd_peek(NIC_IVAR(queue / 2)) >> 16 * (queue % 2);
        if (!(byte & 0x80))
            nicd_failed("the IVAR byte of receive queue %u isn't valid: 0x%02x", queue, (unsigned)byte & 0xFF);
    }
}

static void check_enables(void)
{
    for (unsigned queue = 0; queue < nicd.setup.queues; queue++) {
        if (nicd.driver->receive && !(nicd_peek(NIC_RXDCTL(queue)) & NIC_RXDCTL_ENABLE))
            nicd_failed("open returns before receive queue %u is on: RXDCTL is 0x%08x", queue,
                        (unsigned)nicd_peek(NIC_RXDCTL(queue)));
        if (nicd.driver->send && !(nicd_peek(NIC_TXDCTL(queue)) & NIC_TXDCTL_ENABLE))
            nicd_failed("open returns before transmit queue %u is on: TXDCTL is 0x%08x", queue,
                        (unsigned)nicd_peek(NIC_TXDCTL(queue)));
    }
}

static bool is_named(unsigned vector, uint32_t word)
{
    for (unsigned k = 0; k < 32; k += 8)
        if (word >> k & 0x80 && (word >> k & 0x3F) == vector)
            return true;
    return false;
}

/* An interval belongs to a vector rather than to a queue. */
static void check_moderation(void)
{
    for (unsigned vector = 0; vector < 16; vector++) {
        bool is_used = is_named(vector, nicd_peek(NIC_IVAR_MISC));
        for (unsigned pair = 0; 2 * pair < nicd.setup.queues; pair++)
            is_used |= is_named(vector, nicd_peek(NIC_IVAR(pair)));
        if (eitr_vectors >> vector & 1 && !is_used)
            nicd_failed("EITR(%u) has an interval, but neither IVAR nor IVAR_MISC names vector %u", vector, vector);
    }
}

static void check_length(void)
{
    uint32_t most = nic_field(nicd_peek(NIC_MAXFRS), NIC_MAXFRS_MFS);
    nicx_check(nicd_peek(NIC_HLREG0) & NIC_HLREG0_JUMBOEN, "HLREG0.JUMBOEN is 0, but longer frames were requested");
    if (most < nicd.setup.frame + 4)
        nicd_failed("MAXFRS.MFS is %u, but %u-byte frames are 4 bytes longer on the wire", (unsigned)most,
                    (unsigned)nicd.setup.frame);
}

static void check_masks(void)
{
    if (nicd_peek(NIC_EIMS))
        nicd_failed("EIMS is 0x%08x, but the setup uses no interrupts", (unsigned)nicd_peek(NIC_EIMS));
}

static void check_after_reset(void)
{
    nicx_check(!seen.was_reset || seen.is_masked, "CTRL.RST was written without a later write of 0x7fffffff to EIMC");
}

static void check_loaded(void)
{
    nicx_check(nicd_peek(NIC_CTRL_EXT) & NIC_CTRL_EXT_DRV_LOAD, "CTRL_EXT.DRV_LOAD is 0 although the driver is open");
    nicd_close();
    nicx_check(!(nicd_peek(NIC_CTRL_EXT) & NIC_CTRL_EXT_DRV_LOAD),
               "CTRL_EXT.DRV_LOAD is 1 although the driver is closed");
}

static void check_hash(void)
{
    nicd_spread_flows();
    uint32_t mode = nicd_peek(NIC_MRQC);
    if (mode & NIC_MRQC_MRQE)
        nicd_reach(HASHES);
    nicx_check(!(mode & NIC_MRQC_MRQE) || nicd_peek(NIC_RXCSUM) & NIC_RXCSUM_PCSD,
               "RXCSUM.PCSD is 0: the descriptor holds a checksum instead of the hash");
}

static void check_drop(void)
{
    for (unsigned queue = 0; queue < nicd.setup.queues; queue++)
        if (!(nicd_peek(NIC_SRRCTL(queue)) & NIC_SRRCTL_DROP_EN))
            nicd_failed("SRRCTL(%u).DROP_EN is 0: if that queue is full, no other queue receives a frame", queue);
}

static void open_and_check(void)
{
    nicx_check(nicd_open(), "open returned false");
    if (nicd.scenario->opened)
        nicd.scenario->opened();
}

static void forget(void)
{
    seen.is_masked = seen.was_reset = false;
    seen.highs[0] = seen.highs[1] = 0;
    eitr_vectors = 0;
}

#define SEES(row, need, what, function, words, section)                                                                \
    ROW(row, what, words, section, need, .ways = OPENS, .control = open_and_check, .begin = forget, .see = function)
#define CHECKS(row, need, what, function, words, section, ...)                                                         \
    ROW(row, what, words, section, need, .ways = OPENS, .setup = {__VA_ARGS__}, .control = open_and_check,             \
        .begin = forget, .opened = function)

const struct scenario nicd_setup_rows[] = {
    SEES("setup-transmit-order", SENDS | PHYSICAL, "DMATXCTL.TE is set before a queue is enabled", see_transmit_enable,
         "DMATXCTL.TE is set before TXDCTL.ENABLE of any queue; the bench accepts any order",
         "Transmit Initialization"),
    ROW("setup-tail-order", "the tail is advanced after the queue is on",
        "RDT is advanced after RXDCTL.ENABLE reads 1; the bench accepts any order", "Receive Initialization",
        RECEIVES | PHYSICAL, .ways = OPENS, .control = open_and_check, .begin = forget, .links = OTHERS_ACT,
        .see = see_tail),
    SEES("setup-head-order", RECEIVES | PHYSICAL, "heads are written while their queue is off", see_head,
         "RDH and TDH are written before the queue is enabled: the bench ignores later writes",
         "Receive Descriptor Head"),
    SEES("setup-reception-last", RECEIVES | PHYSICAL, "reception is enabled last", see_reception,
         "RXCTRL.RXEN is set after all other settings of the receive path; the bench accepts any order",
         "Receive Initialization"),
    SEES("setup-masked-before-reset", PHYSICAL, "causes are masked before a reset", see_masks,
         "Software masks all causes before it resets the device", "Interrupts During Initialization"),
    CHECKS("setup-masked-after-reset", PHYSICAL, "causes are masked again after a reset", check_after_reset,
           "After a reset all causes are masked again before the device is set up", "Interrupts During Initialization",
           .queues = 1),
    CHECKS("setup-masked-polling", PULLS | PHYSICAL, "a polling driver enables no cause", check_masks,
           "EIMS enables only causes that have a handler", "the adapter's open", .queues = 1),
    SEES("setup-ring-values", RECEIVES | PHYSICAL, "ring addresses, lengths and tails", see_ring,
         "A ring's address and length are multiples of 128; the bench drops the low bits. Software writes both halves "
         "of the address, which are undefined after a reset",
         "Receive Descriptor Base Address"),
    SEES("setup-buffer-values", RECEIVES | PHYSICAL, "the receive descriptor type and the buffer size", see_buffers,
         "DESCTYPE 1 is the advanced descriptor with one buffer; BSIZEPACKET is the buffer's size in KB",
         "Split Receive Control"),
    SEES("setup-address-values", PHYSICAL, "reserved bits in the receive addresses", see_address,
         "Bits 30:16 of RAH are reserved and written as 0; the bench keeps them", "Receive Address High"),
    SEES("setup-thresholds", SENDS | PHYSICAL, "transmit descriptor thresholds", see_thresholds,
         "PTHRESH above 0 requires HTHRESH of at least 1, and head write-back requires WTHRESH 0; the thresholds have "
         "no effect on the bench",
         "Transmit Descriptor Control"),
    SEES("setup-alignment", 0, "register accesses are aligned", see_alignment,
         "A register's address is a multiple of 4", "Register Conventions"),
    ROW("setup-enables-polled", "open waits for its queues",
        "ENABLE becomes 1 some time after it is written, and software polls it", "Receive Descriptor Control", PHYSICAL,
        .ways = OPENS, .control = open_and_check, .begin = forget, .links = OTHERS_ACT, .opened = check_enables),
    CHECKS("setup-crc", RECEIVES | PHYSICAL, "both registers agree on stripping the check sequence", check_crc,
           "RDRXCTL.CRCSTRIP and HLREG0.RXCRCSTRP are equal; RDRXCTL has no effect on the bench", "Receive DMA Control",
           .queues = 1),
    CHECKS("setup-rdrxctl", RECEIVES | PHYSICAL, "the bits of RDRXCTL that software must set", check_fixes,
           "Software sets RSCACKC and FCOE_WRFIX after each reset; RDRXCTL has no effect on the bench",
           "Receive DMA Control", .queues = 1),
    CHECKS(
        "setup-gpie", INTERRUPTS | PHYSICAL | MSIX, "GPIE's settings for MSI-X", check_mode,
        "GPIE.MULTIPLE_MSIX must be 1 so that each vector has its own message; the bench sends one regardless of GPIE. "
        "With MSI-X, EIAM masks a cause when its message is sent only if EIAME is 1",
        "General Purpose Interrupt Enable", .interrupts = true),
    CHECKS("setup-vectors", INTERRUPTS | RECEIVES | PHYSICAL, "each receive queue has a vector", check_vectors,
           "An IVAR byte is used only if its valid bit is 1", "Interrupt Vector Allocation", .interrupts = true),
    ROW("setup-vector-order", "queue causes are enabled after their vectors are set",
        "IVAR names a queue's vector before EIMS enables its cause", "Interrupt Vector Allocation",
        RECEIVES | INTERRUPTS | PHYSICAL, .ways = OPENS, .setup = {.interrupts = true}, .control = open_and_check,
        .begin = forget, .see = see_vectors),
    ROW("setup-moderation", "a vector's interval",
        "EITR holds a vector's interval in bits 11:3; it has no effect on the bench", "Extended Interrupt Throttle",
        INTERRUPTS | PHYSICAL, .ways = OPENS, .setup = {.queues = 1, .interrupts = true}, .control = open_and_check,
        .begin = forget, .opened = check_moderation, .see = see_moderation),
    ROW("setup-cause-read", "reads don't clear queue causes",
        "With MSI-X a queue's cause is cleared by EIAC or by a write to EICR; on the bench a read clears it too, "
        "unless GPIE.OCD is 1",
        "Extended Interrupt Cause", RECEIVES | INTERRUPTS | PHYSICAL, .setup = {.interrupts = true}, .takes = true,
        .comes = 3, .see = see_cause_read),
    ROW("setup-tails-in-use", "tails stay within the ring, even after a wrap",
        "A tail is a slot number within the ring; the last slot is followed by slot 0", "Receive Descriptor Tail",
        RECEIVES | PHYSICAL, .takes = true, .rings = 1, .sends = 2, .comes = 2, .see = see_ring),
    CHECKS("setup-long-frames", PHYSICAL, "the limits for longer frames", check_length,
           "Frames above 1,518 bytes on the wire need HLREG0.JUMBOEN; MAXFRS includes the check sequence",
           "Maximum Frame Size", .frame = 4096),
    CHECKS("setup-hash", PHYSICAL, "the descriptor holds the hash", check_hash,
           "RXCSUM.PCSD selects the hash instead of a fragment's checksum", "Receive Checksum Control", .queues = 2),
    CHECKS("setup-drop", RECEIVES | PHYSICAL, "with several queues, a full queue drops frames", check_drop,
           "With DROP_EN, a frame without a free descriptor is dropped; otherwise all frames after it wait",
           "Split Receive Control", .queues = 2),
    CHECKS("setup-loaded", PHYSICAL, "the firmware learns that a driver is loaded", check_loaded,
           "A driver sets DRV_LOAD when it loads and clears it when it unloads; the bit has no effect on the bench",
           "Extended Device Control", .queues = 1),
    {0}};
