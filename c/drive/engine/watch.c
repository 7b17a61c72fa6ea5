/* Tracks what the device does, step by step: where each frame is, and what was sent. Also records the coverage of all
   schedules. */
#define _DEFAULT_SOURCE
#include <inttypes.h>
#include <stdio.h>
#include <string.h>
#include <sys/mman.h>

#include "drive.h"

enum { REGISTERS = 0x20000 / 4, OFFSETS = 0x4000 / 4, KINDS = STEP_LINK + 1, STATUSES = 48, REASONS = 12 };

/* Shared by the processes of a search. A count may be low, because concurrent increments can be lost. */
struct seen {
    uint32_t registers[2][REGISTERS]; /* reads, writes */
    uint32_t offsets[2][OFFSETS];
    uint32_t replies[KINDS][STATUSES][REASONS];
    uint32_t delivered, sent;
};

static struct seen *seen;

/* --- coverage --- */

bool nicd_coverage_open(void)
{
    void *memory = mmap(NULL, sizeof *seen, PROT_READ | PROT_WRITE, MAP_SHARED | MAP_ANONYMOUS, -1, 0);
    seen = memory == MAP_FAILED ? NULL : memory;
    return seen != NULL && nicd_reach_open();
}

static void cover(const nicxo_step *step, bool is_drivers)
{
    bool is_write = step->kind == STEP_WRITE || step->kind == STEP_VF_WRITE;
    if (step->kind >= STEP_RX)
        seen->replies[step->kind][step->status % STATUSES][step->outcome.why % REASONS]++;
    if (!is_drivers)
        return;
    if ((step->kind == STEP_READ || step->kind == STEP_WRITE) && step->address / 4 < REGISTERS)
        seen->registers[is_write][step->address / 4]++;
    if ((step->kind == STEP_VF_READ || step->kind == STEP_VF_WRITE) && step->address / 4 < OFFSETS)
        seen->offsets[is_write][step->address / 4]++;
}

static void write_table(FILE *file, const char *kind, const uint32_t *counts, uint32_t length)
{
    for (uint32_t k = 0; k < length; k++)
        if (counts[k])
            fprintf(file, "%s 0x%05" PRIx32 " %" PRIu32 "\n", kind, 4 * k, counts[k]);
}

static const char *const steps[KINDS] = {
    [STEP_RX] = "rx",   [STEP_TX] = "tx",         [STEP_RX_ENABLE] = "qstep_rx", [STEP_TX_ENABLE] = "qstep_tx",
    [STEP_INT] = "int", [STEP_EEPROM] = "eestep", [STEP_ARRIVE] = "arrive",      [STEP_LINK] = "link"};

static void write_replies(FILE *file, unsigned kind)
{
    for (unsigned status = 0; status < STATUSES; status++)
        for (unsigned why = 0; why < REASONS; why++) {
            uint32_t count = seen->replies[kind][status][why];
            if (!count || status == NIC_IDLE)
                continue;
            const char *reason = status == NIC_DROPPED ? nic_why_name((uint8_t)why)
                                 : status == NIC_FAULT ? nic_fault_name((uint8_t)why)
                                                       : "";
            fprintf(file, "reply %" PRIu32 " %s %s %s\n", count, steps[kind], nic_status_name((uint8_t)status), reason);
        }
}

bool nicd_coverage_write(const char *path)
{
    FILE *file = fopen(path, "w");
    if (!file)
        return false;
    write_table(file, "read", seen->registers[0], REGISTERS);
    write_table(file, "write", seen->registers[1], REGISTERS);
    write_table(file, "vf_read", seen->offsets[0], OFFSETS);
    write_table(file, "vf_write", seen->offsets[1], OFFSETS);
    for (unsigned kind = STEP_RX; kind < KINDS; kind++)
        write_replies(file, kind);
    nicd_reach_write(file);
    fprintf(file, "delivered %" PRIu32 "\nsent %" PRIu32 "\n", seen->delivered, seen->sent);
    return fclose(file) == 0;
}

/* --- where frames are --- */

static struct frame_now *oldest(void)
{
    return nicd.oldest < nicd.let_in ? &nicd.frames[nicd.waiting[nicd.oldest]] : NULL;
}

static void see_arrival(const nicxo_step *step)
{
    struct frame_now *frame = &nicd.frames[step->of];
    frame->life = nicd.life;
    frame->era = nicd.era;
    frame->state = step->status == NIC_DONE ? WAITS : IS_DROPPED;
    frame->why = step->outcome.why;
    if (step->status == NIC_DONE)
        nicd.waiting[nicd.let_in++] = step->of;
}

/* Removes the oldest frame from the waiting ones, and sets its state. */
static void leave(uint8_t state)
{
    struct frame_now *frame = oldest();
    nicd.partial = -1;
    if (frame)
        frame->state = state;
    nicd.oldest += frame != NULL;
}

static void lose(enum lost why)
{
    if (oldest())
        oldest()->why = (uint8_t)why;
    leave(IS_LOST);
}

static void see_written(const nicxo_step *step)
{
    unsigned queue = (unsigned)(step->outcome.queue - nicd.base);
    nicd.partial = step->outcome.queue;
    if (!step->outcome.end || !oldest())
        return;
    uint16_t number = nicd.waiting[nicd.oldest];
    nicd.frames[number].queue = (uint8_t)step->outcome.queue;
    nicd.frames[number].slot = step->outcome.slot;
    nicd.frames[number].written_era = nicd.era;
    leave(IS_WRITTEN);
    if (queue < NICD_QUEUES)
        nicd.written[queue][nicd.written_count[queue]++] = number;
}

static void see_receive(const nicxo_step *step)
{
    struct frame_now *frame = oldest();
    if (step->status == NIC_WROTE) {
        see_written(step);
    } else if (step->status == NIC_DROPPED) {
        if (frame) {
            frame->why = step->outcome.why;
            frame->queue = (uint8_t)step->outcome.queue;
        }
        leave(IS_DROPPED);
    } else if (step->status == NIC_FAULT) {
        lose(BY_A_FAULT);
    }
}

/* If a queue is disabled in the middle of a frame, the rest of the frame is dropped. */
static void see_enable(const nicxo_step *step)
{
    if (nicd.partial == step->of && !(nicd_peek(NIC_RXDCTL(step->of)) & NIC_RXDCTL_ENABLE))
        lose(BY_A_QUEUE);
}

static void see_reset(void)
{
    while (oldest())
        lose(BY_A_RESET);
}

static bool is_reset(const nicxo_step *step)
{
    return step->kind == STEP_WRITE && step->address == NIC_CTRL && step->word & (NIC_CTRL_RST | NIC_CTRL_LRST);
}

/* Whether a step is a write with which the function's own driver or the PF's driver resets it. A reset discards the
   frames waiting for the virtual function's pool, the destination of all frames in the scenario. */
static bool is_pool_reset(const nicxo_step *step)
{
    bool is_functions = step->kind == STEP_VF_WRITE && step->address == NIC_VFCTRL;
    bool is_hosts = step->kind == STEP_WRITE && nicd.setup.port && step->address == NIC_PVFCTRL(nicd.setup.port - 1u);
    return (is_functions || is_hosts) && step->word & NIC_PVFCTRL_RST;
}

static void see_sent(const nicxo_step *step)
{
    unsigned queue = (unsigned)(step->outcome.queue - nicd.base);
    if (step->status == NIC_SENT && queue < NICD_QUEUES) {
        uint32_t slots = nicd_peek(NIC_TDLEN(step->outcome.queue)) / NIC_DESC_BYTES;
        uint32_t head = nicd_peek(NIC_TDH(step->outcome.queue));
        struct went *went = &nicd.out_slots[queue][nicd.went[queue] % MOST_OUT];
        went->slot = (uint16_t)(head ? head - 1 : slots - 1);
        went->back = step->outcome.back;
        nicd.went[queue]++;
        nicd.went_now[queue]++;
        seen->sent++;
    }
}

/* --- each step --- */

/* Whether the access was made for the driver, rather than by a thread that plays another part. */
static bool is_drivers(const nicxo_step *step)
{
    if (step->is_outside)
        return !nicd.by_card;
    return step->thread != NICXO_NO_THREAD && (step->thread >= NICX_TASKS || !(nicd.cards >> step->thread & 1));
}

/* The driver may lend and take back only memory from nicd_dma_alloc. */
static void judge_lent(const nicxo_step *step)
{
    if ((step->kind == STEP_LEND || step->kind == STEP_TAKE) && !nicd_memory_has(step->bus))
        nicd_note("the driver %s block %u, which nicd_dma_alloc didn't return",
                  step->kind == STEP_LEND ? "lends" : "takes back", (unsigned)step->address);
}

/* Reports a driver access to memory that isn't lent, relative to the driver's pieces. The explorer then ends the
   thread. */
static void judge_memory(const nicxo_step *step)
{
    char where[NICXO_PLACE];
    bool reads = step->kind == STEP_PEEK;
    if (step->status != NIC_NOT_LENT || (!reads && step->kind != STEP_POKE) || nicxo_thread() == NICXO_NO_THREAD ||
        nicd.scenario->ways & FAULTY)
        return;
    bool is_known = *nicxo_place(step, where);
    nicxo_fail(NICX_MEMORY, "%s%s %s 0x%llx, which isn't lent: %s%s", nicxo_thread_name(nicxo_thread()), where,
               reads ? "reads" : "writes", (unsigned long long)step->bus, nicd_memory_near(step->bus),
               is_known || !step->is_by_pointer || nicxo_is_foreign()
                   ? ""
                   : "; to see the line of the store, compile with -g and -fsanitize=thread");
}

/* Whether both halves of a transmit slot are 0: the tail was moved over it before the driver wrote it. */
static bool is_unwritten(uint64_t slot)
{
    uint64_t first = 0, second = 0;
    bool is_lent =
        nic_get64(nicx_device(), slot, &first) == NIC_DONE && nic_get64(nicx_device(), slot + 8, &second) == NIC_DONE;
    return is_lent && !first && !second;
}

/* Adds the slot to the explorer's message about a fault, and whether its descriptor or its buffer is at fault. */
static void tell_fault(const nicxo_step *step)
{
    bool sends = step->kind == STEP_TX;
    unsigned queue = step->outcome.queue;
    if (step->status != NIC_FAULT || nicxo_outcome() != NICX_FAULT)
        return;
    struct nicl_ring ring = nicl_ring_of(nicx_device(), sends, queue);
    uint64_t length = (uint64_t)NIC_DESC_BYTES * ring.slots;
    bool is_buffer = step->outcome.why == NIC_FAULT_NOT_LENT && step->outcome.bus - ring.base >= length;
    bool is_new =
        sends && step->outcome.why == NIC_FAULT_LEGACY && is_unwritten(ring.base + NIC_DESC_BYTES * ring.head);
    nicxo_add_words(" (%s slot %u, its %s%s)", sends ? "transmit" : "receive", (unsigned)ring.head,
                    is_buffer ? "buffer" : "descriptor",
                    is_new ? ": all 0: the tail was moved past it before it was written" : "");
    if (sends && step->outcome.why == NIC_FAULT_TOO_LONG && nicd.too_long)
        nicxo_put_words_first("send passed a %u-byte frame to the device, but the setup's longest is %u: ",
                              (unsigned)nicd.too_long, (unsigned)nicd.setup.frame);
}

/* Reports a write that the device ignores because the queue is enabled. */
void nicd_see_held(const nicxo_step *step, bool is_drivers)
{
    const struct {
        uint32_t first;
        const char *name;
    } held[] = {{NIC_RDBAL(0), "RDBAL"}, {NIC_RDLEN(0), "RDLEN"}, {NIC_RDH(0), "RDH"},
                {NIC_TDBAL(0), "TDBAL"}, {NIC_TDLEN(0), "TDLEN"}, {NIC_TDH(0), "TDH"}};
    if (!is_drivers || step->kind != STEP_WRITE || nicd_peek(step->address) == step->word)
        return;
    for (unsigned k = 0; k < sizeof held / sizeof *held; k++)
        for (unsigned queue = 0; queue < nicd.setup.queues; queue++)
            if (step->address == held[k].first + 0x40 * queue)
                nicd_note("%s(%u) is written while the queue is on: the device ignores it", held[k].name, queue);
}

/* After close has returned, only a handler that was already running may act for the driver. */
static void judge_ended(const nicxo_step *step)
{
    bool is_access = step->kind >= STEP_READ && step->kind <= STEP_TAKE;
    if (nicd.is_ended && is_access && step->thread < NICX_TASKS)
        nicd_note("%s still uses the device after close returned", nicxo_thread_name(step->thread));
}

/* Between suspend and resume the device must do nothing for the driver. The driver must not access the device, except
   in a handler that was already running. */
static void judge_sleep(const nicxo_step *step, bool is_of_driver)
{
    if (!nicd.is_asleep)
        return;
    if (step->kind == STEP_INT && step->status == NIC_MESSAGE && step->outcome.group == nicd.setup.port)
        nicd_note("vector %u sends a message while the driver is suspended: EIMS is 0x%08x, EICR 0x%08x",
                  step->outcome.vector,
                  (unsigned)nicd_peek(nicd.setup.port ? NIC_PVTEIMS(nicd.setup.port - 1u) : NIC_EIMS),
                  (unsigned)nicd_peek(nicd.setup.port ? NIC_PVTEICR(nicd.setup.port - 1u) : NIC_EICR));
    else if (step->kind == STEP_RX && step->status == NIC_WROTE)
        nicd_note("slot %u of receive queue %u is written while the driver is suspended: RXDCTL is 0x%08x",
                  step->outcome.slot, step->outcome.queue - nicd.base,
                  (unsigned)nicd_peek(NIC_RXDCTL(step->outcome.queue)));
    else if (step->kind == STEP_TX && (step->status == NIC_SENT || step->status == NIC_ADVANCED))
        nicd_note("transmit queue %u sends while the driver is suspended: TXDCTL is 0x%08x",
                  step->outcome.queue - nicd.base, (unsigned)nicd_peek(NIC_TXDCTL(step->outcome.queue)));
    else if (is_of_driver && step->kind >= STEP_READ && step->kind <= STEP_TAKE && nicxo_thread() < NICX_TASKS)
        nicd_note("%s uses the device while the driver is suspended", nicxo_thread_name(nicxo_thread()));
}

/* Converts an access at a register's alias to one at the register's first address, because rows check only that
   address. A write at an alias of bits 15:0 leaves the other bits unchanged. */
static nicxo_step by_first_address(const nicxo_step *made)
{
    nicxo_step step = *made;
    bool is_low = false;
    if (step.kind == STEP_READ || step.kind == STEP_WRITE)
        step.address = nicxo_first_address(step.address, &is_low);
    if (is_low && step.kind == STEP_WRITE)
        step.word = step.address == NIC_EIAM ? nicd_peek(NIC_EIAM) : step.word & 0xFFFF;
    return step;
}

void nicd_watch(const nicxo_step *made)
{
    const nicxo_step first = by_first_address(made), *step = &first;
    bool is_of_driver = step->kind < STEP_RX && is_drivers(step);
    cover(made, is_of_driver);
    nicd.events += step->kind >= STEP_RX;
    nicd_in_place_see(made);
    nicd.links += step->kind == STEP_LINK;
    tell_fault(step);
    judge_sleep(step, is_of_driver);
    nicd_reach_step(step, is_of_driver);
    if (is_of_driver) {
        judge_ended(step);
        judge_lent(step);
        judge_memory(step);
    }
    switch (step->kind) {
    case STEP_ARRIVE: see_arrival(step); break;
    case STEP_RX: see_receive(step); break;
    case STEP_TX: see_sent(step); break;
    case STEP_RX_ENABLE: see_enable(step); break;
    default:
        if (is_reset(step) || is_pool_reset(step))
            see_reset();
    }
    if (nicd.scenario->see)
        nicd.scenario->see(step, is_of_driver);
}

void nicd_watch_begin(void)
{
    memset(nicd.frames, 0, sizeof nicd.frames);
    memset(nicd.written_count, 0, sizeof nicd.written_count);
    memset(nicd.next, 0, sizeof nicd.next);
    memset(nicd.went, 0, sizeof nicd.went);
    nicd.count = nicd.late = nicd.oldest = nicd.let_in = 0;
    nicd.partial = -1;
    nicd_reach_begin();
}

void nicd_delivered_one(void)
{
    seen->delivered++;
}
