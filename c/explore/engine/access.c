/* A driver's calls. Each is a point, followed by the access. Outside of tasks, accesses take effect immediately. */
#define _DEFAULT_SOURCE
#include <stdio.h>
#include <stdlib.h>
#include <string.h>

#include "checkpoint.h"
#include "engine.h"
#include "independent.h"
#include "left.h"
#include "parts.h"
#include "places.h"
#include "stored.h"
#include "weak.h"
#include "words.h"

enum { POLLS = 8, ENABLE = 1 << 25, MOST_WAITS = 100000 };

/* The current or last access made outside of threads. */
static struct step outside;
/* During bring-up: whether the device has no step left to run. */
static bool is_settled;

/* Prepares an access, before other actors may run. */
static struct step *before(uint8_t kind)
{
    struct thread *self = nicxi.self;
    struct step *step = self ? &self->next : &outside;
    step->kind = kind;
    step->is_published = step->is_overtaken = false;
    return step;
}

/* --- loops that keep reading the same value count as waiting --- */

void nicxi_forget_polls(struct polls *polls)
{
    memset(polls->seen, 0xFF, sizeof polls->seen);
    polls->next = polls->times = 0;
}

void nicxi_outside_begins(void)
{
    memset(&outside, 0, sizeof outside);
    is_settled = false;
    nicxi.waits = 0;
    nicxi_forget_polls(&nicxi.outside);
}

static struct polls *polls_of(struct thread *self)
{
    return self ? &self->polls : &nicxi.outside;
}

/* Gives other actors the chance to run. Returns false if the thread is left. */
static bool let_others(struct thread *self)
{
    if (polls_of(self)->times >= POLLS) {
        if (self)
            self->state = PAUSED;
        else
            nicxi_wait_outside();
    }
    if (!self)
        return true;
    nicxi_next(self);
    if (nicxi_is_left())
        return false;
    nicxi_went_on(self);
    return true;
}

/* Notes a read. A value counts as new unless one of the last reads returned it. */
static void note_poll(const struct step *step)
{
    enum { KEPT = sizeof nicxi.outside.seen / sizeof *nicxi.outside.seen };
    struct polls *polls = polls_of(nicxi.self);
    uint32_t k = 0, place = (uint32_t)step->kind << 28 ^ (uint32_t)step->vf << 20 ^ step->address;
    while (k < KEPT && polls->seen[k][0] != place)
        k++;
    if (k < KEPT && polls->seen[k][1] == step->word) {
        polls->times++;
        return;
    }
    polls->times = 0;
    if (k == KEPT) {
        k = polls->next;
        polls->next = (k + 1) % KEPT;
    }
    polls->seen[k][0] = place;
    polls->seen[k][1] = step->word;
}

/* The call that makes an access; for nested calls, the outermost one. */
static const void *outside_call;

static const void **call_of(struct thread *self)
{
    return self ? &self->call : &outside_call;
}

void nicxi_note_call(const void *at)
{
    const void **call = call_of(nicxi.self);
    if (!*call)
        *call = at;
}

static void note_call(const void *return_address)
{
    nicxi_note_call((const char *)return_address - 1);
}

static void note_set(uint32_t address)
{
    nicxi_note_set(address, *call_of(nicxi.self));
}

static void note_change(void)
{
    polls_of(nicxi.self)->times = 0;
}

/* Called before a virtual function's access: notes the physical function's address for the same register. */
static void note_physical(struct step *step)
{
    step->physical = nicxi_physical(nicxi_peek(NIC_GCR_EXT), step->vf, step->address);
}

/* Whether a step changes something that others can see. For most registers, a read doesn't. */
static bool is_change(const struct step *step)
{
    uint32_t word = 0;
    switch (step->kind) {
    case STEP_PEEK: return false;
    case STEP_READ: return nic_peek32(&nicxi.device, step->address, &word) == NIC_DONE && word != step->word;
    case STEP_VF_READ:
        return nic_vf_peek32(&nicxi.device, step->vf, step->address, &word) == NIC_DONE && word != step->word;
    default: return true;
    }
}

/* --- notes: not failures, but reported after the search --- */

static const char *outside_name(void)
{
    return nicxi.phase == BRINGING_UP ? "the bring-up" : "begin or end";
}

static void note_stray(const struct step *step)
{
    char words[MOST_WORDS];
    struct notes *notes = nicxi.notes;
    if (step->status == NIC_STRAY && !notes->strays++)
        snprintf(notes->stray, sizeof notes->stray, "%s: %s", nicxi.self ? nicxi.self->name : outside_name(),
                 nicxi_words(step, words));
}

/* Notes an enable request for a queue that never turns on, because it isn't below `queues`. */
static void note_beyond(const struct step *step)
{
    uint32_t address = step->kind == STEP_WRITE ? step->address : step->physical;
    if ((step->kind != STEP_WRITE && step->kind != STEP_VF_WRITE) || !(step->word & ENABLE) || nicxi.notes->beyond)
        return;
    for (uint32_t queue = nicxi.scenario->queues; queue < NIC_RXDCTL_COUNT; queue++)
        if (address == NIC_RXDCTL(queue) || address == NIC_TXDCTL(queue))
            nicxi.notes->beyond = queue + 1;
}

/* Called after an access: wakes the actors for which the access may have created work, and passes it to the
   listeners. */
static void after(const struct step *step)
{
    nicxi_wake(step);
    if (step->kind == STEP_WRITE && step->address == NIC_CTRL && step->word & (NIC_CTRL_RST | NIC_CTRL_LRST))
        nicxi_cover_reset();
    note_stray(step);
    note_beyond(step);
    if (!nicxi.self && is_change(step)) {
        nicxi.waits = 0;
        is_settled = false;
    }
    if (nicxi.self && nicxi.self->is_void && is_change(step))
        nicxi.self->is_void = false;
    nicxi_announce(step);
    *call_of(nicxi.self) = NULL;
}

/* --- access to memory that isn't lent: the driver's failure, unless it is allowed --- */

/* The last blocks taken back in a schedule, each with its thread and call. */
enum { MOST_TAKEN = 16 };

static struct {
    uint64_t epoch, block;
    const char *name;
    const void *call;
} taken_back[MOST_TAKEN];
static unsigned next_taken;

void nicxi_access_part(struct checkpoint *it)
{
    nicxi_part(it, &outside, sizeof outside);
    nicxi_part(it, &is_settled, sizeof is_settled);
    nicxi_part(it, &outside_call, sizeof outside_call);
    nicxi_part(it, taken_back, sizeof taken_back);
    nicxi_part(it, &next_taken, sizeof next_taken);
}

static void note_taken(const struct step *step)
{
    if (step->kind != STEP_TAKE || step->status != NIC_DONE || !nicxi.self)
        return;
    taken_back[next_taken].epoch = nicxi.epoch;
    taken_back[next_taken].block = step->address;
    taken_back[next_taken].name = nicxi.self->name;
    taken_back[next_taken].call = nicxi.self->call;
    next_taken = (next_taken + 1) % MOST_TAKEN;
}

const char *nicxi_taken_words(uint64_t bus, char room[MOST_WORDS])
{
    char where[MOST_PLACE];
    room[0] = 0;
    for (unsigned k = 1; k <= MOST_TAKEN && !*room; k++) {
        unsigned at = (next_taken + MOST_TAKEN - k) % MOST_TAKEN;
        if (taken_back[at].epoch != nicxi.epoch || taken_back[at].block != bus / NIC_BLOCK_BYTES)
            continue;
        const char *call = taken_back[at].call;
        bool is_known = *nicxi_line_of_call(call ? call + 1 : NULL, where);
        snprintf(room, MOST_WORDS, "; %.40s took block %llu back%s%.60s", taken_back[at].name,
                 (unsigned long long)taken_back[at].block, is_known ? " at " : "", where);
    }
    return room;
}

static void judge(const struct step *step)
{
    char where[MOST_PLACE], slot[MOST_WORDS], back[MOST_WORDS];
    if (step->status != NIC_NOT_LENT || !nicxi.self || (nicxi.scenario->allowed & NICX_NOT_LENT))
        return;
    bool is_known = *nicxi_place_here(where);
    nicxi_failed(NICX_MEMORY, "%s%s%s %s 0x%llx%s, which isn't lent%s", nicxi.self->name, is_known ? " at " : "", where,
                 step->kind == STEP_PEEK   ? "reads"
                 : step->kind == STEP_POKE ? "writes"
                                           : "takes back",
                 (unsigned long long)step->bus, nicxi_slot_words(step->bus, slot), nicxi_taken_words(step->bus, back));
    nicxi_leave();
}

/* --- registers --- */

/* With weak memory a register access is a barrier if the scenario says so. On x86 a write comes after all earlier
   stores anyway. */
static void order_before(void)
{
    if (nicxi.is_weak && nicxi.self && (nicxi.is_tso || nicxi.scenario->memory & NICX_WRITES_ORDER))
        nicxi_released(nicxi.self);
}

static void order_after(void)
{
    if (nicxi.is_weak && nicxi.self && nicxi.scenario->memory & NICX_READS_ORDER)
        nicxi_acquired(nicxi.self);
}

uint32_t nicx_read32(uint32_t address)
{
    if (!nicxi_may_act())
        return 0;
    struct step *step = before(STEP_READ);
    step->address = address;
    if (!let_others(nicxi.self))
        return 0;
    step->status = nic_read32(&nicxi.device, address, &step->word);
    order_after();
    note_poll(step);
    after(step);
    return step->word;
}

uint8_t nicx_write32(uint32_t address, uint32_t word)
{
    if (!nicxi_may_act())
        return NIC_STRAY;
    note_call(__builtin_return_address(0));
    struct step *step = before(STEP_WRITE);
    step->address = address;
    step->word = word;
    note_change();
    if (!let_others(nicxi.self))
        return NIC_STRAY;
    order_before();
    step->status = nic_write32(&nicxi.device, address, word);
    note_set(address);
    after(step);
    return step->status;
}

uint32_t nicx_vf_read32(uint8_t vf, uint32_t offset)
{
    if (!nicxi_may_act())
        return 0;
    struct step *step = before(STEP_VF_READ);
    step->vf = vf;
    step->address = offset;
    if (!let_others(nicxi.self))
        return 0;
    note_physical(step);
    step->status = nic_vf_read32(&nicxi.device, vf, offset, &step->word);
    order_after();
    note_poll(step);
    after(step);
    return step->word;
}

uint8_t nicx_vf_write32(uint8_t vf, uint32_t offset, uint32_t word)
{
    if (!nicxi_may_act())
        return NIC_STRAY;
    note_call(__builtin_return_address(0));
    struct step *step = before(STEP_VF_WRITE);
    step->vf = vf;
    step->address = offset;
    step->word = word;
    note_change();
    if (!let_others(nicxi.self))
        return NIC_STRAY;
    note_physical(step);
    order_before();
    step->status = nic_vf_write32(&nicxi.device, vf, offset, word);
    note_set(step->physical);
    after(step);
    return step->status;
}

/* --- memory --- */

static uint8_t load(struct step *step, uint8_t *bytes)
{
    if (nicxi.is_weak && nicxi.self)
        return nicxi_load(step, bytes);
    return nic_dma_read(&nicxi.device, step->bus, bytes, step->length);
}

static uint8_t store(struct step *step, const uint8_t *bytes)
{
    if (nicxi.is_weak && nicxi.self)
        return nicxi_store(step, bytes);
    uint8_t status = nic_dma_write(&nicxi.device, step->bus, bytes, step->length);
    if (nicxi.is_weak)
        nicxi_memory_changed(step);
    return status;
}

uint8_t nicx_dma_read(uint64_t bus, uint8_t *bytes, size_t length)
{
    if (!nicxi_may_act())
        return NIC_NOT_LENT;
    note_call(__builtin_return_address(0));
    struct step *step = before(STEP_PEEK);
    step->bus = bus;
    step->length = (uint32_t)length;
    step->address = (uint32_t)bus;
    if (!let_others(nicxi.self))
        return NIC_NOT_LENT;
    step->status = load(step, bytes);
    step->word = length ? bytes[0] : 0;
    note_poll(step);
    after(step);
    judge(step);
    return step->status;
}

/* Stores the bytes that the source of a pointer store returns after the point. If it returns none, another thread wrote
   the store to the device before this step, and the memory may be taken back by now. */
static uint8_t store_published(struct step *step, nicxo_bytes_at *source)
{
    const uint8_t *bytes = source(step->bus, step->length);
    step->is_overtaken = !bytes;
    return bytes ? store(step, bytes) : NIC_DONE;
}

/* Writes `bytes`, or, if there is a `source`, the bytes that it returns after the point. */
static uint8_t nicxi_write_bytes(uint64_t bus, const uint8_t *bytes, nicxo_bytes_at *source, size_t length)
{
    struct step *step = before(STEP_POKE);
    step->bus = bus;
    step->length = (uint32_t)length;
    step->is_published = source;
    note_change();
    if (!let_others(nicxi.self))
        return NIC_NOT_LENT;
    step->is_kept = false;
    step->status = source ? store_published(step, source) : store(step, bytes);
    if (!source)
        nicxi_note_stored(bus, length, *call_of(nicxi.self));
    after(step);
    judge(step);
    return step->status;
}

uint8_t nicx_dma_write(uint64_t bus, const uint8_t *bytes, size_t length)
{
    if (!nicxi_may_act())
        return NIC_NOT_LENT;
    note_call(__builtin_return_address(0));
    return nicxi_write_bytes(bus, bytes, NULL, length);
}

uint8_t nicxo_write(uint64_t bus, nicxo_bytes_at *source, size_t length)
{
    return nicxi_write_bytes(bus, NULL, source, length);
}

uint64_t nicx_get64(uint64_t bus)
{
    uint8_t bytes[8] = {0};
    uint64_t value = 0;
    note_call(__builtin_return_address(0));
    nicx_dma_read(bus, bytes, sizeof bytes);
    for (int k = 0; k < 8; k++)
        value |= (uint64_t)bytes[k] << 8 * k;
    return value;
}

uint8_t nicx_put64(uint64_t bus, uint64_t value)
{
    uint8_t bytes[8];
    for (int k = 0; k < 8; k++)
        bytes[k] = (uint8_t)(value >> 8 * k);
    note_call(__builtin_return_address(0));
    return nicx_dma_write(bus, bytes, sizeof bytes);
}

static uint8_t move_block(uint8_t kind, uint32_t block)
{
    if (!nicxi_may_act())
        return NIC_NOT_LENT;
    struct step *step = before(kind);
    step->address = block;
    step->bus = (uint64_t)block * NIC_BLOCK_BYTES;
    note_change();
    if (!let_others(nicxi.self))
        return NIC_NOT_LENT;
    if (nicxi.is_weak && nicxi.self)
        nicxi_released(nicxi.self);
    step->status = kind == STEP_LEND ? nic_lend(&nicxi.device, block) : nic_take(&nicxi.device, block);
    if (nicxi.is_weak)
        nicxi_memory_moved(block);
    note_taken(step);
    after(step);
    judge(step);
    return step->status;
}

uint8_t nicx_lend(uint32_t block)
{
    return move_block(STEP_LEND, block);
}

uint8_t nicx_take(uint32_t block)
{
    note_call(__builtin_return_address(0));
    return move_block(STEP_TAKE, block);
}

/* --- the driver's own memory, if its accesses are observed --- */

void nicxi_memory_point(enum local local, uint64_t at, uint32_t size)
{
    struct step *step = before(STEP_LOCAL);
    step->word = (uint32_t)local;
    step->bus = at;
    step->length = size;
    if (!let_others(nicxi.self))
        return;
    nicxi_announce(step);
}

static struct step *before_atomic(const struct atomic *atomic)
{
    struct step *step = before(STEP_LOCAL);
    step->word = LOCAL_ATOMIC;
    step->bus = atomic->at;
    step->length = atomic->size;
    step->order = (uint8_t)atomic->order;
    step->operation = STORES;
    step->value = atomic->operand;
    return step;
}

static uint64_t changed_by(const struct atomic *atomic, uint64_t old)
{
    switch (atomic->kind) {
    case DO_ADD: return old + atomic->operand;
    case DO_SUB: return old - atomic->operand;
    case DO_AND: return old & atomic->operand;
    case DO_OR: return old | atomic->operand;
    case DO_XOR: return old ^ atomic->operand;
    case DO_NAND: return ~(old & atomic->operand);
    default: return atomic->operand;
    }
}

/* Notes what the operation will do with the current value. If the thread has a pending store there, that is the current
   value. */
static void note_atomic(struct step *step, const struct atomic *atomic)
{
    uint64_t old = 0, whole = atomic->size < 8 ? (UINT64_C(1) << 8 * atomic->size) - 1 : UINT64_MAX;
    if (atomic->kind == DO_STORE || atomic->size > sizeof old)
        return;
    memcpy(&old, (const void *)(uintptr_t)atomic->at, atomic->size);
    if (nicxi.is_weak)
        nicxi_load_own(atomic->at, &old, atomic->size);
    bool is_compare = atomic->kind == DO_COMPARE && (old ^ atomic->expected) & whole;
    step->operation = atomic->kind == DO_LOAD ? LOADS : is_compare ? COMPARES : CHANGES;
    step->value = old;
    step->other = (is_compare ? atomic->expected : changed_by(atomic, old)) & whole;
}

void nicxi_atomic_point(const struct atomic *atomic)
{
    struct step *step = before_atomic(atomic);
    if (!let_others(nicxi.self))
        return;
    note_atomic(step, atomic);
    nicxi_announce(step);
}

int nicxi_store_point(const struct atomic *atomic, const void *bytes, bool releases)
{
    struct step *step = before_atomic(atomic);
    if (!let_others(nicxi.self))
        return -1;
    int slot = nicxi_keep_own(atomic->at, bytes, atomic->size, releases);
    step->is_kept = slot >= 0;
    nicxi_announce(step);
    step->is_kept = false;
    return slot;
}

void nicxi_polled(uint64_t at, uint64_t value)
{
    struct step step = {.kind = STEP_LOCAL, .address = (uint32_t)at, .word = (uint32_t)(value ^ value >> 32)};
    note_poll(&step);
}

void nicxi_changed_memory(void)
{
    note_change();
    if (nicxi.self)
        nicxi.self->is_void = false;
}

/* --- device steps that a thread itself requests --- */

void nicxi_asks(const char *call)
{
    struct thread *self = nicxi.self;
    if (!nicxi_may_act() || !self)
        return;
    self->next.kind = STEP_LOCAL;
    self->next.word = LOCAL_CALL;
    self->next.call = call;
    self->next.bus = 0;
    let_others(self);
}

void nicxi_asked_in_vain(void)
{
    if (nicxi.self)
        nicxi_announce(&nicxi.self->next);
}

/* The step also counts as the driver's, so the search treats no other step as independent of it. */
void nicxi_asked(struct step *step)
{
    bool is_made = step->status != NIC_IDLE && step->status != NIC_NO_GROUP;
    step->waits = true;
    nicxi_judge(step);
    if (is_made && nicxi.phase == RUNNING)
        nicxi_cover_step(step);
    if (is_made)
        note_change();
    nicxi_forget_stored(step);
    after(step);
    nicxi_name_giver(step);
}

/* --- in `bring_up` --- */

nic *nicx_device(void)
{
    nicxi.is_changed = true;
    return &nicxi.device;
}

/* Whether the caller is neither a thread nor a function that may only read. */
static bool is_outside(const char *call)
{
    if (!nicxi_may_act())
        return false;
    if (!nicxi.self)
        return true;
    nicxi_failed(NICX_MISUSE, "%s calls %s, which only bring_up may call", nicxi.self->name, call);
    nicxi_leave();
    return false;
}

uint8_t nicx_lend_all(void)
{
    uint8_t status = NIC_DONE;
    if (!is_outside("nicx_lend_all"))
        return NIC_NOT_LENT;
    for (uint32_t block = 0; block < nicxi.scenario->blocks && status != NIC_OUT_OF_MEMORY; block++)
        status = nicx_lend(block);
    return status == NIC_OUT_OF_MEMORY ? status : (uint8_t)NIC_DONE;
}

static void settle(void)
{
    nicxi_list_actors();
    for (bool acted = true; acted;) {
        acted = false;
        for (uint16_t k = 0; k < nicxi.count; k++) {
            struct step step = {0};
            if (nicxi.actors[k].kind < BY_RX || nicxi.actors[k].kind > BY_EEPROM)
                continue;
            if (!nicxi_device_step(&nicxi.actors[k], &step))
                continue;
            acted = true;
            after(&step);
        }
    }
    is_settled = true;
}

void nicx_settle(void)
{
    if (!is_outside("nicx_settle"))
        return;
    if (nicxi.phase == BRINGING_UP)
        settle();
    else
        nicxi_failed(NICX_MISUSE, "only bring_up may call nicx_settle");
}

void (*nicxi_gives_up)(const char *words);

/* Reports an endless wait and exits. No search is running yet that could notice the hang. */
static void give_up(void)
{
    char words[MOST_WORDS], access[MOST_WORDS + 24] = "", beyond[48] = "", all[sizeof access + 128];
    if (outside.kind != STEP_NONE)
        snprintf(access, sizeof access, "; last access: %s", nicxi_words(&outside, words));
    if (nicxi.notes->beyond)
        snprintf(beyond, sizeof beyond, "; queue %u isn't below .queues", (unsigned)nicxi.notes->beyond - 1);
    snprintf(all, sizeof all, "%s waits forever: the device has no step left%s%s",
             nicxi.phase == BRINGING_UP ? "bring_up" : "begin", access, beyond);
    if (nicxi_gives_up)
        nicxi_gives_up(all);
    fprintf(stderr, "%s: %s\n", nicxi.scenario->name, all);
    exit(2);
}

void nicxi_wait_outside(void)
{
    if ((nicxi.phase != BRINGING_UP && nicxi.phase != BEGINNING) || nicxi.is_program)
        return;
    if (!is_settled)
        settle();
    if (++nicxi.waits > MOST_WAITS)
        give_up();
}
