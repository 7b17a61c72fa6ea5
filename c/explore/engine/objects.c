#include "objects.h"

#include <stdarg.h>
#include <stdio.h>
#include <string.h>

#include "words.h"

static void add(struct objects *objects, const char *form, ...)
{
    char name[MOST_OBJECT_NAME];
    va_list list;
    va_start(list, form);
    vsnprintf(name, sizeof name, form, list);
    va_end(list);
    for (uint32_t k = 0; k < objects->count; k++)
        if (!strcmp(objects->names[k], name))
            return;
    if (objects->count < MOST_OBJECTS)
        memcpy(objects->names[objects->count++], name, sizeof name);
}

/* --- memory: slots of rings, otherwise a block --- */

static void add_memory(struct objects *objects, uint64_t bus, uint32_t length)
{
    enum { MOST_SLOTS = 3 };
    bool is_in_ring = false;
    for (uint32_t k = 0; k < 2u * nicxi.scenario->queues; k++) {
        struct nicl_ring ring = nicl_ring_of(&nicxi.device, k & 1, k / 2);
        uint64_t ring_end = ring.base + (uint64_t)NIC_DESC_BYTES * ring.slots;
        uint64_t end = bus + length < ring_end ? bus + length : ring_end;
        uint64_t at = bus > ring.base ? bus : ring.base;
        for (uint32_t slots = 0; at < end && slots < MOST_SLOTS; slots++) {
            uint64_t slot = (at - ring.base) / NIC_DESC_BYTES;
            add(objects, "%s %u slot %u", k & 1 ? "tx" : "rx", (unsigned)(k / 2), (unsigned)slot);
            at = ring.base + (slot + 1) * NIC_DESC_BYTES;
            is_in_ring = true;
        }
    }
    if (!is_in_ring)
        add(objects, "block %llu", (unsigned long long)(bus / NIC_BLOCK_BYTES));
}

/* --- registers --- */

static void add_queue(struct objects *objects, uint32_t address)
{
    for (uint32_t queue = 0; queue < nicxi.scenario->queues; queue++) {
        if (address == NIC_RDT(queue) || address == NIC_RDH(queue) || address == NIC_RXDCTL(queue) ||
            address == NIC_RDBAL(queue) || address == NIC_RDLEN(queue) || address == NIC_SRRCTL(queue))
            add(objects, "rx %u", (unsigned)queue);
        if (address == NIC_TDT(queue) || address == NIC_TDH(queue) || address == NIC_TXDCTL(queue) ||
            address == NIC_TDBAL(queue) || address == NIC_TDLEN(queue))
            add(objects, "tx %u", (unsigned)queue);
    }
}

static void add_register(struct objects *objects, uint32_t address)
{
    for (uint32_t vf = 0; vf < nicxi.scenario->vfs; vf++) {
        if (address == NIC_PFMAILBOX(vf) || (address >= NIC_PFMBMEM(16 * vf) && address <= NIC_PFMBMEM(16 * vf + 15)))
            add(objects, "mailbox %u", (unsigned)vf);
        if (address == NIC_PFMBICR(vf / 16))
            add(objects, "mailbox %u", (unsigned)vf);
    }
    if (address >= 0x00800 && address < 0x00A00)
        add(objects, "interrupts of pf");
    if (address == NIC_LINKS || address == NIC_CTRL)
        add(objects, address == NIC_LINKS ? "link" : "device");
    add_queue(objects, address);
}

static void add_offset(struct objects *objects, const struct step *step)
{
    enum { MAILBOX = 0x2FC, MAILBOX_MEMORY = 0x200, MAILBOX_END = 0x240, INTERRUPTS = 0x100 };
    if (step->address == MAILBOX || (step->address >= MAILBOX_MEMORY && step->address < MAILBOX_END))
        add(objects, "mailbox %u", step->vf);
    else if (step->address >= INTERRUPTS && step->address < MAILBOX_MEMORY)
        add(objects, "interrupts of vf %u", step->vf);
    else if (step->physical != NO_ADDRESS)
        add_queue(objects, step->physical);
}

/* --- device steps --- */

static void add_interrupts(struct objects *objects, unsigned group)
{
    if (group)
        add(objects, "interrupts of vf %u", group - 1);
    else
        add(objects, "interrupts of pf");
}

static void add_received(struct objects *objects, const struct step *step)
{
    int frame = nicxi_frame_in_hand(step->status != NIC_WROTE || step->outcome.end);
    if (frame >= 0)
        add(objects, "frame %d", frame);
    if (step->status == NIC_WROTE) {
        add(objects, "rx %u slot %u", step->outcome.queue, step->outcome.slot);
        add(objects, "block %llu", (unsigned long long)(step->outcome.at / NIC_BLOCK_BYTES));
    }
    if (step->status == NIC_WROTE || step->status == NIC_FAULT)
        add(objects, "rx %u", step->outcome.queue);
}

/* After a transmit step the head is at the next slot, unless the step failed with a fault. */
static void add_sent(struct objects *objects, const struct step *step)
{
    struct nicl_ring ring = nicl_ring_of(&nicxi.device, true, step->of);
    uint32_t back = step->status != NIC_FAULT;
    if (ring.slots)
        add(objects, "tx %u slot %u", step->of, (unsigned)((ring.head + ring.slots - back) % ring.slots));
    add(objects, "tx %u", step->of);
}

static void add_step(struct objects *objects, const struct step *step)
{
    switch (step->kind) {
    case STEP_RX: add_received(objects, step); break;
    case STEP_TX: add_sent(objects, step); break;
    case STEP_RX_ENABLE: add(objects, "rx %u", step->of); break;
    case STEP_TX_ENABLE: add(objects, "tx %u", step->of); break;
    case STEP_INT: add_interrupts(objects, step->of); break;
    case STEP_EEPROM: add(objects, "EEPROM"); break;
    case STEP_ARRIVE: add(objects, "frame %u", step->of); break;
    default: add(objects, "link"); break;
    }
}

/* --- the driver's own memory: a variable, or the object of a thread call --- */

static void add_own(struct objects *objects, const struct step *step)
{
    static const char *const kinds[][2] = {{"mutex", "lock"},     {"mtx_", "lock"},       {"spin", "lock"},
                                           {"rwlock", "lock"},    {"cond_", "condition"}, {"cnd_", "condition"},
                                           {"sem_", "semaphore"}, {"barrier", "barrier"}};
    char name[MOST_WORDS];
    if (!step->bus)
        return;
    nicxi_own_name(step->bus, name);
    if (step->word != LOCAL_CALL)
        add(objects, "%.80s", name);
    for (size_t k = 0; step->word == LOCAL_CALL && k < sizeof kinds / sizeof *kinds; k++)
        if (strstr(step->call, kinds[k][0]))
            add(objects, "%s %.80s", kinds[k][1], name);
}

void nicxi_objects(const struct step *step, const char *about, struct objects *objects)
{
    objects->count = 0;
    switch (step->kind) {
    case STEP_NONE: break;
    case STEP_LOCAL:
        if (*about)
            add(objects, "%s%s", step->word == LOCAL_UNTIL ? "" : "lock ", about);
        else if (step->word >= LOCAL_CALL)
            add_own(objects, step);
        break;
    case STEP_READ:
    case STEP_WRITE: add_register(objects, step->address); break;
    case STEP_VF_READ:
    case STEP_VF_WRITE: add_offset(objects, step); break;
    case STEP_STORE:
        if (!step->is_own)
            add_memory(objects, step->bus, step->length);
        break;
    case STEP_PEEK:
    case STEP_POKE: add_memory(objects, step->bus, step->length); break;
    case STEP_LEND:
    case STEP_TAKE: add(objects, "block %u", (unsigned)step->address); break;
    case STEP_VALUE:
    case STEP_START: break;
    default: add_step(objects, step); break;
    }
}
