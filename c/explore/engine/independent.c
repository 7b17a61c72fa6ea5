/* The table of independent steps. Each row names the laws by which neither step changes anything that the other one
   changes or looks at. They are contracts of functions in crates/device_laws (`dev:`) and crates/register_laws
   (`reg:`). `dev: event_stays_within_its_reach` bounds what each event changes; a row's other law says what one of the
   two steps leaves unchanged. What a step looks at follows from its definition, and from the laws about its results. No
   law states it directly, so c/explore/tests/orders.c runs each row's steps in both orders from random states.

   The rows are about steps that do something. Each step is recorded with its result. Steps without a row aren't
   independent: steps that count or raise causes, as two receive or transmit steps do. Two steps of the driver are
   independent only if neither touches own memory that the other one changes. The search knows that if it sees the
   driver's accesses (nicxi_touched), or if the scenario says that it is race-free. A virtual function's access counts
   as the physical function's at the address for its offset (`dev: vf_access_is_the_physical_functions`). That address
   depends on the mode in GCR_EXT, which no device step and no frame changes (`dev: other_events_keep_settings`). */
#include "independent.h"

/* --- the queue's side that a register belongs to --- */

enum { NO_SIDE = -1 };

static bool is_of_a_side(uint32_t offset, bool transmit)
{
    switch (offset) {
    case 0x00:
    case 0x04:
    case 0x08:
    case 0x10:
    case 0x18:
    case 0x28: return true;
    case 0x14: return !transmit;
    case 0x38:
    case 0x3C: return transmit;
    default: return false;
    }
}

/* 2 q for queue q's receive side, 2 q + 1 for its transmit side. */
int nicxi_side_of_register(uint32_t address)
{
    int base = address >= 0x01000 && address < 0x02000   ? 0x01000
               : address >= 0x0D000 && address < 0x0E000 ? 0x0D000 - 64 * 0x40
               : address >= 0x06000 && address < 0x08000 ? 0x06000
                                                         : NO_SIDE;
    if (base == NO_SIDE || !is_of_a_side(address % 0x40, base == 0x06000))
        return NO_SIDE;
    return 2 * (((int)address - base) / 0x40) + (base == 0x06000);
}

/* --- the address of a virtual function's access --- */

uint32_t nicxi_physical(uint32_t gcr_ext, uint8_t vf, uint32_t offset)
{
    uint32_t address = NO_ADDRESS;
    nic_vf_address(gcr_ext, vf, offset, &address);
    return address;
}

/* The physical function's address of an access by either port. */
static uint32_t address_of(const struct step *step)
{
    return step->kind == STEP_VF_READ || step->kind == STEP_VF_WRITE ? step->physical : step->address;
}

/* Returns the side of a device step. If a frame was dropped, its queue isn't reported. */
int nicxi_side_of_step(const struct step *step)
{
    switch (step->kind) {
    case STEP_RX: return step->status == NIC_WROTE || step->status == NIC_FAULT ? 2 * step->outcome.queue : NO_SIDE;
    case STEP_TX: return 2 * step->of + 1;
    case STEP_RX_ENABLE: return 2 * step->of;
    case STEP_TX_ENABLE: return 2 * step->of + 1;
    default: return nicxi_side_of_register(address_of(step));
    }
}

/* --- conditions --- */

typedef bool condition(const struct step *a, const struct step *b);

static bool are_other_sides(const struct step *a, const struct step *b)
{
    int side = nicxi_side_of_step(a), other = nicxi_side_of_step(b);
    return side != NO_SIDE && other != NO_SIDE && side != other;
}

static bool is_of_some_side(const struct step *a, const struct step *b)
{
    (void)b;
    return nicxi_side_of_step(a) != NO_SIDE;
}

enum { MAILBOX_MEMORY = NIC_PFMBMEM(0), MAILBOX = NIC_PVFMAILBOX(0), FUNCTIONS = 63, WORDS = 16 };

static bool is_mailbox_memory(const struct step *a, const struct step *b)
{
    (void)b;
    return address_of(a) >= MAILBOX_MEMORY && address_of(a) < MAILBOX_MEMORY + 4 * WORDS * FUNCTIONS;
}

static bool is_mailbox(const struct step *a, const struct step *b)
{
    (void)b;
    return address_of(a) >= MAILBOX && address_of(a) < MAILBOX + 4 * FUNCTIONS;
}

/* The virtual function that an interrupt register belongs to, or -1. */
static int group_of(const struct step *step)
{
    static const uint32_t firsts[] = {NIC_PVTEICR(0), NIC_PVTEICS(0), NIC_PVTEIMS(0),     NIC_PVTEIMC(0),
                                      NIC_PVTEIAC(0), NIC_PVTEIAM(0), NIC_PVTIVAR_MISC(0)};
    for (size_t k = 0; k < sizeof firsts / sizeof *firsts; k++)
        if (address_of(step) >= firsts[k] && address_of(step) < firsts[k] + 4 * FUNCTIONS)
            return ((int)address_of(step) - (int)firsts[k]) / 4;
    return -1;
}

static bool is_of_functions_group(const struct step *a, const struct step *b)
{
    (void)b;
    return group_of(a) >= 0;
}

static bool is_of_other_group(const struct step *a, const struct step *b)
{
    return group_of(a) >= 0 && group_of(a) + 1 != b->of;
}

static bool are_other_groups(const struct step *a, const struct step *b)
{
    return a->of != b->of;
}

static bool is_of_a_function(const struct step *a, const struct step *b)
{
    (void)b;
    return a->of != 0;
}

/* A device step writes only the memory that its result names: a frame's bytes and descriptor, a descriptor or a
   head. */
static bool writes_elsewhere(const struct step *a, const struct step *b)
{
    const nic_outcome *outcome = &b->outcome;
    if (b->status == NIC_WROTE)
        return !nicxi_overlap(a->bus, a->length, outcome->desc, NIC_DESC_BYTES) &&
               !nicxi_overlap(a->bus, a->length, outcome->at, outcome->len);
    return !outcome->back || !nicxi_overlap(a->bus, a->length, outcome->at, NIC_DESC_BYTES);
}

/* Like writes_elsewhere, for a store by the driver. The receive step must have written a frame: then the only memory
   that it read is the frame's descriptor. */
static bool wrote_elsewhere(const struct step *a, const struct step *b)
{
    return b->status == NIC_WROTE && writes_elsewhere(a, b);
}

/* --- two steps of the driver: the part of the device that they access, and their locks --- */

static bool are_other_bytes(const struct step *a, const struct step *b)
{
    return !nicxi_overlap(a->bus, a->length, b->bus, b->length);
}

static bool is_read(const struct step *step)
{
    return step->kind == STEP_READ || step->kind == STEP_VF_READ;
}

enum { NOWHERE = -1, INTERRUPTS = 256, WORDS_OF_MAILBOX = 512 };

/* The part of the device that a register access stays within: one side of a queue, the physical function's interrupts,
   one word of a mailbox's memory. */
static int part_of(const struct step *step)
{
    uint32_t address = address_of(step);
    if (address >= 0x00800 && address < 0x00A00)
        return INTERRUPTS;
    if (address >= MAILBOX_MEMORY && address < MAILBOX_MEMORY + 4 * WORDS * FUNCTIONS)
        return WORDS_OF_MAILBOX + (int)(address - MAILBOX_MEMORY) / 4;
    return nicxi_side_of_register(address);
}

static bool are_other_parts(const struct step *a, const struct step *b)
{
    int part = part_of(a), other = part_of(b);
    return part != NOWHERE && other != NOWHERE && part != other;
}

/* Reading a queue's side or mailbox memory changes nothing. */
static bool are_reads_of_a_part(const struct step *a, const struct step *b)
{
    return is_read(a) && is_read(b) && part_of(a) == part_of(b) && part_of(a) != NOWHERE && part_of(a) != INTERRUPTS;
}

static bool is_lock(const struct step *step)
{
    return step->word == LOCAL_LOCK || step->word == LOCAL_UNLOCK;
}

static bool is_simple(const struct step *step)
{
    return step->kind != STEP_LOCAL || step->word == LOCAL_BEGIN || step->word == LOCAL_POINT || is_lock(step);
}

static bool are_other_locks(const struct step *a, const struct step *b)
{
    return is_simple(a) && is_simple(b) && !(b->kind == STEP_LOCAL && is_lock(a) && is_lock(b) && a->bus == b->bus);
}

/* --- the table --- */

#define BY(kind) (1u << STEP_##kind)

enum {
    READS = BY(READ) | BY(VF_READ),
    WRITES = BY(WRITE) | BY(VF_WRITE),
    FUNCTIONS_OWN = BY(VF_READ) | BY(VF_WRITE),
    MEMORY = BY(PEEK) | BY(POKE),
    ENABLES = BY(RX_ENABLE) | BY(TX_ENABLE),
    FROM_LINK = BY(ARRIVE) | BY(LINK),
    OTHERS = BY(INT) | BY(EEPROM) | FROM_LINK,
    DEVICE = BY(RX) | BY(TX) | ENABLES | OTHERS,
    DRIVER = BY(LOCAL) | READS | WRITES | MEMORY
};

/* A row: a step of a kind in `a` and a step of a kind in `b` are independent if `holds` says so. */
static const struct row {
    uint32_t a, b;
    condition *holds; /* null: always */
    const char *name, *law;
} rows[] = {
    {BY(LOCAL) | BY(VALUE), DEVICE, NULL, "own step, device step", "no event: the device isn't involved"},
    /* memory accesses */
    {BY(PEEK), BY(RX) | BY(TX), writes_elsewhere, "peek, rx or tx that writes elsewhere",
     "dev: memory_call_leaves_the_rest, receiving_leaves_the_rest, transmitting_leaves_the_rest (blocks)"},
    {BY(POKE), BY(RX), wrote_elsewhere, "poke, rx that writes elsewhere",
     "dev: memory_call_leaves_the_rest, receiving_leaves_the_rest (blocks)"},
    {MEMORY, ENABLES, NULL, "peek or poke, qstep",
     "dev: memory_call_leaves_the_rest, switching_leaves_the_rest (memory)"},
    {MEMORY, OTHERS, NULL, "peek or poke, int, eestep, arrive or link",
     "dev: memory_call_leaves_the_rest, message_leaves_the_rest (memory), eeprom_step_gives_the_word (rest), "
     "arrival_leaves_the_rest (memory), link_leaves_the_rest (link, memory)"},
    /* queue registers: a read changes nothing, a write only that side; a virtual function's access counts as the
       physical function's */
    {READS, BY(RX) | BY(TX) | ENABLES, are_other_sides, "read from a side, rx, tx or qstep of another side",
     "dev: read_changes_nothing, receiving_leaves_the_rest (rest), transmitting_leaves_the_rest (rest), "
     "switching_leaves_the_rest (sides)"},
    {WRITES, BY(RX) | BY(TX) | ENABLES, are_other_sides, "write to a side, rx, tx or qstep of another side",
     "dev: access_leaves_the_rest (write), receiving_leaves_the_rest (rest), transmitting_leaves_the_rest (rest), "
     "switching_leaves_the_rest (sides)"},
    {READS | WRITES, OTHERS, is_of_some_side, "access to a side, int, eestep, arrive or link",
     "dev: read_changes_nothing, access_leaves_the_rest (write), message_leaves_the_rest (queues), "
     "eeprom_step_gives_the_word (rest), arrival_leaves_the_rest (queues), link_leaves_the_rest (link, queues)"},
    /* mailboxes: no device step reads their memory; a write may raise a cause */
    {FUNCTIONS_OWN, DEVICE, is_mailbox_memory, "virtual function's access to VFMBMEM, device step",
     "dev: vf_stays_in_its_pool (changes), event_stays_within_its_reach, eeprom_step_gives_the_word (rest); reg: "
     "accesses_stay_with_their_owner"},
    {BY(VF_READ), DEVICE, is_mailbox, "virtual function's VFMAILBOX read, device step",
     "dev: vf_stays_in_its_pool (changes), event_stays_within_its_reach, eeprom_step_gives_the_word (rest)"},
    {BY(VF_WRITE), ENABLES | BY(EEPROM), is_mailbox, "virtual function's VFMAILBOX write, qstep or eestep",
     "dev: vf_stays_in_its_pool (changes), switching_leaves_the_rest (groups), eeprom_step_gives_the_word (rest)"},
    /* a virtual function's interrupts; received or sent frames may raise them */
    {FUNCTIONS_OWN, ENABLES | BY(EEPROM) | FROM_LINK, is_of_functions_group,
     "virtual function's access to its interrupts, qstep, eestep, arrive or link",
     "dev: vf_stays_in_its_pool (changes), switching_leaves_the_rest (groups), eeprom_step_gives_the_word (rest), "
     "arrival_leaves_the_rest (groups), link_leaves_the_rest (link, groups)"},
    {FUNCTIONS_OWN, BY(INT), is_of_other_group, "virtual function's access to its interrupts, int of another group",
     "dev: vf_stays_in_its_pool (changes), message_leaves_the_rest (groups)"},
    /* two device steps */
    {BY(INT), BY(INT), are_other_groups, "int of two groups",
     "dev: message_leaves_the_rest (groups), due_bit_is_reported"},
    {BY(INT), ENABLES | BY(EEPROM), NULL, "int, qstep or eestep",
     "dev: message_leaves_the_rest (queues), switching_leaves_the_rest (groups), eeprom_step_gives_the_word (rest)"},
    {BY(INT), FROM_LINK, is_of_a_function, "int of a virtual function, arrive or link",
     "dev: message_leaves_the_rest, arrival_leaves_the_rest (groups), link_leaves_the_rest (link, groups)"},
    {BY(TX_ENABLE), BY(TX_ENABLE), are_other_sides, "qstep tx of two queues",
     "dev: switching_leaves_the_rest (sides); reg: switched_side_is_as_wanted"},
    {BY(TX_ENABLE), BY(RX_ENABLE), NULL, "qstep tx, qstep rx",
     "dev: switching_leaves_the_rest (sides); reg: switched_side_is_as_wanted"},
    {BY(TX_ENABLE), BY(RX) | FROM_LINK, NULL, "qstep tx, rx, arrive or link",
     "dev: switching_leaves_the_rest (sides), receiving_leaves_the_rest (rest), arrival_leaves_the_rest (queues), "
     "link_leaves_the_rest (link, queues)"},
    {BY(TX_ENABLE), BY(TX), are_other_sides, "qstep tx, tx of another queue",
     "dev: switching_leaves_the_rest (sides), transmitting_leaves_the_rest (rest)"},
    {BY(RX_ENABLE), BY(TX) | BY(LINK), NULL, "qstep rx, tx or link",
     "dev: switching_leaves_the_rest (sides), transmitting_leaves_the_rest (rest), link_leaves_the_rest (link, "
     "queues)"},
    {BY(EEPROM), BY(RX) | BY(TX) | ENABLES | FROM_LINK, NULL, "eestep, any other step except int",
     "dev: eeprom_step_gives_the_word (rest), event_stays_within_its_reach"},
    /* two driver steps without conflicting accesses to the driver's own memory */
    {BY(LOCAL), DRIVER, are_other_locks, "own step, driver step", "no event: the device isn't involved"},
    {READS | WRITES, MEMORY, NULL, "register access, peek or poke",
     "dev: memory_call_leaves_the_rest, access_leaves_the_rest (write), read_changes_nothing"},
    {BY(PEEK), BY(PEEK), NULL, "two peeks", "dev: memory_call_leaves_the_rest"},
    {MEMORY, BY(POKE), are_other_bytes, "peek or poke, poke of other bytes", "dev: memory_call_leaves_the_rest"},
    {READS | WRITES, READS | WRITES, are_other_parts, "accesses to two sides, interrupts or mailbox words",
     "dev: access_leaves_the_rest (write), vf_access_is_the_physical_functions; reg: accesses_stay_with_their_owner"},
    {READS, READS, are_reads_of_a_part, "reads from a side or of a mailbox word",
     "dev: read_changes_nothing, vf_access_is_the_physical_functions"},
};

enum { ROWS = sizeof rows / sizeof *rows };

static int row_in_order(const struct step *a, const struct step *b)
{
    for (int k = 0; k < ROWS; k++)
        if (rows[k].a >> a->kind & 1 && rows[k].b >> b->kind & 1 && (!rows[k].holds || rows[k].holds(a, b)))
            return k;
    return -1;
}

/* Whether a device step had nothing to do. Another step may give it work, so it is independent of no step. */
static bool is_none(const struct step *step)
{
    return nicxi_is_device_step(step->kind) && (step->status == NIC_IDLE || step->status == NIC_NO_GROUP);
}

int nicxi_row_of(const struct step *a, const struct step *b)
{
    if (is_none(a) || is_none(b))
        return -1;
    int row = row_in_order(a, b);
    return row >= 0 ? row : row_in_order(b, a);
}

/* Choosing a value counts as a step of the driver. */
static bool is_of_driver(const struct step *step)
{
    return step->kind < STEP_STORE;
}

/* Whether a step is a library call, or a point at an access to own memory. The table ignores the step's object. */
static bool is_of_library(const struct step *step)
{
    return step->kind == STEP_LOCAL && step->word >= LOCAL_CALL;
}

/* Whether two steps of the driver don't conflict in its own memory: their accesses show it, or the scenario says that
   it is race-free. */
static bool are_apart(const struct step *a, const struct step *b)
{
    if (is_of_library(a) || is_of_library(b))
        return false;
    if (nicxi.knows_memory)
        return !(a->touched[1] & (b->touched[0] | b->touched[1])) && !(b->touched[1] & a->touched[0]);
    return nicxi.scenario->race_free;
}

/* Whether the driver, after its step `a`, may read through pointers what the device's step `b` wrote. */
static bool may_be_read(const struct step *a, const struct step *b)
{
    return nicxi.bus_of && is_of_driver(a) && (b->kind == STEP_RX || b->kind == STEP_TX);
}

/* Whether a step may change memory. With weak memory, other processors' loads may then return older values. */
static bool may_change_memory(const struct step *step)
{
    return step->kind == STEP_RX || step->kind == STEP_TX || step->kind == STEP_STORE || is_of_driver(step);
}

bool nicxi_are_independent(const struct step *a, const struct step *b)
{
    if (a->waits || b->waits || (nicxi.is_weak && may_change_memory(a) && may_change_memory(b)))
        return false;
    if (is_of_driver(a) && is_of_driver(b) && !are_apart(a, b))
        return false;
    if (may_be_read(a, b) || may_be_read(b, a))
        return false;
    return nicxi_row_of(a, b) >= 0;
}

int nicxi_rows(void)
{
    return ROWS;
}

bool nicxi_row_has(int row, uint8_t a, uint8_t b)
{
    return (rows[row].a >> a & 1 && rows[row].b >> b & 1) || (rows[row].a >> b & 1 && rows[row].b >> a & 1);
}

const char *nicxi_law(int row)
{
    return rows[row].law;
}

const char *nicxi_row_name(int row)
{
    return rows[row].name;
}
