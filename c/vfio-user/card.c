#define _POSIX_C_SOURCE 200809L
#include "card.h"

#include <inttypes.h>
#include <string.h>
#include <time.h>

#include "log.h"

#define RESETS (NIC_CTRL_RST | NIC_CTRL_LRST)

/* An IEEE 802.1Q tag in a frame, and lengths in bytes. */
#define TAG_AT 12u
#define TAG_HIGH 0x81u /* first byte of the type; the second is 0 */
#define TAG_BYTES 4u
#define CHECK_BYTES 4u     /* the frame check sequence, which frames on this wire don't have */
#define USUAL_LENGTH 1518u /* maximum length with the check sequence, without jumbo frames */

/* ---- reports ---- */

static void keep_access(struct card *it, const struct function *function, bool is_write, uint32_t offset, uint32_t word)
{
    it->accesses[it->access_count++ % CARD_ACCESSES] = (struct card_access){function, offset, word, is_write};
}

static void tell_accesses(const struct card *it, unsigned int client)
{
    uint64_t first = it->access_count > CARD_ACCESSES ? it->access_count - CARD_ACCESSES : 0;
    for (uint64_t i = first; i < it->access_count; i++) {
        const struct card_access *access = &it->accesses[i % CARD_ACCESSES];
        log_client(client, LOG_CHECK, "  access %" PRIu64 ": function %u %c %05" PRIx32 " %08" PRIx32, i + 1,
                   access->function->number, access->is_write ? 'w' : 'r', access->offset, access->word);
    }
}

static void refused(void *of, const char *what, struct dma by, uint16_t queue, struct dma_address where, size_t length)
{
    const struct card *it = of;
    log_client(dma_socket(by), it->options.has_check ? LOG_CHECK : LOG_ACCESS,
               "card: function %u, queue %u: %s at 0x%" PRIx64 ", %zu bytes", dma_function(where.of), queue, what,
               where.at, length);
    if (it->options.has_check)
        tell_accesses(it, dma_socket(by));
}

static void fault(void *of, bool is_transmit, const nic_outcome *outcome)
{
    struct card *it = of;
    if (!is_transmit)
        arrivals_fault(&it->arrivals);
    log_client(dma_socket(rings_owner(it->rings, is_transmit, outcome->queue)), LOG_FAULT,
               "card: a fault in %s, queue %u slot %u: %s, bus address 0x%" PRIx64,
               is_transmit ? "sending" : "receiving", outcome->queue, outcome->slot, nic_fault_name(outcome->why),
               outcome->bus);
}

/* ---- calls from the bus ---- */

/* Called when a client hands over descriptors by writing a tail. */
static void give(struct card *it, const struct bus_access *access, uint32_t tail)
{
    struct stepper *stepper = &it->stepper;
    bool fetches = !stepper->has_seed || stepper_toss(stepper);
    rings_tail(it->rings, it->writer, access->is_transmit, access->queue, tail, fetches);
    if (access->is_transmit)
        stepper_tail(stepper, access->queue);
}

static uint32_t writing(void *of, const struct bus_access *access, uint32_t word)
{
    struct card *it = of;
    switch (access->part) {
    case BUS_TAIL: give(it, access, word); return word;
    case BUS_HEAD: rings_head(it->rings, access->is_transmit, access->queue, word); return word;
    case BUS_SWITCH: stepper_ask(&it->stepper, access->is_transmit, access->queue); break;
    default: break;
    }
    return rings_to_device(it->rings, it->writer, access, word);
}

static uint32_t to_driver(void *of, const struct bus_access *access, uint32_t word)
{
    const struct card *it = of;
    return rings_to_driver(it->rings, access, word);
}

static void one_out(void *to, const uint8_t *frame, size_t length)
{
    struct card *it = to;
    if (it->sink)
        it->sink(it->sink_to, it->budget.payer, frame, length);
}

/* Sends the remaining segments of a TSO packet as far as the budget allows. Returns false if some still remain. */
static bool send_rest(struct card *it, uint16_t queue)
{
    if (!it->offload || !offload_is_cutting(it->offload, queue))
        return true;
    offload_cut(it->offload, queue, &it->budget, one_out, it);
    return !offload_is_cutting(it->offload, queue);
}

/* Returns whether to run a step now. If the budget of the queue's client is spent, the queue remains due. */
static bool stepping(void *of, bool is_transmit, uint16_t queue)
{
    struct card *it = of;
    if (is_transmit)
        return send_rest(it, queue) && !budget_is_spent(&it->budget) && rings_step(it->rings, true, queue);
    arrivals_written(&it->arrivals, queue);
    rings_step(it->rings, false, queue);
    return it->arrivals.waiting != 0 && !budget_is_spent(&it->budget);
}

static void on_reset(void *of, uint16_t queue)
{
    struct card *it = of;
    it->stepper.is_due[queue] = false;
    rings_reset(it->rings, queue);
}

static void wrote(void *of, uint64_t bus, size_t length)
{
    struct card *it = of;
    rings_written(it->rings, bus, length);
}

static void wrote_back(void *of, uint16_t queue, uint64_t bus)
{
    struct card *it = of;
    rings_written_back(it->rings, queue, bus);
}

static void sent(void *of, uint16_t queue, const uint8_t *frame, size_t length)
{
    struct card *it = of;
    budget_spend(&it->budget, length);
    if (it->offload)
        offload_sent(it->offload, queue, frame, length, one_out, it);
    else
        one_out(it, frame, length);
}

/* Both sockets of a virtual function see its registers, but each client has its own vectors. The message is sent to the
   client that has set up the message's vector. If both have, it is sent to the virtual function's own guest, even if
   the other client accessed a register last. */
static void on_message(void *of, unsigned int number, unsigned int vector)
{
    const struct card *it = of;
    enum function_ready most = FUNCTION_ABSENT;
    struct function *to = NULL;
    for (unsigned int i = 0; i < CARD_SOCKETS && it->sockets[number][i]; i++) {
        struct function *function = it->sockets[number][i];
        enum function_ready ready = function_ready(function, vector);
        to = ready > most ? function : to;
        most = ready > most ? ready : most;
    }
    if (to)
        function_message(to, vector);
}

/* ---- calls from functions ---- */

void card_add(struct card *it, struct function *function)
{
    struct function **sockets = it->sockets[function->number];
    unsigned int count = 0;
    while (count < CARD_SOCKETS && sockets[count])
        count++;
    if (count < CARD_SOCKETS)
        sockets[count] = function;
}

/* Holds the device if a client requested that for this access. */
static void watch(struct card *it, const struct function *function, bool is_write, uint32_t offset, uint32_t word)
{
    if (!it->stepper.is_held && watch_meets(&it->watch, function->number, is_write, offset, word))
        card_hold(it);
}

/* A reset, by a driver or by the client, discards the waiting frames. */
static void reset(struct card *it, uint32_t word)
{
    it->stepper.reset.word = 0;
    it->stepper.has_changed = true;
    budget_spend(&it->budget, BUDGET_RESET);
    bus_write(it->bus, BUS_PHYSICAL, NIC_CTRL, word);
    arrivals_begin(&it->arrivals, it->bus);
}

static uint64_t now(void)
{
    struct timespec time;
    clock_gettime(CLOCK_MONOTONIC, &time);
    return (uint64_t)time.tv_sec * 1000000000u + (uint64_t)time.tv_nsec;
}

/* Performs the pending reset if its duration has passed. */
static void end_reset(struct card *it)
{
    if (it->stepper.reset.word && stepper_is_reset(&it->stepper, now()))
        reset(it, it->stepper.reset.word);
}

/* With MSI, a cause that an access clears counts as new when it is raised again, even if both happen in one turn. */
static void follow_causes(const struct card *it, struct function *function)
{
    if (function_has_line(function))
        function_line_after_access(function, card_causes(it));
}

/* Begins a client's register access: charges the client for the access, and for all work that it causes. */
static void begin_access(struct card *it, struct function *function)
{
    it->active[function->number] = function;
    it->budget.payer = function->socket;
    budget_spend(&it->budget, BUDGET_ACCESS);
}

uint32_t card_read(struct card *it, struct function *function, uint32_t offset)
{
    const struct bus_counts *counts = bus_counts(it->bus);
    uint64_t enables = counts->enables;
    begin_access(it, function);
    watch(it, function, false, offset, 0);
    end_reset(it);
    uint32_t word = bus_read(it->bus, function->number, offset);
    if (function->number == BUS_PHYSICAL && offset == NIC_CTRL)
        word |= it->stepper.reset.word & RESETS;
    it->stepper.has_changed |= counts->enables != enables;
    follow_causes(it, function);
    keep_access(it, function, false, offset, word);
    return word;
}

/* Counts a register write that has no effect because the card is being reset. Reports each client's first such
   write. */
static void lose(struct card *it, const struct function *function, uint32_t offset)
{
    const struct dma_address where = {dma_of(function), offset};
    uint32_t its = 1u << function->socket;
    it->lost_writes++;
    if (!(it->reported_lost & its))
        refused(it, "a register write while the card is being reset (only the first is reported): register", where.of,
                0, where, sizeof(uint32_t));
    it->reported_lost |= its;
}

/* Writes a register for a client, which owns the rings that the write sets up. */
static void write_as(struct card *it, struct dma client, unsigned int number, uint32_t offset, uint32_t word)
{
    it->writer = client;
    bus_write(it->bus, number, offset, word);
    it->writer = (struct dma){0};
    arrivals_check(&it->arrivals);
}

void card_write(struct card *it, struct function *function, uint32_t offset, uint32_t word)
{
    bool resets = function->number == BUS_PHYSICAL && offset == NIC_CTRL && word & RESETS;
    begin_access(it, function);
    it->stepper.has_changed = true;
    keep_access(it, function, true, offset, word);
    watch(it, function, true, offset, word);
    end_reset(it);
    if (it->stepper.reset.word)
        lose(it, function, offset);
    else if (resets && it->stepper.has_seed && !it->stepper.is_held)
        stepper_reset(&it->stepper, word, now());
    else if (resets)
        reset(it, word);
    else
        write_as(it, dma_of(function), function->number, offset, word);
    follow_causes(it, function);
}

/* Stops all rings of the function's client. Another client may use the function through its other socket; that client's
   rings aren't stopped. */
void card_reset_function(struct card *it, struct function *function)
{
    it->budget.payer = function->socket;
    budget_spend(&it->budget, BUDGET_RESET);
    rings_stop_all(it->rings, dma_of(function));
    arrivals_check(&it->arrivals);
    if (function->number == BUS_PHYSICAL) {
        it->active[BUS_PHYSICAL] = function;
        reset(it, RESETS);
    } else if (it->active[function->number] == function) {
        card_write(it, function, NIC_VFCTRL, NIC_PVFCTRL_RST);
    }
}

void card_client_goes(struct card *it, const struct function *function)
{
    rings_stop_all(it->rings, dma_of(function));
    arrivals_check(&it->arrivals);
    if (it->active[function->number] == function)
        it->active[function->number] = NULL;
}

void card_remapped(struct card *it, const struct function *function)
{
    rings_remapped(it->rings, dma_of(function));
    it->budget.payer = function->socket;
    budget_spend(&it->budget, BUDGET_MAP);
    it->stepper.has_changed = true;
}

void card_rearmed(struct card *it)
{
    it->stepper.has_changed = true;
}

bool card_may_serve(struct card *it, const struct function *function)
{
    it->budget.payer = function->socket;
    budget_spend(&it->budget, BUDGET_MESSAGE);
    return !budget_is_spent(&it->budget);
}

bool card_may_go_on(struct card *it, const struct function *function)
{
    it->budget.payer = function->socket;
    return !budget_is_spent(&it->budget);
}

/* ---- steps ---- */

/* Returns whether only its tag makes a frame longer than the device accepts. */
static bool is_long_by_its_tag(const struct card *it, const uint8_t *frame, size_t length)
{
    bool is_tagged = length > TAG_AT + 1 && frame[TAG_AT] == TAG_HIGH && frame[TAG_AT + 1] == 0;
    bool is_jumbo = bus_peek(it->bus, NIC_HLREG0) & NIC_HLREG0_JUMBOEN;
    size_t most = is_jumbo ? bus_peek(it->bus, NIC_MAXFRS) >> 16 : USUAL_LENGTH;
    return is_tagged && length + CHECK_BYTES > most && length + CHECK_BYTES <= most + TAG_BYTES;
}

/* A card doesn't count the tag's bytes in a frame's length, but the bench's device does. So this raises the limit while
   a tagged frame arrives, and then restores the driver's limit. */
static bool arrive_tagged(struct card *it, const uint8_t *frame, size_t length)
{
    uint32_t control = bus_peek(it->bus, NIC_HLREG0), most = bus_peek(it->bus, NIC_MAXFRS);
    nic_write32(bus_device(it->bus), NIC_HLREG0, control | NIC_HLREG0_JUMBOEN);
    nic_write32(bus_device(it->bus), NIC_MAXFRS, (uint32_t)(length + CHECK_BYTES) << 16);
    bool is_in = bus_arrive(it->bus, frame, length);
    nic_write32(bus_device(it->bus), NIC_MAXFRS, most);
    nic_write32(bus_device(it->bus), NIC_HLREG0, control);
    it->long_by_tag++;
    return is_in;
}

bool card_arrive(struct card *it, const uint8_t *frame, size_t length)
{
    bool is_long = it->offload && is_long_by_its_tag(it, frame, length);
    bool is_in = is_long ? arrive_tagged(it, frame, length) : bus_arrive(it->bus, frame, length);
    it->budget.payer = BUDGET_WIRE;
    budget_spend(&it->budget, BUDGET_STEP + length);
    it->stepper.has_changed = true;
    if (is_in)
        arrivals_let_in(&it->arrivals);
    return is_in;
}

bool card_has_room(const struct card *it)
{
    return it->arrivals.waiting < CARD_FIFO / 2;
}

bool card_takes_frame(const struct card *it)
{
    return card_has_room(it) && it->budget.left[BUDGET_WIRE] != 0;
}

static unsigned int receive(struct card *it)
{
    rings_prepare_receive(it->rings);
    unsigned int made = it->arrivals.waiting ? bus_receive(it->bus) : 0;
    arrivals_count(&it->arrivals);
    return made;
}

unsigned int card_receive(struct card *it)
{
    budget_ask(&it->budget);
    return receive(it);
}

uint32_t card_causes(const struct card *it)
{
    return bus_peek(it->bus, NIC_EICR) & bus_peek(it->bus, NIC_EIMS);
}

/* Returns whether the function may have a due message, because an enabled cause is raised. Usually none is. */
static bool has_cause(const struct card *it, unsigned int function)
{
    if (function == BUS_PHYSICAL)
        return card_causes(it) != 0;
    return bus_peek(it->bus, NIC_PVTEICR(function - 1)) & bus_peek(it->bus, NIC_PVTEIMS(function - 1));
}

static bool any_cause(const struct card *it)
{
    for (unsigned int function = 0; function <= it->options.functions; function++)
        if (has_cause(it, function))
            return true;
    return false;
}

/* Sends due messages of a function: at most BUDGET_INTERRUPTS messages, for at most BUDGET_MICROSECONDS. */
static unsigned int messages(struct card *it, unsigned int function)
{
    if (function == BUS_PHYSICAL && function_has_line(it->sockets[function][0]))
        return function_line(it->sockets[function][0], card_causes(it));
    uint64_t began = budget_time();
    unsigned int made = 0;
    do {
        if (!has_cause(it, function) || !bus_message(it->bus, function))
            return made;
        made++;
    } while (made < BUDGET_INTERRUPTS && !budget_is_late(began));
    it->is_busy = true;
    return made;
}

unsigned int card_messages(struct card *it)
{
    unsigned int all = 0;
    for (unsigned int function = 0; function <= it->options.functions; function++)
        all += messages(it, function);
    return all;
}

/* Sends from this queue until it has nothing to send or the budget is spent. */
static void transmit(struct card *it, uint16_t queue)
{
    bus_transmit(it->bus, queue);
    it->stepper.is_due[queue] = bus_peek(it->bus, NIC_TDH(queue)) != bus_peek(it->bus, NIC_TDT(queue)) ||
                                (it->offload && offload_is_cutting(it->offload, queue));
}

void card_transmit(struct card *it, uint16_t queue)
{
    budget_ask(&it->budget);
    transmit(it, queue);
}

bool card_has_left_some(const struct card *it)
{
    return it->budget.left[BUDGET_CONTROL] == 0;
}

/* Sends the descriptors that tails handed over, even if the queue or the link was off at that time. Returns whether
   some remain. Each client pays for its queues. Begins with the queue after the one that was served last. */
static bool transmit_due(struct card *it)
{
    struct stepper *stepper = &it->stepper;
    uint16_t first = stepper->first_due;
    bool left = false;
    for (uint16_t i = 0; stepper->any_due && i < BUS_QUEUES; i++) {
        uint16_t queue = (uint16_t)((first + i) % BUS_QUEUES);
        if (!stepper->is_due[queue])
            continue;
        it->budget.payer = dma_socket(rings_owner(it->rings, true, queue));
        if (!budget_is_spent(&it->budget) && (!stepper->has_seed || stepper_toss(stepper))) {
            transmit(it, queue);
            stepper->first_due = (uint16_t)((queue + 1) % BUS_QUEUES);
        }
        it->is_busy |= stepper->is_due[queue] && budget_is_spent(&it->budget);
        left |= stepper->is_due[queue];
    }
    stepper->any_due = left;
    return left;
}

/* Receives the waiting frames, at the expense of the wire's budget. */
static void receive_due(struct card *it)
{
    it->budget.payer = BUDGET_WIRE;
    if (!budget_is_spent(&it->budget))
        receive(it);
    it->is_busy |= it->arrivals.waiting != 0 && budget_is_spent(&it->budget);
}

bool card_enable(struct card *it, bool is_transmit, uint16_t queue)
{
    bool is_done = bus_enable(it->bus, is_transmit, queue);
    arrivals_check(&it->arrivals);
    return is_done;
}

/* Enables or disables some of the queues for which a driver requested that, chosen at random. Returns whether requests
   remain. */
static bool enable_asked(struct card *it)
{
    struct stepper *stepper = &it->stepper;
    bool left = false;
    for (uint16_t queue = 0; stepper->any_asked && queue < BUS_QUEUES; queue++)
        for (int side = 0; side < 2; side++) {
            if (!stepper->is_asked[side][queue])
                continue;
            stepper->is_asked[side][queue] = !stepper_toss(stepper);
            if (!stepper->is_asked[side][queue])
                card_enable(it, side, queue);
            left |= stepper->is_asked[side][queue];
        }
    stepper->any_asked = left;
    return left;
}

/* Returns whether an EEPROM read is pending. */
static bool reads_eeprom(const struct card *it)
{
    return (bus_peek(it->bus, NIC_EERD) & (NIC_EERD_START | NIC_EERD_DONE)) == NIC_EERD_START;
}

/* Runs or postpones each kind of step, at random. Returns whether steps may remain. */
static bool pump_late(struct card *it)
{
    struct stepper *stepper = &it->stepper;
    end_reset(it);
    if (stepper->reset.word)
        return true;
    bool left = enable_asked(it);
    if (reads_eeprom(it) && stepper_toss(stepper))
        bus_eeprom(it->bus);
    left |= transmit_due(it) || reads_eeprom(it);
    if (it->arrivals.waiting && stepper_toss(stepper))
        receive_due(it);
    else
        left |= it->arrivals.waiting != 0;
    if (any_cause(it) && stepper_toss(stepper))
        card_messages(it);
    else
        left |= any_cause(it);
    return left;
}

void card_begin_turn(struct card *it)
{
    budget_begin_turn(&it->budget);
}

bool card_is_busy(const struct card *it)
{
    return it->is_busy;
}

bool card_pump(struct card *it)
{
    it->is_busy = false;
    if (it->stepper.is_held)
        return false;
    if (it->stepper.has_seed)
        return pump_late(it);
    if (!it->stepper.has_changed)
        return false;
    it->stepper.has_changed = false;
    transmit_due(it);
    receive_due(it);
    card_messages(it);
    it->stepper.has_changed |= it->is_busy;
    return it->is_busy;
}

/* A pending reset still completes, because it has already begun. */
void card_hold(struct card *it)
{
    if (it->stepper.reset.word)
        reset(it, it->stepper.reset.word);
    it->stepper.is_held = true;
    bus_hold(it->bus, true);
}

uint8_t card_link(struct card *it, bool is_up)
{
    it->stepper.has_changed = true;
    return nic_link(bus_device(it->bus), is_up);
}

void card_seed(struct card *it, const uint64_t *seed)
{
    it->stepper.has_seed = seed != NULL;
    if (seed)
        stepper_seed(&it->stepper, *seed);
    if (it->stepper.is_held)
        return;
    if (seed)
        bus_hold(it->bus, true);
    else
        card_go(it);
}

void card_go(struct card *it)
{
    it->stepper.is_held = false;
    if (it->stepper.reset.word)
        reset(it, it->stepper.reset.word);
    bus_hold(it->bus, it->stepper.has_seed);
    it->stepper.has_changed = true;
    for (uint16_t queue = 0; queue < BUS_QUEUES; queue++)
        for (int side = 0; side < 2; side++)
            if (it->stepper.is_asked[side][queue])
                card_enable(it, side, queue);
    bus_eeprom(it->bus);
}

void card_give_due(struct card *it)
{
    budget_ask(&it->budget);
    for (uint16_t queue = 0; queue < BUS_QUEUES; queue++)
        if (it->stepper.is_due[queue])
            rings_step(it->rings, true, queue);
    rings_prepare_receive(it->rings);
}

void card_tell_due(const struct card *it, FILE *to)
{
    for (uint16_t queue = 0; queue < BUS_QUEUES; queue++)
        if (it->stepper.is_due[queue] && bus_peek(it->bus, NIC_TDH(queue)) != bus_peek(it->bus, NIC_TDT(queue)))
            fprintf(to, "tx %u: head %" PRIu32 ", tail %" PRIu32 "\n", queue, bus_peek(it->bus, NIC_TDH(queue)),
                    bus_peek(it->bus, NIC_TDT(queue)));
    if (it->arrivals.waiting)
        fprintf(to, "rx: at most %" PRIu64 " frames\n", it->arrivals.waiting);
    if (any_cause(it))
        fprintf(to, "int: EICR %08" PRIx32 ", EIMS %08" PRIx32 "\n", bus_peek(it->bus, NIC_EICR),
                bus_peek(it->bus, NIC_EIMS));
    if (reads_eeprom(it))
        fprintf(to, "eestep: EERD %08" PRIx32 "\n", bus_peek(it->bus, NIC_EERD));
}

/* ---- opening and closing ---- */

static bool open_bus(struct card *it)
{
    static const char *const phases[] = {"all", NULL};
    struct bus_options options = {.functions = (uint8_t)it->options.functions,
                                  .fifo = CARD_FIFO,
                                  .answers = it->options.answers,
                                  .acts_at_writes = true,
                                  .phases = phases,
                                  .calls = {.of = it,
                                            .read = to_driver,
                                            .writing = writing,
                                            .reset = on_reset,
                                            .wrote = wrote,
                                            .wrote_back = wrote_back,
                                            .stepping = stepping,
                                            .message = on_message,
                                            .fault = fault},
                                  .trace = it->options.trace};
    memcpy(options.mac, it->options.mac, sizeof options.mac);
    it->bus = bus_open(&options);
    return it->bus != NULL;
}

bool card_open(struct card *it, const struct card_options *options)
{
    *it = (struct card){.options = *options};
    if (!open_bus(it))
        return false;
    stepper_begin(&it->stepper);
    arrivals_begin(&it->arrivals, it->bus);
    if (options->has_seed)
        stepper_seed(&it->stepper, options->seed);
    bus_hold(it->bus, options->has_seed);
    it->offload = options->has_offloads ? offload_new() : NULL;
    const struct rings_options rings = {.device = bus_device(it->bus),
                                        .budget = &it->budget,
                                        .refused = refused,
                                        .of = it,
                                        .offload = it->offload,
                                        .has_legacy = options->has_legacy,
                                        .is_recorded = options->is_recorded};
    it->rings = rings_new(&rings);
    bus_send_to(it->bus, sent, it);
    return it->rings && (it->offload || !options->has_offloads);
}

void card_close(struct card *it)
{
    rings_free(it->rings);
    offload_free(it->offload);
    bus_close(it->bus);
}

void card_send_to(struct card *it, card_sink *sink, void *to)
{
    it->sink = sink;
    it->sink_to = to;
}
