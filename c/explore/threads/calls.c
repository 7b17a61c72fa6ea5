/* Library calls that a driver makes on the search's controller. They are steps of the schedule, like the
   nic82599_explore.h calls. On other controllers, and outside of a search, they work as usual. */
#include "form.h"

static bool is_the_device(const nic *n)
{
    return nicxi_is_ours() && n->device && n->device == nicxi.device.device;
}

/* Returns the status of the caller's last step. */
static uint8_t status_of(uint8_t outside)
{
    return nicxi.self ? nicxi.self->next.status : outside;
}

uint8_t __real_nic_read32(nic *n, uint32_t address, uint32_t *word);
uint8_t __wrap_nic_read32(nic *n, uint32_t address, uint32_t *word)
{
    uint32_t unused;
    if (!is_the_device(n))
        return __real_nic_read32(n, address, word);
    *word = nicx_read32(address);
    return status_of(nic_peek32(n, address, &unused));
}

uint8_t __real_nic_vf_read32(nic *n, uint8_t vf, uint32_t offset, uint32_t *word);
uint8_t __wrap_nic_vf_read32(nic *n, uint8_t vf, uint32_t offset, uint32_t *word)
{
    uint32_t unused;
    if (!is_the_device(n))
        return __real_nic_vf_read32(n, vf, offset, word);
    *word = nicx_vf_read32(vf, offset);
    return status_of(nic_vf_peek32(n, vf, offset, &unused));
}

#define CALL(name, parameters, arguments, ours)                                                                        \
    INTERCEPT_IF(is_the_device(n), uint8_t, name, parameters, arguments, ours)

CALL(nic_write32, (nic * n, uint32_t address, uint32_t word), (n, address, word),
     (nicxi_note_call(HERE), nicx_write32(address, word)))
CALL(nic_vf_write32, (nic * n, uint8_t vf, uint32_t offset, uint32_t word), (n, vf, offset, word),
     (nicxi_note_call(HERE), nicx_vf_write32(vf, offset, word)))
CALL(nic_dma_read, (nic * n, uint64_t bus, uint8_t *bytes, size_t length), (n, bus, bytes, length),
     (nicxi_note_call(HERE), nicx_dma_read(bus, bytes, length)))
CALL(nic_dma_write, (nic * n, uint64_t bus, const uint8_t *bytes, size_t length), (n, bus, bytes, length),
     (nicxi_note_call(HERE), nicx_dma_write(bus, bytes, length)))
CALL(nic_lend, (nic * n, uint32_t block), (n, block), nicx_lend(block))
CALL(nic_take, (nic * n, uint32_t block), (n, block), (nicxi_note_call(HERE), nicx_take(block)))
CALL(nic_lend_all, (nic * n), (n), nicx_lend_all())

/* --- the device's steps: a whole program runs them itself; in a scenario the explorer does --- */

static bool may_ask(const char *call, const void *at)
{
    char where[MOST_NAMED];
    if (nicxi.is_program || nicxi.phase != RUNNING || !nicxi.self)
        return true;
    nicxi_misuse("%s calls %s at %s: only the explorer runs the device's steps", nicxi.self->name, call,
                 nicxi_line(at, where));
    return false;
}

/* Records a step that the driver requested, and its result. */
static uint8_t asked(uint8_t kind, uint16_t of, uint8_t status, const nic_outcome *outcome)
{
    struct step step = {.kind = kind, .of = of, .status = status, .outcome = *outcome};
    nicxi_asked(&step);
    return status;
}

#define STEP(name, kind, of, parameters, arguments)                                                                    \
    uint8_t __real_nic_##name parameters;                                                                              \
    uint8_t __wrap_nic_##name parameters                                                                               \
    {                                                                                                                  \
        if (!is_the_device(n))                                                                                         \
            return __real_nic_##name arguments;                                                                        \
        if (!may_ask("nic_" #name, HERE))                                                                              \
            return NIC_IDLE;                                                                                           \
        nicxi_asks("nic_" #name);                                                                                      \
        return asked(kind, of, __real_nic_##name arguments, outcome);                                                  \
    }

STEP(rx_step, STEP_RX, 0, (nic * n, nic_outcome *outcome), (n, outcome))
STEP(tx_step, STEP_TX, queue, (nic * n, uint16_t queue, nic_outcome *outcome), (n, queue, outcome))
STEP(queue_step, transmit ? STEP_TX_ENABLE : STEP_RX_ENABLE, queue,
     (nic * n, bool transmit, uint16_t queue, nic_outcome *outcome), (n, transmit, queue, outcome))
STEP(eeprom_step, STEP_EEPROM, 0, (nic * n, nic_outcome *outcome), (n, outcome))
STEP(int_step, STEP_INT, group, (nic * n, uint8_t group, nic_outcome *outcome), (n, group, outcome))

/* Returns the engine's kind for a step of nic_settle. */
static uint8_t kind_of(const nic_outcome *outcome)
{
    static const uint8_t kinds[] = {STEP_RX_ENABLE, STEP_TX_ENABLE, STEP_EEPROM, STEP_TX, STEP_RX, STEP_INT};
    return kinds[outcome->step % (sizeof kinds / sizeof *kinds)];
}

uint8_t __real_nic_next_step(nic *n, nic_settling *where, nic_outcome *outcome);

static uint8_t next_step(nic *n, nic_settling *where, nic_outcome *outcome)
{
    nicxi_asks("nic_next_step");
    uint8_t status = __real_nic_next_step(n, where, outcome);
    if (status == NIC_MORE)
        asked(kind_of(outcome), outcome->of, outcome->status, outcome);
    else
        nicxi_asked_in_vain();
    return status;
}

uint8_t __wrap_nic_next_step(nic *n, nic_settling *where, nic_outcome *outcome)
{
    if (!is_the_device(n))
        return __real_nic_next_step(n, where, outcome);
    return may_ask("nic_next_step", HERE) ? next_step(n, where, outcome) : (uint8_t)NIC_DONE;
}

/* Each step of nic_settle is a separate point. */
uint8_t __real_nic_settle(nic *n, uint16_t queues, nic_outcome *outcome, size_t length, size_t *count);
uint8_t __wrap_nic_settle(nic *n, uint16_t queues, nic_outcome *outcome, size_t length, size_t *count)
{
    nic_settling where = {queues, 0};
    uint8_t status = NIC_MORE;
    if (!is_the_device(n))
        return __real_nic_settle(n, queues, outcome, length, count);
    *count = 0;
    if (!may_ask("nic_settle", HERE))
        return NIC_DONE;
    while (status == NIC_MORE && *count < length) {
        status = next_step(n, &where, &outcome[*count]);
        *count += status == NIC_MORE;
    }
    return status;
}

uint8_t __real_nic_arrive(nic *n, const uint8_t *frame, size_t length, nic_outcome *outcome);
uint8_t __wrap_nic_arrive(nic *n, const uint8_t *frame, size_t length, nic_outcome *outcome)
{
    if (!is_the_device(n) || nicxi.phase == ENDING)
        return __real_nic_arrive(n, frame, length, outcome);
    if (!may_ask("nic_arrive", HERE))
        return NIC_DROPPED;
    nicxi_asks("nic_arrive");
    if (!nicxi_add_frame(frame, length))
        nicxi_misuse("a program may receive at most %d frames, each at most 16,384 bytes long", NICX_FRAMES);
    return asked(STEP_ARRIVE, nicxi.next_frame++, __real_nic_arrive(n, frame, length, outcome), outcome);
}

uint8_t __real_nic_link(nic *n, bool up);
uint8_t __wrap_nic_link(nic *n, bool up)
{
    if (!is_the_device(n))
        return __real_nic_link(n, up);
    if (!may_ask("nic_link", HERE))
        return NIC_IDLE;
    nicxi_asks("nic_link");
    struct step step = {.kind = STEP_LINK, .word = up, .status = __real_nic_link(n, up)};
    nicxi_asked(&step);
    return step.status;
}

uint8_t __real_nic_collect(nic *n, uint8_t *room, size_t length, nic_outcome *outcome);
uint8_t __wrap_nic_collect(nic *n, uint8_t *room, size_t length, nic_outcome *outcome)
{
    if (is_the_device(n)) {
        if (nicxi_caller())
            nicxi_call(READY, "nic_collect", NULL);
        nicxi.is_changed = true;
    }
    return __real_nic_collect(n, room, length, outcome);
}

/* --- a whole program's controller: opened with nic_open's arguments, and kept for the next schedule --- */

uint8_t __real_nic_new(uint8_t vfs, uint16_t fifo, uint32_t blocks, void **device);
uint8_t __wrap_nic_new(uint8_t vfs, uint16_t fifo, uint32_t blocks, void **device)
{
    if (nicxi_program_opens && nicxi_program_opens(vfs, fifo, blocks, device))
        return NIC_DONE;
    return __real_nic_new(vfs, fifo, blocks, device);
}

void __real_nic_free(nic n);
void __wrap_nic_free(nic n)
{
    if (!is_the_device(&n)) {
        __real_nic_free(n);
        return;
    }
    if (!nicxi.is_program)
        nicxi_misuse("%s closes the scenario's controller", nicxi.self ? nicxi.self->name : "the scenario");
}
