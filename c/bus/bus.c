#include "bus.h"

#include <inttypes.h>
#include <stdlib.h>
#include <string.h>

#include "inside.h"

#define BLOCKS 65536u
#define CTRL_RESETS (NIC_CTRL_RST | NIC_CTRL_LRST)
#define SRRCTL_AGAIN(queue) (0x02100u + 4 * (queue)) /* second address, for the first sixteen queues */
#define SRRCTL_AGAINS 16u

static const uint8_t usual_mac[6] = {0x02, 0x00, 0x00, 0x00, 0x82, 0x99};
static const char *const one_phase[] = {"run", NULL};

/* ---- targets of accesses ---- */

unsigned int bus_pool_queues(const struct bus *it)
{
    return nic_pool_queues(bus_peek(it, NIC_GCR_EXT));
}

bool bus_is_absent(const struct bus *it, unsigned int function)
{
    nic device = it->device;
    uint32_t word = 0;
    return nic_vf_peek32(&device, (uint8_t)(function - 1), NIC_VFSTATUS, &word) == NIC_STRAY;
}

/* Returns the physical function's address of a register; BUS_SPACE if a virtual function has none at the offset. */
static uint32_t physical_address(const struct bus *it, unsigned int function, uint32_t offset)
{
    uint32_t address = BUS_SPACE;
    if (function == BUS_PHYSICAL)
        return offset;
    nic_vf_address(bus_peek(it, NIC_GCR_EXT), (uint8_t)(function - 1), offset, &address);
    return address;
}

static inline struct place place_at(const struct bus *it, uint32_t address)
{
    return address < BUS_SPACE ? it->places[address / 4] : (struct place){0};
}

/* ---- registers ---- */

/* Completes the operation that the driver is polling for: a queue's enable or an EEPROM read. */
static void act(struct bus *it, struct place place)
{
    if (it->is_held)
        return;
    if (place.part == BUS_SWITCH)
        bus_enable(it, place.is_transmit, place.queue);
    else if (place.part == BUS_EEPROM)
        bus_eeprom(it);
}

static void trace(const struct bus *it, unsigned int function, char way, uint32_t offset, uint32_t word)
{
    char whose[8] = "pf";
    uint64_t number = 0;
    if (!it->options.trace)
        return;
    for (unsigned int i = 0; i < BUS_FUNCTIONS; i++)
        number += it->counts.accesses[i];
    if (function != BUS_PHYSICAL)
        snprintf(whose, sizeof whose, "vf%u", (function - 1) % BUS_FUNCTIONS);
    fprintf(it->options.trace, "%" PRIu64 " %s %c %05" PRIx32 " %08" PRIx32 "\n", number, whose, way, offset, word);
}

static uint32_t read_virtual(struct bus *it, unsigned int function, uint32_t offset)
{
    uint32_t word = 0;
    if (nic_vf_read32(&it->device, (uint8_t)(function - 1), offset, &word) != NIC_STRAY)
        return word;
    if (bus_is_absent(it, function)) {
        it->counts.absent_reads++;
        answer_absent_read(it, function, offset, &word);
    } else {
        stray_read(it, function, offset);
    }
    return word;
}

static uint32_t read_physical(struct bus *it, uint32_t address)
{
    uint32_t word = 0;
    if (nic_read32(&it->device, address, &word) != NIC_STRAY)
        return answer_read(it, address, word);
    stray_read(it, BUS_PHYSICAL, address);
    return answer_stray(it, address, word);
}

uint32_t bus_read(struct bus *it, unsigned int function, uint32_t offset)
{
    const struct bus_calls *calls = &it->options.calls;
    if (calls->reading)
        calls->reading(calls->of, function, offset);
    it->counts.in[it->phase].reads++;
    it->counts.accesses[function]++;
    const uint32_t address = physical_address(it, function, offset);
    const struct place place = place_at(it, address);
    act(it, place);
    uint32_t word = function == BUS_PHYSICAL ? read_physical(it, offset) : read_virtual(it, function, offset);
    if (calls->read) {
        const struct bus_access access = {function, offset, address, place.part, place.is_transmit, place.queue};
        word = calls->read(calls->of, &access, word);
    }
    trace(it, function, 'r', offset, word);
    return word;
}

static void write_virtual(struct bus *it, unsigned int function, uint32_t offset, uint32_t word)
{
    if (nic_vf_write32(&it->device, (uint8_t)(function - 1), offset, word) != NIC_STRAY)
        return;
    if (bus_is_absent(it, function)) {
        it->counts.absent_writes++;
        answer_absent_write(it, function, offset, word);
    } else {
        stray_write(it, function, offset, word);
    }
}

static void write_physical(struct bus *it, uint32_t address, uint32_t word)
{
    if (nic_write32(&it->device, address, word) != NIC_STRAY)
        return;
    stray_write(it, BUS_PHYSICAL, address, word);
    answer_stray_write(it, address, word);
}

/* Calls `reset` for each of these queues: a reset of the device or of a pool sets their heads and tails to 0. */
static void forget(const struct bus *it, unsigned int first, unsigned int count)
{
    const struct bus_calls *calls = &it->options.calls;
    for (unsigned int queue = first; calls->reset && queue < first + count && queue < BUS_QUEUES; queue++)
        calls->reset(calls->of, (uint16_t)queue);
}

static void forget_pool(const struct bus *it, unsigned int pool)
{
    unsigned int each = bus_pool_queues(it);
    forget(it, pool * each, each);
}

static void forget_reset(struct bus *it, unsigned int function, uint32_t offset, uint32_t word)
{
    bool is_function_reset = offset >= NIC_PVFCTRL(0) && offset < NIC_PVFCTRL(NIC_PVFCTRL_COUNT);
    if (function != BUS_PHYSICAL) {
        if (offset == NIC_VFCTRL && word & NIC_PVFCTRL_RST)
            forget_pool(it, function - 1);
    } else if (offset == NIC_CTRL && word & CTRL_RESETS) {
        forget(it, 0, BUS_QUEUES);
        answer_reset(it);
    } else if (is_function_reset && word & NIC_PVFCTRL_RST) {
        forget_pool(it, (offset - NIC_PVFCTRL(0)) / 4);
    }
}

/* Returns whether the write disables a side of a queue. A driver that doesn't poll for the disable clears the ring
   shortly afterwards. By then, the queue is off on a real card. */
static bool is_disable(struct place place, uint32_t word)
{
    return place.part == BUS_SWITCH && !(word & NIC_RXDCTL_ENABLE);
}

void bus_write(struct bus *it, unsigned int function, uint32_t offset, uint32_t word)
{
    const struct bus_calls *calls = &it->options.calls;
    const uint32_t address = physical_address(it, function, offset);
    const struct place place = place_at(it, address);
    const struct bus_access access = {function, offset, address, place.part, place.is_transmit, place.queue};
    it->counts.in[it->phase].writes++;
    it->counts.accesses[function]++;
    trace(it, function, 'w', offset, word);
    if (calls->writing)
        word = calls->writing(calls->of, &access, word);
    forget_reset(it, function, offset, word);
    if (function == BUS_PHYSICAL)
        write_physical(it, offset, word);
    else
        write_virtual(it, function, offset, word);
    mailbox_written(it, function, offset, word);
    if (it->options.acts_at_writes || is_disable(place, word))
        act(it, place);
    if (place.part == BUS_TAIL && place.is_transmit && !it->is_held)
        bus_transmit(it, place.queue);
    if (calls->written)
        calls->written(calls->of, &access);
}

void bus_wait(struct bus *it, unsigned int microseconds)
{
    it->counts.in[it->phase].waited += microseconds;
}

void bus_hold(struct bus *it, bool is_held)
{
    it->is_held = is_held;
}

bool bus_enable(struct bus *it, bool is_transmit, uint16_t queue)
{
    nic_outcome outcome;
    bool is_done = nic_queue_step(&it->device, is_transmit, queue, &outcome) == NIC_DONE;
    it->counts.enables += is_done;
    return is_done;
}

bool bus_eeprom(struct bus *it)
{
    uint64_t before = it->counts.eeprom_words;
    answer_eeprom(it);
    return it->counts.eeprom_words != before;
}

uint32_t bus_peek(const struct bus *it, uint32_t address)
{
    nic device = it->device;
    uint32_t word = 0;
    nic_peek32(&device, address, &word);
    return word;
}

/* ---- opening and closing ---- */

static void mark(struct bus *it, uint32_t address, enum bus_part part, bool is_transmit, unsigned int queue)
{
    it->places[address / 4] = (struct place){(uint8_t)part, (uint8_t)queue, is_transmit};
}

static void mark_receive(struct bus *it, unsigned int queue)
{
    mark(it, NIC_RDBAL(queue), BUS_BASE_LOW, false, queue);
    mark(it, NIC_RDBAH(queue), BUS_BASE_HIGH, false, queue);
    mark(it, NIC_RDLEN(queue), BUS_LENGTH, false, queue);
    mark(it, NIC_RDH(queue), BUS_HEAD, false, queue);
    mark(it, NIC_RDT(queue), BUS_TAIL, false, queue);
    mark(it, NIC_RXDCTL(queue), BUS_SWITCH, false, queue);
    mark(it, NIC_SRRCTL(queue), BUS_SRRCTL, false, queue);
    if (queue < SRRCTL_AGAINS)
        mark(it, SRRCTL_AGAIN(queue), BUS_SRRCTL, false, queue);
}

static void mark_transmit(struct bus *it, unsigned int queue)
{
    mark(it, NIC_TDBAL(queue), BUS_BASE_LOW, true, queue);
    mark(it, NIC_TDBAH(queue), BUS_BASE_HIGH, true, queue);
    mark(it, NIC_TDLEN(queue), BUS_LENGTH, true, queue);
    mark(it, NIC_TDH(queue), BUS_HEAD, true, queue);
    mark(it, NIC_TDT(queue), BUS_TAIL, true, queue);
    mark(it, NIC_TXDCTL(queue), BUS_SWITCH, true, queue);
    mark(it, NIC_TDWBAL(queue), BUS_BACK_LOW, true, queue);
    mark(it, NIC_TDWBAH(queue), BUS_BACK_HIGH, true, queue);
}

static void mark_places(struct bus *it)
{
    for (unsigned int queue = 0; queue < BUS_QUEUES; queue++) {
        mark_receive(it, queue);
        mark_transmit(it, queue);
    }
    mark(it, NIC_EERD, BUS_EEPROM, false, 0);
}

/* Installs an EEPROM with which a reset sets the first receive address, where drivers look for the card's MAC
   address. */
static bool install_eeprom(struct bus *it, const uint8_t mac[6])
{
    char text[128];
    uint32_t low = mac[0] | mac[1] << 8 | mac[2] << 16 | (uint32_t)mac[3] << 24;
    uint32_t high = NIC_RAH_AV | mac[4] | mac[5] << 8;
    int length = snprintf(text, sizeof text,
                          "size 128\ncsr 0x%05" PRIX32 " 0x%08" PRIX32 "\ncsr 0x%05" PRIX32 " 0x%08" PRIX32 "\n",
                          NIC_RAL(0), low, NIC_RAH(0), high);
    uint64_t line = 0;
    return nic_install_text(&it->device, (const uint8_t *)text, (size_t)length, &line) == NIC_DONE;
}

struct bus *bus_open(const struct bus_options *options)
{
    static const uint8_t none[6] = {0};
    struct bus *it = calloc(1, sizeof *it);
    if (!it)
        return NULL;
    it->options = *options;
    if (!options->phases)
        it->options.phases = one_phase;
    if (memcmp(options->mac, none, sizeof none) == 0)
        memcpy(it->options.mac, usual_mac, sizeof usual_mac);
    mark_places(it);
    if (nic_open(&it->device, options->functions, options->fifo, BLOCKS) == NIC_DONE) {
        nic_link(&it->device, true);
        if (strays_begin(it) && install_eeprom(it, it->options.mac))
            return it;
    }
    bus_close(it);
    return NULL;
}

void bus_close(struct bus *it)
{
    if (!it)
        return;
    nic_close(&it->device);
    strays_end(it);
    free(it);
}

nic *bus_device(struct bus *it)
{
    return &it->device;
}

const struct bus_counts *bus_counts(const struct bus *it)
{
    return &it->counts;
}

void bus_enter(struct bus *it, unsigned int phase)
{
    it->phase = phase;
}

const char *bus_phase_name(const struct bus *it, unsigned int phase)
{
    return it->options.phases[phase];
}
