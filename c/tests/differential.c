/* Makes random calls and writes the script of the same events: `differential SEED VFS SCRIPT ANSWERS` writes the
   script, and what `nicbench run` must print for it. With the same seed, the Rust crate's tests make the same calls
   (rust/nic82599/tests/common/differential.rs), so no expression draws two random numbers in an order that C leaves
   unspecified. This program itself checks what a script doesn't show: the fields of nic_outcome that it omits, ranges
   of memory that begin and end anywhere, and reads without side effects. */
#include <string.h>

#include "../library/reply.h"
#include "check.h"

enum { QUEUES = 4, BLOCKS = 256, USED = 8, FIFO = 8, MOST_LINES = 3800, MOST_DATA = 1000, MOST_BYTES = 1600 };

static nic n;
static FILE *script, *answers;
static unsigned line, strings;
static uint8_t vfs;

static const uint32_t addresses[] = {
#define ADDRESS(address) address,
#include "addresses.inc"
#undef ADDRESS
};

static void hex(FILE *file, const uint8_t *bytes, size_t length)
{
    for (size_t k = 0; k < length; k++)
        fprintf(file, "%02x", bytes[k]);
    fputc('\n', file);
}

/* Writes a line that names bytes, for the next line. Returns the number in the name. */
static unsigned data(const uint8_t *bytes, size_t length)
{
    fprintf(script, "data d%u ", strings);
    hex(script, bytes, length);
    return strings++;
}

static void answer(const char *text)
{
    fprintf(answers, "%u %s\n", line++, text);
}

static void answer_word(uint8_t status, uint32_t word)
{
    CHECK(status == NIC_DONE || status == NIC_STRAY);
    fprintf(answers, "%u %s 0x%08x\n", line++, status == NIC_DONE ? "word" : "stray", (unsigned)word);
}

static void answer_write(uint8_t status)
{
    CHECK(status == NIC_DONE || status == NIC_STRAY);
    answer(status == NIC_DONE ? "done" : "stray 0x00000000");
}

/* --- registers --- */

static void write_register(uint32_t address, uint32_t word)
{
    fprintf(script, "w %u %u\n", (unsigned)address, (unsigned)word);
    answer_write(nic_write32(&n, address, word));
}

static void read_register(uint32_t address)
{
    uint32_t peeked = 1, word = 2;
    uint8_t look = nic_peek32(&n, address, &peeked);
    uint8_t status = nic_read32(&n, address, &word);
    CHECK(look == status && (status == NIC_STRAY || peeked == word));
    fprintf(script, "r %u\n", (unsigned)address);
    answer_word(status, word);
}

static void write_vf(uint8_t vf, uint32_t offset, uint32_t word)
{
    fprintf(script, "vw %u %u %u\n", vf, (unsigned)offset, (unsigned)word);
    answer_write(nic_vf_write32(&n, vf, offset, word));
}

static void read_vf(uint8_t vf, uint32_t offset)
{
    uint32_t peeked = 1, word = 2;
    uint8_t look = nic_vf_peek32(&n, vf, offset, &peeked);
    uint8_t status = nic_vf_read32(&n, vf, offset, &word);
    CHECK(look == status && (status == NIC_STRAY || peeked == word));
    fprintf(script, "vr %u %u\n", vf, (unsigned)offset);
    answer_word(status, word);
}

static uint32_t some_word(void)
{
    static const uint32_t words[] = {0, 1, 2, 3, 8, 128, 256, 0x200, 0x2000, 0x02000000, 0x02000002, 0x12000001, 0x85};
    switch (below(4)) {
    case 0: return (uint32_t)chance();
    case 1: return 1u << below(32);
    default: return words[below(sizeof words / sizeof *words)];
    }
}

static uint32_t some_address(void)
{
    switch (below(8)) {
    case 0: return (uint32_t)chance();
    case 1: return below(0x20000);
    default: return addresses[below(sizeof addresses / sizeof *addresses)];
    }
}

static void access_by_chance(void)
{
    uint32_t address = some_address();
    if (address == NIC_CTRL || address == 4)
        address = below(16) ? (uint32_t)NIC_STATUS : address;
    if (below(2))
        write_register(address, some_word());
    else
        read_register(address);
}

static void access_of_a_function(void)
{
    static const uint32_t at[] = {0,      8,      0x10,   0x100,  0x104,  0x108,  0x10C,  0x110,  0x114,
                                  0x120,  0x124,  0x140,  0x200,  0x23C,  0x2FC,  0x300,  0x101C, 0x201C,
                                  0x1000, 0x1008, 0x1010, 0x1014, 0x1018, 0x1028, 0x2008, 0x2018, 0x2028};
    uint8_t vf = (uint8_t)below(below(4) ? 4 : 63);
    uint32_t offset = (uint32_t)chance() % 0x3000;
    if (below(6)) {
        offset = at[below(sizeof at / sizeof *at)];
        offset += 0x40 * below(5);
    }
    if (below(3) && (offset || !below(8)))
        write_vf(vf, offset, some_word());
    else
        read_vf(vf, offset);
}

/* --- memory --- */

static void lend(uint32_t block)
{
    uint8_t status = nic_lend(&n, block);
    CHECK(status == NIC_DONE || status == NIC_NO_BLOCK);
    fprintf(script, "lend %u\n", (unsigned)block);
    answer(status == NIC_DONE ? "done" : "no block");
}

static void take(uint32_t block)
{
    uint8_t status = nic_take(&n, block);
    CHECK(status == NIC_DONE || status == NIC_NOT_LENT);
    fprintf(script, "unlend %u\n", (unsigned)block);
    if (status == NIC_DONE)
        fprintf(answers, "%u taken %u\n", line++, (unsigned)block);
    else
        answer("not lent");
}

/* Reads sixteen bytes at a multiple of 16. Returns whether they are lent. */
static bool peek(uint32_t bus, uint8_t bytes[16])
{
    uint8_t status = nic_dma_read(&n, bus, bytes, 16);
    fprintf(script, "peek %u 0\n", (unsigned)bus);
    if (status != NIC_DONE) {
        ANSWERS(NIC_NOT_LENT, status);
        answer("not lent");
        return false;
    }
    fprintf(answers, "%u bytes ", line++);
    hex(answers, bytes, 16);
    return true;
}

static void poke(uint32_t bus, const uint8_t bytes[16])
{
    fprintf(script, "poke %u d%u\n", (unsigned)bus, data(bytes, 16));
    answer("done");
}

/* Reads a range, and compares it with the 16-byte units that it touches. */
static void read_range(uint32_t bus, size_t length)
{
    uint8_t got[256], whole[288];
    uint32_t first = bus & ~15u;
    bool lent = true;
    memset(got, 0xA5, sizeof got);
    for (uint32_t at = first; at < bus + length; at += 16)
        lent = peek(at, whole + (at - first)) && lent;
    ANSWERS(lent || !length ? NIC_DONE : NIC_NOT_LENT, nic_dma_read(&n, bus, got, length));
    for (size_t k = 0; k < length; k++)
        CHECK(got[k] == (lent ? whole[bus - first + k] : 0xA5));
}

/* Writes a range, and compares the units before and after: bytes outside the range don't change. */
static void write_range(uint32_t bus, const uint8_t *bytes, size_t length)
{
    uint8_t whole[MOST_BYTES + 32], now[16];
    uint32_t first = bus & ~15u;
    bool lent = true;
    CHECK(length <= MOST_BYTES);
    for (uint32_t at = first; at < bus + length; at += 16)
        lent = nic_dma_read(&n, at, whole + (at - first), 16) == NIC_DONE && lent;
    ANSWERS(lent || !length ? NIC_DONE : NIC_NOT_LENT, nic_dma_write(&n, bus, bytes, length));
    if (lent && length)
        memcpy(whole + (bus - first), bytes, length);
    for (uint32_t at = first; at < bus + length; at += 16) {
        if (lent)
            poke(at, whole + (at - first));
        if (peek(at, now) && lent)
            CHECK(memcmp(now, whole + (at - first), 16) == 0);
    }
}

static void memory_by_chance(void)
{
    uint8_t bytes[200];
    uint32_t bus = below(8) ? below(USED * 2048) : (uint32_t)chance() % (BLOCKS * 2048 * 2);
    size_t length = below(200);
    switch (below(6)) {
    case 0: lend(below(8) ? below(USED) : below(65536)); break;
    case 1:
        if (!below(12))
            take(below(8) ? below(USED) : below(65536));
        break;
    case 2:
    case 3: read_range(bus, length); break;
    default:
        for (size_t k = 0; k < length; k++)
            bytes[k] = (uint8_t)chance();
        write_range(bus, bytes, length);
    }
}

/* --- replies --- */

/* Returns the bus address of a queue's slot. */
static uint64_t slot_at(uint32_t base_low, uint32_t base_high, uint32_t slot)
{
    uint32_t low = 0, high = 0;
    ANSWERS(NIC_DONE, nic_peek32(&n, base_low, &low));
    ANSWERS(NIC_DONE, nic_peek32(&n, base_high, &high));
    return ((uint64_t)high << 32 | low) + 16 * slot;
}

/* Checks the fields that a script's answer doesn't show. */
static void check_outcome(uint8_t status, const nic_outcome *outcome)
{
    uint64_t second = 0;
    CHECK(outcome->status == status && outcome->step == 0 && outcome->of == 0);
    if (status == NIC_WROTE) {
        CHECK(outcome->desc == slot_at(NIC_RDBAL(outcome->queue), NIC_RDBAH(outcome->queue), outcome->slot));
        ANSWERS(NIC_DONE, nic_get64(&n, outcome->desc + 8, &second));
        CHECK((second & 1) && (second >> 1 & 1) == outcome->end && (second >> 32 & 0xFFFF) == outcome->len);
    }
    if (status == NIC_FAULT)
        CHECK((outcome->why == NIC_FAULT_NOT_LENT) || outcome->bus == 0);
    if (status != NIC_ADVANCED && status != NIC_SENT)
        CHECK(outcome->back == 0);
    if (outcome->back)
        ANSWERS(NIC_DONE, nic_get64(&n, outcome->at & ~UINT64_C(15), &second));
}

/* Writes the answer that `nicbench run` prints for a step. */
static void answer_outcome(uint8_t status, const nic_outcome *outcome)
{
    char words[160];
    nicl_reply(words, sizeof words, status, outcome);
    answer(words);
}

static void tell(uint8_t status, const nic_outcome *outcome)
{
    check_outcome(status, outcome);
    answer_outcome(status, outcome);
}

/* --- frames --- */

static size_t some_frame(uint8_t *frame)
{
    static const uint8_t beginning[] = {2, 0, 0, 0, 0, 1, 2, 0, 0, 0, 0, 2, 8, 0, 0x45, 0, 0, 40, 0, 0, 0, 0, 64, 6};
    static const size_t lengths[] = {60, 60, 61, 64, 100, 300, 1514, 1515};
    size_t length = below(12) ? lengths[below(8)] : 1 + below(70);
    memset(frame, (int)below(256), length);
    if (length >= 60)
        memcpy(frame, beginning, sizeof beginning);
    if (length >= 60) {
        frame[0] = below(6) ? 2 : 0xFF;
        frame[5] = (uint8_t)(1 + below(20) / 19);
        frame[13] = below(8) ? 0 : 0xDD;
        frame[23] = below(3) ? 6 : 17;
        frame[29] = (uint8_t)below(256);
    }
    return length;
}

static void arrive(void)
{
    uint8_t frame[MOST_BYTES];
    nic_outcome outcome;
    size_t length = some_frame(frame);
    uint8_t status = nic_arrive(&n, frame, length, &outcome);
    fprintf(script, "arrive d%u\n", data(frame, length));
    tell(status, &outcome);
}

static void collect(void)
{
    uint8_t frame[10000];
    nic_outcome outcome;
    size_t length = nic_next_out(&n);
    CHECK(length <= sizeof frame);
    if (length)
        ANSWERS(NIC_NO_ROOM, nic_collect(&n, frame, length - 1, &outcome));
    fprintf(script, "collect\n");
    if (nic_collect(&n, frame, sizeof frame, &outcome) == NIC_IDLE) {
        CHECK(length == 0);
        answer("idle");
        return;
    }
    CHECK(outcome.len == length && length);
    fprintf(answers, "%u frame queue %u ", line++, outcome.queue);
    hex(answers, frame, length);
}

/* --- steps --- */

static void queue_step(bool transmit, uint16_t queue)
{
    nic_outcome outcome;
    fprintf(script, "qstep %s %u\n", transmit ? "tx" : "rx", queue);
    tell(nic_queue_step(&n, transmit, queue, &outcome), &outcome);
}

static void group_line(uint8_t group)
{
    if (group)
        fprintf(script, "int %u\n", group - 1);
    else
        fprintf(script, "int pf\n");
}

static void step_by_chance(void)
{
    nic_outcome outcome;
    uint16_t queue = (uint16_t)(below(20) ? below(QUEUES) : below(65536));
    uint8_t group = (uint8_t)(below(4) ? below(2) : below(64));
    switch (below(8)) {
    case 0:
    case 1:
    case 2: fprintf(script, "rx\n"), tell(nic_rx_step(&n, &outcome), &outcome); break;
    case 3: fprintf(script, "tx %u\n", queue), tell(nic_tx_step(&n, queue, &outcome), &outcome); break;
    case 4: group_line(group), tell(nic_int_step(&n, group, &outcome), &outcome); break;
    case 5:
        if (below(2))
            queue_step(below(2), queue);
        break;
    case 6: fprintf(script, "tx %u\n", queue), tell(nic_tx_step(&n, queue, &outcome), &outcome); break;
    default: fprintf(script, "eestep\n"), tell(nic_eeprom_step(&n, &outcome), &outcome); break;
    }
}

/* Checks a step that nic_settle must have run: it reported something or was idle. */
static size_t settled(const nic_outcome *outcome, size_t at, size_t count, enum nic_step step, uint16_t of, bool known)
{
    if (at < count && outcome[at].step == step && outcome[at].of == of) {
        answer_outcome(outcome[at].status, &outcome[at]);
        return at + 1;
    }
    answer(known ? "idle" : "no group");
    return at;
}

static bool has_group(uint8_t group)
{
    uint32_t word = 0;
    return !group || nic_vf_peek32(&n, (uint8_t)(group - 1), NIC_VTEIMS, &word) == NIC_DONE;
}

/* Checks one round of nic_settle, step by step. */
static size_t round_of(const nic_outcome *outcome, size_t at, size_t count)
{
    for (uint16_t queue = 0; queue < QUEUES; queue++) {
        fprintf(script, "qstep rx %u\nqstep tx %u\n", queue, queue);
        at = settled(outcome, at, count, NIC_RX_ENABLE, queue, true);
        at = settled(outcome, at, count, NIC_TX_ENABLE, queue, true);
    }
    fprintf(script, "eestep\n");
    at = settled(outcome, at, count, NIC_EEPROM, 0, true);
    for (uint16_t queue = 0; queue < QUEUES; queue++) {
        fprintf(script, "tx %u\n", queue);
        at = settled(outcome, at, count, NIC_TRANSMIT, queue, true);
    }
    fprintf(script, "rx\n");
    at = settled(outcome, at, count, NIC_RECEIVE, 0, true);
    for (uint8_t group = 0; group <= vfs; group++) {
        group_line(group);
        at = settled(outcome, at, count, NIC_INTERRUPT, group, has_group(group));
    }
    return at;
}

static void settle(void)
{
    nic_outcome outcomes[1024];
    size_t count = 0, at = 0, before;
    ANSWERS(NIC_DONE, nic_settle(&n, QUEUES, outcomes, sizeof outcomes / sizeof *outcomes, &count));
    do {
        before = at;
        at = round_of(outcomes, at, count);
    } while (at > before);
    CHECK(at == count);
}

/* --- working queues, so that not every call is refused --- */

static void set_up(void)
{
    static const uint32_t filters[] = {0x200, 0x300, 0x700, 0x700, 0};
    static const uint32_t modes[] = {0, 1, 0x10001, 0x00030001, 0x8, 0x1000A, 0x3000B};
    write_register(NIC_RXCTRL, below(16) ? 1 : 0);
    write_register(NIC_FCTRL, filters[below(5)]);
    write_register(NIC_DMATXCTL, below(16) ? 1 : 0);
    write_register(NIC_MRQC, modes[below(7)]);
    uint32_t entries = 0, four = below(32);
    for (int k = 0; k < 3; k++)
        entries |= below(QUEUES) << 8 * k;
    write_register(NIC_RETA(four), entries);
    write_register(NIC_RXCSUM, below(2) << 13);
    write_register(NIC_GCR_EXT, vfs ? below(4) : 0);
    write_register(NIC_VT_CTL, vfs ? below(2) : 0);
    write_register(NIC_VFRE(0), some_word() | 3);
    write_register(NIC_VFTE(0), some_word() | 3);
    write_register(NIC_RAL(0), 2);
    write_register(NIC_RAH(0), 0x80000100);
    write_register(NIC_MPSAR(0), 1 + below(3));
    write_register(NIC_IVAR(0), 0x80808080u | ((uint32_t)chance() & 0x0F070707));
    write_register(NIC_IVAR(1), 0x80808080u | ((uint32_t)chance() & 0x3F070707));
    write_register(NIC_IVAR_MISC, 0x8080u | ((uint32_t)chance() & 0x1F0F));
    write_register(NIC_EIMS, some_word() | 0x1000FF);
    write_register(NIC_EIAM, some_word());
    write_register(NIC_EIAC, some_word());
}

/* Writes a descriptor into a slot; most are valid. */
static void post(bool transmit, uint32_t queue, uint32_t slot)
{
    static const uint32_t commands[] = {0x22300000, 0x23300000, 0x2A300000, 0x2B200000, 0x0B300000, 0x6B300000};
    uint32_t block = 2 * queue + transmit, length = 20 + below(200);
    uint64_t first = block * 2048 + 1024 + below(64), second = 0;
    uint8_t bytes[16];
    if (transmit)
        second = (below(5) ? 0x2B300000 : commands[below(6)]) | length | (uint64_t)length << 46;
    if (!below(30))
        first = below(2) ? chance() : (uint64_t)below(USED * 2048);
    for (int k = 0; k < 8; k++) {
        bytes[k] = (uint8_t)(first >> 8 * k);
        bytes[8 + k] = (uint8_t)(second >> 8 * k);
    }
    write_range(block * 2048 + 16 * slot, bytes, 16);
}

/* Writes descriptors into the slots starting at the tail, and then writes the tail. */
static void refill(bool transmit, uint32_t queue)
{
    uint32_t count = 1 + below(4), tail = nic_get(&n, transmit ? NIC_TDT(queue) : NIC_RDT(queue));
    uint32_t slots = nic_get(&n, transmit ? NIC_TDLEN(queue) : NIC_RDLEN(queue)) / 16;
    if (slots == 0 || slots > 16 || tail >= slots || !below(30))
        tail = 0, slots = 8;
    for (uint32_t k = 0; k < count; k++)
        post(transmit, queue, (tail + k) % slots);
    write_register(transmit ? NIC_TDT(queue) : NIC_RDT(queue), below(40) ? (tail + count) % slots : below(70000));
}

static void refill_by_chance(void)
{
    bool transmit = below(2);
    refill(transmit, below(QUEUES));
}

static void set_up_queue(bool transmit, uint32_t queue)
{
    uint32_t block = 2 * queue + transmit;
    lend(block);
    write_register(transmit ? NIC_TDBAL(queue) : NIC_RDBAL(queue), block * 2048);
    write_register(transmit ? NIC_TDLEN(queue) : NIC_RDLEN(queue), 128 + 128 * below(2));
    write_register(transmit ? NIC_TDH(queue) : NIC_RDH(queue), below(2));
    write_register(transmit ? NIC_TDT(queue) : NIC_RDT(queue), 1);
    if (transmit) {
        write_register(NIC_TDWBAL(queue), below(4) ? 0 : block * 2048 + 0x401);
    } else {
        uint32_t word = below(30) ? 0x02000000 : 0;
        word |= below(30) ? 1 : 0;
        word |= below(2) << 28;
        write_register(NIC_SRRCTL(queue), word);
    }
    write_register(transmit ? NIC_TXDCTL(queue) : NIC_RXDCTL(queue), below(20) ? NIC_TXDCTL_ENABLE : 0);
    queue_step(transmit, (uint16_t)queue);
    refill(transmit, queue);
}

/* Usually sets up a side again that a fault disabled. */
static void repair(void)
{
    for (uint32_t side = 0; side < 2 * QUEUES; side++) {
        uint32_t queue = side / 2, word = 0;
        ANSWERS(NIC_DONE, nic_peek32(&n, side % 2 ? NIC_TXDCTL(queue) : NIC_RXDCTL(queue), &word));
        if (!(word & NIC_TXDCTL_ENABLE) && below(2))
            set_up_queue(side % 2, queue);
    }
}

static void link_by_chance(void)
{
    bool up = below(3) || nic_get(&n, NIC_LINKS) == 0;
    if (below(4))
        return;
    fprintf(script, "link %s\n", up ? "up" : "down");
    answer(nic_status_name(nic_link(&n, up)));
}

static void call_by_chance(void)
{
    switch (below(24)) {
    case 0:
        if (!below(4))
            set_up();
        break;
    case 1: repair(); break;
    case 2:
    case 3:
    case 4: refill_by_chance(); break;
    case 5:
    case 6:
    case 7:
    case 8: arrive(); break;
    case 9:
        if (vfs || !below(4))
            access_of_a_function();
        break;
    case 10: memory_by_chance(); break;
    case 11:
    case 12: collect(); break;
    case 13:
        if (!below(3))
            settle();
        break;
    case 14: link_by_chance(); break;
    case 15: access_by_chance(); break;
    case 16:
        if (!below(4))
            write_register(NIC_EERD, below(70) << 2 | 1);
        break;
    default: step_by_chance(); break;
    }
}

int main(int words, char **word)
{
    unsigned calls = 0;
    CHECK(words == 5);
    chance_state = strtoull(word[1], NULL, 10) * UINT64_C(0x9E3779B97F4A7C15) | 1;
    vfs = (uint8_t)strtoul(word[2], NULL, 10);
    script = fopen(word[3], "w");
    answers = fopen(word[4], "w");
    CHECK(script && answers);
    ANSWERS(NIC_DONE, nic_open(&n, vfs, FIFO, BLOCKS));
    set_up();
    repair();
    for (; line < MOST_LINES - 200 && strings < MOST_DATA - 120; calls++)
        call_by_chance();
    fprintf(answers, "ok %u\n", line);
    CHECK(fclose(script) == 0 && fclose(answers) == 0);
    nic_close(&n);
    printf("%u %u\n", calls, line);
    return 0;
}
