/* Tests of the code shared by runs of real drivers: frames, hashes and queues, windows, memory, replies, strays,
   mailboxes. The test plays the driver. */
#include <string.h>

#include "check.h"
#include "frames.h"
#include "mailbox.h"
#include "rss.h"
#include "run.h"
#include "strays.h"
#include "verdict.h"
#include "window.h"

enum {
    RING = 0x1000,
    BUFFER = 0x2000,
    LATE = 0x2800,
    SLOTS = 8,
    FIRST_BUS = 0x8000,
    BYTES = 0x4000,
    QUEUE = 4,
    FUNCTION = 3
};

static const uint8_t card[6] = {2, 0, 0, 0, 0x82, 0x99}, peer[6] = {2, 0, 0, 0, 0, 1};
static const char *const phases[] = {"first", "second", NULL};
#define CHECKSUM (UINT64_C(1) << 41) /* transmit descriptor: insert the TCP or UDP checksum */

#ifdef COPIES
#define IS_COPIED true
#else
#define IS_COPIED false
#endif

static uint8_t host_memory[BYTES];
static struct frame sent;
static unsigned int frames_sent, filled, given, tails, messages, last_vector;

/* ---- frames ---- */

static uint16_t sum_of(const uint8_t *bytes, unsigned int length)
{
    uint32_t sum = 0;
    for (unsigned int at = 0; at < length; at += 2)
        sum += (uint32_t)bytes[at] << 8 | bytes[at + 1];
    while (sum >> 16)
        sum = (sum & 0xFFFF) + (sum >> 16);
    return (uint16_t)sum;
}

static void frames_follow_from_their_numbers(void)
{
    static bool has_length[FRAME_MAX + 1];
    static struct frame frame, again;
    for (uint32_t number = 0; number < FRAME_MAX - FRAME_MIN + 1; number++) {
        frame_make(&frame, number, FRAME_MAX, card, peer);
        frame_make(&again, number, FRAME_MAX, card, peer);
        CHECK(frame.length >= FRAME_MIN && frame.length <= FRAME_MAX && !has_length[frame.length]);
        has_length[frame.length] = true;
        CHECK(frame_is(&frame, again.bytes, again.length));
        CHECK(memcmp(frame.bytes, card, 6) == 0 && memcmp(frame.bytes + 6, peer, 6) == 0);
        if (frame.bytes[12] == 8 && frame.bytes[13] == 0)
            CHECK(sum_of(frame.bytes + 14, 20) == 0xFFFF);
        again.bytes[again.length - 1] ^= 1;
        CHECK(!frame_is(&frame, again.bytes, again.length) && !frame_is(&frame, frame.bytes, frame.length - 1u));
    }
    frame_make(&frame, 12345, FRAME_JUMBO, card, peer);
    frame_make(&again, 12346, FRAME_JUMBO, card, peer);
    CHECK(frame.length > FRAME_MAX && memcmp(frame.bytes + 2048, again.bytes + 2048, 256) != 0);
    CHECK(memcmp(frame.bytes + 2048 + 64, frame.bytes + 64, 256) != 0);
}

static void line_ups_keep_their_order(void)
{
    struct line_up line_up;
    uint32_t number = 7;
    memset(&line_up, 0xA5, sizeof line_up); /* its old contents don't matter */
    CHECK(line_up_begin(&line_up, 2) && !line_up_take(&line_up, &number) && number == 7);
    line_up_put(&line_up, 5);
    line_up_put(&line_up, 3);
    line_up_put(&line_up, 1); /* past its capacity */
    CHECK(line_up_left(&line_up) == 2 && line_up_take(&line_up, &number) && number == 5);
    CHECK(line_up_take(&line_up, &number) && number == 3 && !line_up_take(&line_up, &number));
    line_up_end(&line_up);
    CHECK(line_up_begin(&line_up, 0) && line_up_left(&line_up) == 0);
    line_up_end(&line_up);
    line_up_end(&line_up); /* its memory is freed */
}

static void numbers_are_read_whole(void)
{
    unsigned int number = 9;
    CHECK(read_number("12", 1, 12, &number) && number == 12);
    CHECK(!read_number("13", 1, 12, &number) && !read_number("0", 1, 12, &number) && !read_number("", 0, 12, &number));
    CHECK(!read_number("1x", 0, 12, &number) && !read_number("-1", 0, 12, &number) &&
          !read_number(" 1", 0, 12, &number));
    CHECK(!read_number("99999999999999999999999", 0, ~0ul, &number) && number == 12);
}

/* ---- hashes ---- */

/* The published verification suite for receive side scaling: its key, an IPv4 packet with ports and one without. */
static void hashes_are_those_published(void)
{
    static const uint8_t key[RSS_KEY_BYTES] = {0x6d, 0x5a, 0x56, 0xda, 0x25, 0x5b, 0x0e, 0xc2, 0x41, 0x67,
                                               0x25, 0x3d, 0x43, 0xa3, 0x8f, 0xb0, 0xd0, 0xca, 0x2b, 0xcb,
                                               0xae, 0x7b, 0x30, 0xb4, 0x77, 0xcb, 0x2d, 0xa3, 0x80, 0x30,
                                               0xf2, 0x0c, 0x6a, 0x42, 0xb7, 0x3b, 0xbe, 0xac, 0x01, 0xfa};
    static const uint8_t input[12] = {66, 9, 149, 187, 161, 142, 100, 80, 2794 >> 8, 2794 & 255, 1766 >> 8, 1766 & 255};
    struct rss rss = {.mrqc = RSS_ALL};
    static struct frame frame;
    uint32_t hash;
    memcpy(rss.key, key, sizeof key);
    frame_make(&frame, FRAME_TCP4, FRAME_MAX, card, peer);
    memcpy(frame.bytes + 26, input, sizeof input);
    CHECK(rss_hash(&rss, &frame, &hash) && hash == 0x51ccc178);
    rss.mrqc = NIC_MRQC_IPV4;
    CHECK(rss_hash(&rss, &frame, &hash) && hash == 0x323e8fc2);
    rss.mrqc = NIC_MRQC_IPV6 | NIC_MRQC_TCPIPV6 | NIC_MRQC_UDPIPV4;
    CHECK(!rss_hash(&rss, &frame, &hash));
}

/* Compares the library's hash with the independent implementation in rss.c. */
static void hashes_are_the_librarys(void)
{
    struct rss rss = {.mrqc = RSS_ALL};
    static struct frame frame;
    for (unsigned int i = 0; i < RSS_KEY_BYTES; i++)
        rss.key[i] = (uint8_t)chance();
    for (uint32_t number = 0; number < 500; number++) {
        size_t at = 0;
        uint32_t hash = 0, theirs = 0;
        frame_make(&frame, number, FRAME_MAX, card, peer);
        size_t length = frame_hashed(&frame, &at);
        CHECK(rss_hash(&rss, &frame, &hash) == (length > 0));
        ANSWERS(NIC_DONE, nic_hash(rss.key, frame.bytes + at, length, &theirs));
        CHECK(length == 0 || hash == theirs);
    }
}

/* ---- the bus ---- */

static void on_sent(void *of, uint16_t queue, const uint8_t *frame, size_t length)
{
    (void)of;
    CHECK(queue == QUEUE);
    memcpy(sent.bytes, frame, length);
    sent.length = (uint16_t)length;
    frames_sent++;
}

static void on_filled(void *memory, uint16_t queue, uint64_t descriptor, bool ends)
{
    CHECK(memory == &run_memory);
    CHECK(queue == QUEUE && ends && descriptor == FIRST_BUS + RING);
    filled++;
}

static void on_written(void *memory, const struct bus_access *access)
{
    (void)memory;
    CHECK(access->part != BUS_TAIL || (access->queue == QUEUE && access->offset == access->address));
    tails += access->part == BUS_TAIL;
}

static void on_message(void *memory, unsigned int function, unsigned int vector)
{
    (void)memory;
    CHECK(function == BUS_PHYSICAL);
    messages++;
    last_vector = vector;
}

static void open_bus(struct bus_options options)
{
    options.fifo = 16;
    options.phases = phases;
    memcpy(options.mac, card, sizeof card);
    CHECK(run_open(&options, IS_COPIED));
    memset(host_memory, 0, sizeof host_memory);
    filled = given = tails = frames_sent = messages = 0;
}

static uint64_t bus_of(uint32_t offset)
{
    return FIRST_BUS + offset;
}

static void put64(uint32_t offset, uint64_t value)
{
    memcpy(host_memory + offset, &value, sizeof value);
}

/* Called before the device sees the write, so the value stored here is what the device gets. */
static uint32_t on_writing(void *memory, const struct bus_access *access, uint32_t word)
{
    if (access->part == BUS_TAIL) {
        CHECK(!access->is_transmit && access->queue == QUEUE && word == SLOTS - 1 && tails == given);
        CHECK(bus_peek(run_bus, NIC_RDT(QUEUE)) == 0);
        put64(RING, bus_of(LATE));
        given++;
    }
    return IS_COPIED ? copies_writing(memory, access, word) : word;
}

static uint64_t get64(uint32_t offset)
{
    uint64_t value;
    memcpy(&value, host_memory + offset, sizeof value);
    return value;
}

/* Starts a ring of eight slots at `first`, in a virtual function's registers or the physical function's. */
static void start_ring(unsigned int function, uint32_t first, uint32_t control)
{
    bus_write(run_bus, function, first, (uint32_t)bus_of(RING));
    bus_write(run_bus, function, first + 4, 0);
    bus_write(run_bus, function, first + 8, SLOTS * BUS_SLOT);
    bus_write(run_bus, function, control, NIC_RXDCTL_ENABLE);
    CHECK(bus_read(run_bus, function, control) & NIC_RXDCTL_ENABLE); /* the read runs the device step */
}

static void start_receive(unsigned int function, uint32_t first)
{
    bus_write(run_bus, function, first + 0x14, NIC_SRRCTL_DESCTYPE_IS(1) | NIC_SRRCTL_BSIZEPACKET_IS(2));
    start_ring(function, first, first + 0x28);
    for (uint32_t slot = 0; slot < SLOTS; slot++)
        put64(RING + BUS_SLOT * slot, bus_of(BUFFER));
    bus_write(run_bus, function, first + 0x18, SLOTS - 1);
}

static void memory_is_lent_in_pieces(void)
{
    static uint8_t apart[NIC_BLOCK_BYTES];
    open_bus((struct bus_options){0});
    CHECK(!memory_lend(&run_memory, bus_of(1), host_memory, BYTES) &&
          !memory_lend(&run_memory, bus_of(0), host_memory, BYTES - 1));
    CHECK(memory_lend(&run_memory, bus_of(0), host_memory, BYTES / 2));
    CHECK(!memory_lend(&run_memory, bus_of(0), host_memory, BYTES / 2)); /* already lent */
    CHECK(memory_lend(&run_memory, bus_of(BYTES / 2), host_memory + BYTES / 2, BYTES / 2));
    CHECK(memory_at(&run_memory, bus_of(5), BYTES - 5) == host_memory + 5); /* both pieces form one range */
    CHECK(!memory_at(&run_memory, bus_of(5), BYTES) && !memory_at(&run_memory, bus_of(0) - 1, 1) &&
          !memory_at(&run_memory, ~UINT64_C(0), 2));
    CHECK(!memory_at(&run_memory, 0, SIZE_MAX));
    CHECK(memory_lend(&run_memory, bus_of(BYTES), apart,
                      NIC_BLOCK_BYTES)); /* the next bus address, but not the next byte */
    CHECK(!memory_at(&run_memory, bus_of(BYTES - 1), 2) && memory_at(&run_memory, bus_of(BYTES), 1) == apart);
    run_close();
}

#ifdef COPIES
static void memory_is_copied(void)
{
    open_bus((struct bus_options){0});
    CHECK(memory_lend(&run_memory, bus_of(0), host_memory, BYTES));
    host_memory[9] = 77;
    copies_to_device(&run_memory, bus_of(8), 4);
    host_memory[9] = 0;
    copies_to_driver(&run_memory, bus_of(8), 4);
    CHECK(host_memory[9] == 77 && run_memory.refusals == 0);
    copies_to_device(&run_memory, bus_of(BYTES - 1), 2);
    CHECK(run_memory.refusals == 1);
    run_close();
}
#else
/* Tests memory in place: the device reads the driver's stores without a tail write, and the driver reads the device's
   stores. */
static void memory_is_one(void)
{
    uint8_t byte = 0;
    open_bus((struct bus_options){0});
    CHECK(memory_lend(&run_memory, bus_of(0), host_memory, BYTES));
    CHECK(!memory_lend(&run_memory, bus_of(BYTES), host_memory, NIC_BLOCK_BYTES)); /* lent at another bus address */
    host_memory[9] = 77;
    CHECK(nic_dma_read(bus_device(run_bus), bus_of(9), &byte, 1) == NIC_DONE && byte == 77);
    CHECK(nic_dma_write(bus_device(run_bus), bus_of(10), &byte, 1) == NIC_DONE && host_memory[10] == 77);
    run_close();
}
#endif

/* Tests that disabling a queue takes effect at the write: the device doesn't overwrite what the driver then stores in
   its ring. */
static void a_queue_goes_off_at_the_write(void)
{
    static struct frame frame;
    open_bus((struct bus_options){0});
    CHECK(memory_lend(&run_memory, bus_of(0), host_memory, BYTES));
    bus_write(run_bus, BUS_PHYSICAL, NIC_RXCTRL, NIC_RXCTRL_RXEN);
    bus_write(run_bus, BUS_PHYSICAL, NIC_FCTRL, NIC_FCTRL_UPE);
    start_receive(BUS_PHYSICAL, NIC_RDBAL(0));
    bus_write(run_bus, BUS_PHYSICAL, NIC_RXDCTL(0), 0);
    CHECK(!(bus_peek(run_bus, NIC_RXDCTL(0)) & NIC_RXDCTL_ENABLE));
    memset(host_memory, 0, sizeof host_memory);
    frame_make(&frame, FRAME_TCP4, FRAME_MAX, card, peer);
    CHECK(bus_arrive(run_bus, frame.bytes, frame.length) && bus_receive(run_bus) == 0);
    CHECK(bus_counts(run_bus)->drops == 1 && bus_counts(run_bus)->drop_whys[NIC_WHY_QUEUE_OFF] == 1 &&
          bus_counts(run_bus)->faults == 0);
    for (uint32_t k = 0; k < BYTES; k++)
        CHECK(host_memory[k] == 0);
    run_close();
}

/* Returns the number of the ring's descriptors that differ between the device's copy and the driver's. */
static unsigned int unlike(unsigned int slots)
{
    unsigned int count = 0;
    for (unsigned int slot = 0; slot < slots; slot++) {
        uint8_t bench[BUS_SLOT];
        CHECK(nic_dma_read(bus_device(run_bus), bus_of(RING + BUS_SLOT * slot), bench, BUS_SLOT) == NIC_DONE);
        count += memcmp(bench, host_memory + RING + BUS_SLOT * slot, BUS_SLOT) != 0;
    }
    return count;
}

static void frames_come_in(uint64_t flipped)
{
    static struct frame frame;
    open_bus((struct bus_options){.calls = {.filled = on_filled, .writing = on_writing, .written = on_written},
                                  .turn_in = flipped});
    CHECK(memory_lend(&run_memory, bus_of(0), host_memory, BYTES));
    bus_write(run_bus, BUS_PHYSICAL, NIC_RXCTRL, NIC_RXCTRL_RXEN);
    bus_write(run_bus, BUS_PHYSICAL, NIC_FCTRL, NIC_FCTRL_UPE);
    struct rss rss;
    uint32_t hash;
    bus_write(run_bus, BUS_PHYSICAL, NIC_MRQC, NIC_MRQC_MRQE_IS(1) | NIC_MRQC_IPV4);
    bus_write(run_bus, BUS_PHYSICAL, NIC_RSSRK(0), 0x04030201);
    for (uint32_t word = 0; word < NIC_RETA_COUNT; word++)
        bus_write(run_bus, BUS_PHYSICAL, NIC_RETA(word), QUEUE * 0x01010101u);
    start_receive(BUS_PHYSICAL, NIC_RDBAL(QUEUE));
    CHECK(bus_room(run_bus, QUEUE) == SLOTS - 1 && bus_least_room(run_bus) == SLOTS - 1 &&
          bus_room(run_bus, QUEUE + 1) == 0);
    frame_make(&frame, FRAME_TCP4, FRAME_MAX, card, peer);
    rss_of_registers(&rss, run_bus);
    CHECK(rss.key[0] == 1 && rss.key[3] == 4 && rss_hash(&rss, &frame, &hash));
    CHECK(rss_queue(&rss, &frame, 16) == QUEUE && rss_queue(&rss, &frame, 4) == 0);
    CHECK(bus_arrive(run_bus, frame.bytes, frame.length) && bus_receive(run_bus) == 1 && filled == 1 && given == 1 &&
          tails == 1);
    CHECK(frame_is(&frame, host_memory + LATE, frame.length) == (flipped == 0));
    CHECK((get64(RING + 8) & 3) == 3 && (get64(RING + 8) >> 32 & 0xFFFF) == frame.length);
    CHECK(unlike(SLOTS - 1) == 0 && bus_is_settled(run_bus, BUS_QUEUES));
    CHECK(!bus_arrive(run_bus, frame.bytes, 59) && bus_counts(run_bus)->arrive_whys[NIC_WHY_SHORT] == 1 &&
          bus_counts(run_bus)->not_let_in == 1);
    run_close();
}

/* Writes descriptors of a frame to slots `from` up to `to`. */
static void put_slots(const struct frame *frame, uint32_t from, uint32_t to)
{
    uint64_t half = (uint64_t)frame->length << 46 | 0x2B300000u | frame->length; /* advanced data, EOP, IFCS, RS */
    for (uint32_t slot = from; slot < to; slot++) {
        put64(RING + BUS_SLOT * slot, bus_of(BUFFER));
        put64(RING + BUS_SLOT * slot + 8, half);
    }
    memcpy(host_memory + BUFFER, frame->bytes, frame->length);
}

static uint16_t faulty_slot;

static void on_fault(void *of, bool is_transmit, const nic_outcome *outcome)
{
    (void)of;
    CHECK(is_transmit);
    faulty_slot = outcome->slot;
}

static void frames_go_out(uint64_t flipped)
{
    static struct frame frame, next;
    open_bus((struct bus_options){.turn_out = flipped, .calls = {.fault = on_fault}});
    CHECK(memory_lend(&run_memory, bus_of(0), host_memory, BYTES));
    bus_send_to(run_bus, on_sent, NULL);
    bus_write(run_bus, BUS_PHYSICAL, NIC_DMATXCTL, 1);
    start_ring(BUS_PHYSICAL, NIC_TDBAL(QUEUE), NIC_TXDCTL(QUEUE));
    frame_make(&frame, 3, FRAME_MAX, peer, card);
    frame_make(&next, 4, FRAME_MAX, peer, card);
    put_slots(&frame, 0, SLOTS);
    bus_write(run_bus, BUS_PHYSICAL, NIC_TDT(QUEUE), 6);
    CHECK(frames_sent == 6 && get64(RING + 8) >> 32 & 1 && frame_is(&frame, sent.bytes, sent.length));
    put_slots(&next, 6, SLOTS);
    put_slots(&next, 0, 1);
    bus_write(run_bus, BUS_PHYSICAL, NIC_TDT(QUEUE), 1); /* past the ring's end */
    CHECK(frames_sent == 9 && bus_counts(run_bus)->faults == 0);
    CHECK(frame_is(&next, sent.bytes, sent.length) == (flipped == 0));
    put_slots(&next, 1, 2);
    put64(RING + BUS_SLOT + 8, get64(RING + BUS_SLOT + 8) | CHECKSUM);
    bus_write(run_bus, BUS_PHYSICAL, NIC_TDT(QUEUE), 2);
    CHECK(frames_sent == 9 && bus_counts(run_bus)->faults == 1 &&
          bus_counts(run_bus)->fault_whys[NIC_FAULT_OFFLOAD] == 1 && faulty_slot == 1);
#ifdef COPIES
    bus_write(run_bus, BUS_PHYSICAL, NIC_TDT(QUEUE), SLOTS);
    CHECK(run_memory.refusals == 1);
#endif
    run_close();
}

/* A reset moves heads and tails to 0 without a write to them. */
static void a_reset_starts_rings_again(void)
{
    open_bus((struct bus_options){0});
    CHECK(memory_lend(&run_memory, bus_of(0), host_memory, BYTES));
    for (unsigned int time = 0; time < 2; time++) {
        start_receive(BUS_PHYSICAL, NIC_RDBAL(QUEUE));
        CHECK(unlike(SLOTS - 1) == 0);
        bus_write(run_bus, BUS_PHYSICAL, NIC_CTRL, NIC_CTRL_RST);
        memset(host_memory, 0xEE, BUFFER);
    }
    run_close();
}

static void messages_and_the_line(void)
{
    open_bus((struct bus_options){.calls = {.message = on_message}});
    CHECK(bus_messages(run_bus) == 0 && !bus_line(run_bus));
    bus_write(run_bus, BUS_PHYSICAL, NIC_EIMS, NIC_EIMS_LSC);
    bus_write(run_bus, BUS_PHYSICAL, NIC_EICS, NIC_EICS_LSC);
    CHECK(bus_line(run_bus) && bus_messages(run_bus) == 0); /* no vector is assigned to other causes */
    bus_write(run_bus, BUS_PHYSICAL, NIC_IVAR_MISC, 0x8200);
    CHECK(bus_messages(run_bus) == 1 && messages == 1 && last_vector == 2);
    CHECK(bus_counts(run_bus)->messages[BUS_PHYSICAL] == 1 && bus_counts(run_bus)->vectors[BUS_PHYSICAL] == 4);
    run_close();
}

/* ---- device steps that the run requests ---- */

static unsigned int steps, resets;

static uint32_t plus_one(void *memory, const struct bus_access *access, uint32_t word)
{
    CHECK(memory == &run_memory && access->function == BUS_PHYSICAL);
    return access->address == NIC_LEDCTL ? word + 1 : word;
}

static bool on_stepping(void *memory, bool is_transmit, uint16_t queue)
{
    (void)memory;
    CHECK(is_transmit && queue == QUEUE);
    steps++;
    return true;
}

static void on_reset(void *memory, uint16_t queue)
{
    (void)memory;
    CHECK(queue == resets);
    resets++;
}

/* Tests the callbacks of a run that manages its own memory and holds the device's steps. */
static void a_held_bus_makes_no_step(void)
{
    const struct bus_calls own = {.writing = plus_one, .read = plus_one, .stepping = on_stepping, .reset = on_reset};
    open_bus((struct bus_options){.calls = own, .acts_at_writes = true});
    bus_hold(run_bus, true);
    bus_write(run_bus, BUS_PHYSICAL, NIC_LEDCTL, 5);
    CHECK(bus_peek(run_bus, NIC_LEDCTL) == 6 && bus_read(run_bus, BUS_PHYSICAL, NIC_LEDCTL) == 7);
    bus_write(run_bus, BUS_PHYSICAL, NIC_TXDCTL(QUEUE), NIC_TXDCTL_ENABLE);
    bus_write(run_bus, BUS_PHYSICAL, NIC_TDT(QUEUE), 0);
    bus_write(run_bus, BUS_PHYSICAL, NIC_EERD, NIC_EERD_START);
    CHECK(!(bus_read(run_bus, BUS_PHYSICAL, NIC_TXDCTL(QUEUE)) & NIC_TXDCTL_ENABLE) && steps == 0);
    CHECK(!(bus_read(run_bus, BUS_PHYSICAL, NIC_EERD) & NIC_EERD_DONE));
    CHECK(bus_enable(run_bus, true, QUEUE) && !bus_enable(run_bus, true, QUEUE) && bus_counts(run_bus)->enables == 1);
    CHECK(bus_eeprom(run_bus) && !bus_eeprom(run_bus) && bus_read(run_bus, BUS_PHYSICAL, NIC_EERD) & NIC_EERD_DONE);
    bus_transmit(run_bus, QUEUE);
    CHECK(steps == 1);
    bus_hold(run_bus, false);
    bus_write(run_bus, BUS_PHYSICAL, NIC_TDT(QUEUE), 0);
    CHECK(steps == 2);
    bus_write(run_bus, BUS_PHYSICAL, NIC_CTRL, NIC_CTRL_RST);
    CHECK(resets == BUS_QUEUES);
    run_close();
}

/* ---- shim replies ---- */

static void answers_are_given_where_they_are_asked_for(bool given)
{
    open_bus((struct bus_options){.functions = 3, .answers = given ? BUS_ALL : 0});
    uint32_t first = bus_read(run_bus, BUS_PHYSICAL, 0x10140);
    CHECK(first == 0 && bus_read(run_bus, BUS_PHYSICAL, 0x10140) == given);
    bus_write(run_bus, BUS_PHYSICAL, 0x10140, 2);
    CHECK(bus_read(run_bus, BUS_PHYSICAL, 0x10140) == (given ? 2 : 0));
    bus_write(run_bus, BUS_PHYSICAL, 0x10160, 0xFFFFFFFF);
    CHECK(bus_read(run_bus, BUS_PHYSICAL, 0x10160) == (given ? 0x3FF : 0));
    bus_write(run_bus, BUS_PHYSICAL, NIC_CTRL, NIC_CTRL_RST); /* clears the drivers' bits, but not the firmware's */
    CHECK(bus_read(run_bus, BUS_PHYSICAL, 0x10160) == (given ? 0x3E0 : 0));
    CHECK(bus_answers_at(run_bus, 0x10160) == given && !bus_answers_at(run_bus, 0x05088));
    CHECK(bus_read(run_bus, BUS_PHYSICAL, 0x042B0) == (given ? 0x10000 : 0));
    CHECK(bus_read(run_bus, BUS_PHYSICAL, 0x10148) == (given ? 0x8000 : 0));
    CHECK(bus_read(run_bus, BUS_PHYSICAL, 0x03C00) == (given ? 0x80000 : 0) &&
          bus_read(run_bus, BUS_PHYSICAL, 0x03C04) == 0);
    bus_write(run_bus, BUS_PHYSICAL, NIC_EICS, NIC_EICS_LSC);
    CHECK(bus_read(run_bus, BUS_PHYSICAL, NIC_EICS) == (given ? NIC_EICR_LSC : 0) &&
          bus_peek(run_bus, NIC_EICR) == NIC_EICR_LSC);
    bus_write(run_bus, BUS_PHYSICAL, NIC_CTRL, NIC_CTRL_MASTER_DISABLE);
    bus_write(run_bus, BUS_PHYSICAL, NIC_EERD, NIC_EERD_START);
    CHECK(((bus_read(run_bus, BUS_PHYSICAL, NIC_EERD) & NIC_EERD_DONE) != 0) == given);
    CHECK(bus_peek(run_bus, NIC_CTRL) & NIC_CTRL_MASTER_DISABLE);
    bus_write(run_bus, BUS_PHYSICAL, NIC_CTRL, 0);
    CHECK(bus_read(run_bus, FUNCTION, NIC_VFSTATUS) == (given ? bus_peek(run_bus, NIC_STATUS) : UINT32_MAX));
    CHECK(bus_read(run_bus, FUNCTION, NIC_VFRDBAL(0)) == (given ? 0 : UINT32_MAX) &&
          bus_counts(run_bus)->absent_reads == 2);
    bus_write(run_bus, FUNCTION, NIC_VFMBMEM(1), 5);
    CHECK(bus_peek(run_bus, NIC_PFMBMEM(16 * (FUNCTION - 1) + 1)) == (given ? 5 : 0) &&
          bus_counts(run_bus)->absent_writes == 1);
    CHECK(bus_counts(run_bus)->answered[0] == (given ? 3 : 0) && bus_counts(run_bus)->answered[4] == (given ? 3 : 0));
    run_close();
}

/* ---- virtual functions ---- */

static void functions_have_queues_of_their_own(void)
{
    static struct frame frame;
    open_bus((struct bus_options){.functions = 3, .calls = {.filled = on_filled}});
    CHECK(bus_pool_queues(run_bus) == 0 && memory_lend(&run_memory, bus_of(0), host_memory, BYTES));
    bus_write(run_bus, BUS_PHYSICAL, NIC_GCR_EXT, 3);
    CHECK(bus_pool_queues(run_bus) == 2);
    bus_write(run_bus, BUS_PHYSICAL, NIC_VT_CTL, NIC_VT_CTL_VT_ENA | NIC_VT_CTL_DEF_PL_IS(FUNCTION - 1));
    bus_write(run_bus, BUS_PHYSICAL, NIC_MRQC, 8);
    bus_write(run_bus, BUS_PHYSICAL, NIC_VFRE(0), UINT32_MAX);
    bus_write(run_bus, BUS_PHYSICAL, NIC_RXCTRL, NIC_RXCTRL_RXEN);
    bus_write(run_bus, BUS_PHYSICAL, NIC_FCTRL, NIC_FCTRL_UPE);
    start_receive(FUNCTION, NIC_VFRDBAL(0)); /* virtual function 2's first queue: the device's queue 4 */
    frame_make(&frame, 1, FRAME_MAX, card, peer);
    CHECK(bus_arrive(run_bus, frame.bytes, frame.length) && bus_receive(run_bus) == 1 && filled == 1);
    CHECK(frame_is(&frame, host_memory + BUFFER, frame.length));
    run_close();
}

/* Tests that virtual functions above the number of pools are absent for reads, writes and mailbox requests. */
static void functions_beyond_the_pools_are_absent(void)
{
    const struct {
        uint32_t mode;
        unsigned int pools;
    } all[] = {{1, 16}, {2, 32}};
    for (size_t i = 0; i < sizeof all / sizeof *all; i++) {
        const unsigned int last = all[i].pools, beyond = last + 1; /* function p has pool p - 1 */
        open_bus((struct bus_options){.functions = BUS_FUNCTIONS - 1});
        bus_write(run_bus, BUS_PHYSICAL, NIC_GCR_EXT, all[i].mode);
        bus_write(run_bus, last, NIC_VFMBMEM(0), 2);
        bus_write(run_bus, last, NIC_VFMAILBOX, NIC_PVFMAILBOX_REQ);
        bus_write(run_bus, last, 0x3FFC, 1);
        CHECK(!bus_is_absent(run_bus, last) && bus_counts(run_bus)->absent_writes == 0 &&
              bus_read(run_bus, last, 0x3FFC) == 0 && bus_counts(run_bus)->absent_reads == 0);
        CHECK(mailbox_counts(run_bus, 2).asked == 1);
        bus_write(run_bus, beyond, NIC_VFMAILBOX, NIC_PVFMAILBOX_REQ);
        bus_write(run_bus, beyond, 0x3FFC, 1);
        CHECK(bus_is_absent(run_bus, beyond) && bus_counts(run_bus)->absent_writes == 2);
        CHECK(bus_read(run_bus, beyond, NIC_VFSTATUS) == UINT32_MAX && bus_counts(run_bus)->absent_reads == 1);
        CHECK(mailbox_counts(run_bus, 0).asked == 0 && mailbox_counts(run_bus, 2).asked == 1);
        run_close();
    }
}

static void on_access(void *access, const struct bus_access *it)
{
    *(struct bus_access *)access = *it;
}

/* Tests that each access is mapped to its register and the device's queue, for either kind of function. */
static void accesses_are_found(void)
{
    const struct bus_access all[] = {
        {0, NIC_RDBAL(127), NIC_RDBAL(127), BUS_BASE_LOW, false, 127},
        {0, NIC_TDBAH(64), NIC_TDBAH(64), BUS_BASE_HIGH, true, 64},
        {0, NIC_RDLEN(63), NIC_RDLEN(63), BUS_LENGTH, false, 63},
        {0, NIC_TDH(1), NIC_TDH(1), BUS_HEAD, true, 1},
        {0, NIC_TXDCTL(5), NIC_TXDCTL(5), BUS_SWITCH, true, 5},
        {0, NIC_SRRCTL(16), NIC_SRRCTL(16), BUS_SRRCTL, false, 16},
        {0, 0x0213C, 0x0213C, BUS_SRRCTL, false, 15}, /* SRRCTL[15]'s other address, */
        {0, 0x02140, 0x02140, BUS_OTHER, false, 0},   /* and the address after it */
        {0, NIC_TDWBAL(2), NIC_TDWBAL(2), BUS_BACK_LOW, true, 2},
        {0, NIC_TDWBAH(127), NIC_TDWBAH(127), BUS_BACK_HIGH, true, 127},
        {0, NIC_EERD, NIC_EERD, BUS_EEPROM, false, 0},
        {0, BUS_SPACE, BUS_SPACE, BUS_OTHER, false, 0},
        {FUNCTION, NIC_VFRDT(1), NIC_RDT(5), BUS_TAIL, false, 5},
        {FUNCTION, NIC_VFTDT(0), NIC_TDT(4), BUS_TAIL, true, 4},
        {FUNCTION, NIC_VFTDT(2), BUS_SPACE, BUS_OTHER, false, 0}, /* a pool has two queues */
        {FUNCTION, NIC_VFMAILBOX, NIC_PVFMAILBOX(FUNCTION - 1), BUS_OTHER, false, 0},
    };
    struct bus_access found;
    struct bus *bus = bus_open(
        &(struct bus_options){.fifo = 1, .functions = FUNCTION, .calls = {.of = &found, .written = on_access}});
    CHECK(bus);
    bus_write(bus, BUS_PHYSICAL, NIC_GCR_EXT, 3);
    for (size_t i = 0; i < sizeof all / sizeof *all; i++) {
        const struct bus_access *it = &all[i];
        bus_write(bus, it->function, it->offset, 0);
        CHECK(found.function == it->function && found.offset == it->offset && found.address == it->address);
        CHECK(found.part == it->part && found.is_transmit == it->is_transmit && found.queue == it->queue);
    }
    bus_close(bus);
}

static void mailboxes_are_watched(void)
{
    open_bus((struct bus_options){.functions = 3});
    bus_write(run_bus, BUS_PHYSICAL, NIC_GCR_EXT, 3);
    bus_write(run_bus, FUNCTION, NIC_VFMBMEM(0), 0x00010006);
    bus_write(run_bus, FUNCTION, NIC_VFMAILBOX, 1);
    CHECK(mailbox_counts(run_bus, 6).asked == 1 && mailbox_counts(run_bus, 6).acknowledged == 0);
    bus_write(run_bus, BUS_PHYSICAL, NIC_PFMBMEM(16 * (FUNCTION - 1)), 0x40010006);
    bus_write(run_bus, BUS_PHYSICAL, NIC_PFMAILBOX(FUNCTION - 1), NIC_PFMAILBOX_STS);
    CHECK(mailbox_counts(run_bus, 6).refused == 1 && mailbox_counts(run_bus, 6).acknowledged == 0 &&
          mailbox_own_messages(run_bus) == 0);
    bus_write(run_bus, BUS_PHYSICAL, NIC_PFMAILBOX(FUNCTION - 1), NIC_PFMAILBOX_STS);
    CHECK(mailbox_own_messages(run_bus) == 1);
    bus_write(run_bus, FUNCTION, NIC_VFMBMEM(0), 0x77);
    bus_write(run_bus, FUNCTION, NIC_VFMAILBOX, 1);
    CHECK(mailbox_counts(run_bus, 0x77).asked == 1);
    run_close();
}

/* ---- windows and strays ---- */

static void windows_are_apart(void)
{
    unsigned int function, wrong = problems();
    uint32_t offset;
    CHECK(window_open(FUNCTION));
    for (unsigned int which = 0; which <= FUNCTION; which++) {
        uint32_t last = which == 0 ? BUS_SPACE - 4 : BUS_FUNCTION_SPACE - 4;
        window_find((char *)window_of(which) + last, &function, &offset);
        CHECK(function == which && offset == last);
    }
    CHECK(problems() == wrong);
    window_find((char *)window_of(0) + BUS_SPACE, &function, &offset);
    CHECK(problems() == wrong + 1 && function == BUS_PHYSICAL && offset == BUS_SPACE);
    window_find((char *)window_of(1) + BUS_FUNCTION_SPACE, &function, &offset);
    window_find((char *)window_of(0) - 4, &function, &offset);
    CHECK(problems() == wrong + 3);
    window_close();
}

static const char *name_of(unsigned int function, uint32_t offset)
{
    return function == BUS_PHYSICAL && offset == 0x03220 ? "FCRTL" : NULL;
}

static void strays_are_kept(void)
{
    char text[256] = "";
    FILE *file = tmpfile();
    open_bus((struct bus_options){.functions = 3});
    bus_read(run_bus, BUS_PHYSICAL, 0x03220);
    bus_read(run_bus, FUNCTION, 0x0820); /* not a stray: this mode has no pool for the virtual function */
    bus_enter(run_bus, 1);
    bus_write(run_bus, BUS_PHYSICAL, 0x03220, 0xABC);
    bus_write(run_bus, BUS_PHYSICAL, NIC_GCR_EXT, 3);
    bus_write(run_bus, FUNCTION, 0x0820, 1);
    bus_read(run_bus, BUS_PHYSICAL, BUS_SPACE);
    strays_write(run_bus, file, name_of);
    rewind(file);
    CHECK(fread(text, 1, sizeof text - 1, file) > 0);
    CHECK(strcmp(text, "pf 03220 1 1 00000abc first second # FCRTL\nvf2 00820 0 1 00000001 second\n") == 0);
    CHECK(bus_counts(run_bus)->in[0].reads == 2 && bus_counts(run_bus)->in[1].writes == 3 &&
          bus_counts(run_bus)->accesses[FUNCTION] == 2);
    fclose(file);
    run_close();
}

/* Opens two buses at the same time, and tests that neither serves accesses to the other. */
static void buses_are_apart(void)
{
    const struct bus_options options = {.fifo = 16, .functions = 1, .answers = BUS_ALL};
    struct bus *one = bus_open(&options), *other = bus_open(&options);
    CHECK(one && other && bus_device(one) != bus_device(other));
    bus_write(one, BUS_PHYSICAL, NIC_LEDCTL, 5);
    CHECK(bus_peek(one, NIC_LEDCTL) == 5 && bus_peek(other, NIC_LEDCTL) == 0);
    CHECK(bus_read(one, BUS_PHYSICAL, 0x10140) == 0 && bus_read(other, BUS_PHYSICAL, 0x10140) == 0);
    bus_hold(one, true);
    bus_write(one, BUS_PHYSICAL, NIC_RXDCTL(0), NIC_RXDCTL_ENABLE);
    bus_write(other, BUS_PHYSICAL, NIC_RXDCTL(0), NIC_RXDCTL_ENABLE);
    CHECK(!(bus_read(one, BUS_PHYSICAL, NIC_RXDCTL(0)) & NIC_RXDCTL_ENABLE));
    CHECK(bus_read(other, BUS_PHYSICAL, NIC_RXDCTL(0)) & NIC_RXDCTL_ENABLE);
    bus_write(one, BUS_PHYSICAL, NIC_GCR_EXT, 3);
    bus_write(one, 1, NIC_VFMBMEM(0), 6);
    bus_write(one, 1, NIC_VFMAILBOX, 1);
    CHECK(mailbox_counts(one, 6).asked == 1 && mailbox_counts(other, 6).asked == 0);
    CHECK(bus_counts(one)->in[0].writes == 5 && bus_counts(other)->in[0].writes == 1);
    bus_close(one);
    CHECK(bus_peek(other, NIC_RXDCTL(0)) & NIC_RXDCTL_ENABLE);
    bus_close(other);
}

/* Opens a run without names or an address. It transfers no frame and prints a line that says so; the script checks for
   that line. */
static void a_bus_needs_no_names(void)
{
    unsigned int wrong = problems();
    CHECK(run_open(&(struct bus_options){.fifo = 1}, IS_COPIED));
    bus_write(run_bus, BUS_PHYSICAL, NIC_CTRL, NIC_CTRL_RST);
    CHECK(bus_peek(run_bus, NIC_RAL(0)) == 0x00000002 && bus_peek(run_bus, NIC_RAH(0)) == (NIC_RAH_AV | 0x9982));
    run_tell_counts();
    run_check_counts(0, 0);
    CHECK(problems() == wrong);
    run_close();
}

int main(void)
{
    frames_follow_from_their_numbers();
    line_ups_keep_their_order();
    numbers_are_read_whole();
    hashes_are_those_published();
    hashes_are_the_librarys();
    a_bus_needs_no_names();
    memory_is_lent_in_pieces();
#ifdef COPIES
    memory_is_copied();
#else
    memory_is_one();
#endif
    a_queue_goes_off_at_the_write();
    frames_come_in(0);
    frames_come_in(1);
    frames_go_out(0);
    frames_go_out(9);
    a_reset_starts_rings_again();
    messages_and_the_line();
    a_held_bus_makes_no_step();
    answers_are_given_where_they_are_asked_for(false);
    answers_are_given_where_they_are_asked_for(true);
    functions_have_queues_of_their_own();
    functions_beyond_the_pools_are_absent();
    accesses_are_found();
    mailboxes_are_watched();
    buses_are_apart();
    windows_are_apart();
    strays_are_kept();
    printf("common: passed\n");
    return 0;
}
