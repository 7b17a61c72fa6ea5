#include "peer.h"

#include <inttypes.h>
#include <stdio.h>
#include <string.h>

#include "frames.h"
#include "rss.h"
#include "run.h"
#include "verdict.h"

#define ROOM_KEPT 8 /* free descriptors kept in the fullest queue: more than a frame needs */
#define ANY_QUEUE UINT16_MAX
#define MRQC_MODE 0xFu
#define MODE_ONE 0u
#define MODE_RSS 1u
#define MODE_POOLS 8u
#define MODE_POOLS_RSS_32 0xAu
#define MODE_POOLS_RSS_64 0xBu
#define QUEUES_RSS 16
#define DEFAULT_POOL_AT 7 /* bits 12:7 of VT_CTL */
#define UDP 17
#define ECHO_PORT 7
#define UDP_HEADERS 42 /* Ethernet, IPv4, UDP */

static const uint8_t peer_mac[6] = PEER_MAC;

static struct {
    uint32_t next, left; /* frames left to send */
    uint16_t most, function;
    uint8_t to[6];
    /* expected frames: count, first number; frames that arrived; number of those that were unchanged */
    uint32_t expected, first, came, alike;
    uint16_t expected_most;
    uint8_t from[6];
} now;

static struct {
    uint64_t sent, written, expected, echoes, others, by_queue_in[BUS_QUEUES], by_queue_out[BUS_QUEUES];
    uint64_t compared_queues;
    uint32_t guest_wrong, guest_compared, faults;
    bool has_verdict;
} all;

static uint16_t wanted_queue = ANY_QUEUE;

/* ---- in ---- */

/* Returns the queue that the registers select for a frame to a function. The physical function's pool is the default
   pool. */
static uint16_t queue_of(const struct frame *frame, unsigned int function)
{
    struct rss rss;
    unsigned int each = bus_pool_queues(run_bus);
    unsigned int pool = function == BUS_PHYSICAL
                            ? (bus_peek(run_bus, NIC_VT_CTL) & NIC_VT_CTL_DEF_PL) >> DEFAULT_POOL_AT
                            : function - 1;
    rss_of_registers(&rss, run_bus);
    switch (rss.mrqc & MRQC_MODE) {
    case MODE_ONE: return each ? ANY_QUEUE : 0;
    case MODE_RSS: return rss_queue(&rss, frame, QUEUES_RSS);
    case MODE_POOLS: return (uint16_t)(pool * each);
    case MODE_POOLS_RSS_32:
    case MODE_POOLS_RSS_64: return (uint16_t)(pool * each + rss_queue(&rss, frame, each));
    default: return ANY_QUEUE;
    }
}

void peer_filled(void *of, uint16_t queue, uint64_t descriptor, bool ends)
{
    (void)of, (void)descriptor;
    if (!ends)
        return;
    all.written++;
    all.by_queue_in[queue]++;
    if (wanted_queue == ANY_QUEUE)
        return;
    all.compared_queues++;
    if (wanted_queue != queue)
        problem("a frame went to queue %u, but its hash selects queue %u", queue, wanted_queue);
    wanted_queue = ANY_QUEUE;
}

/* Sends one frame, which the device receives immediately. Returns false if the device doesn't accept it. */
static bool send_one(uint32_t number)
{
    struct frame frame;
    frame_make(&frame, number, now.most, now.to, peer_mac);
    wanted_queue = queue_of(&frame, now.function);
    if (!bus_arrive(run_bus, frame.bytes, frame.length))
        return false;
    all.sent++;
    bus_receive(run_bus);
    return true;
}

/* Sends frames while the rings have room. When they are full, sending continues at the guest's next tail write. */
static void go_on(void)
{
    while (now.left && bus_least_room(run_bus) > ROOM_KEPT) {
        uint32_t number = now.next++;
        now.left--;
        if (!send_one(number))
            problem("the device didn't accept frame %" PRIu32, number);
    }
}

void peer_goes_on(void *of, const struct bus_access *access)
{
    (void)of;
    if (access->part == BUS_TAIL)
        go_on();
}

/* ---- out ---- */

static void compare(uint16_t queue, const uint8_t *bytes, size_t length)
{
    struct frame frame;
    uint32_t number = now.first + now.came++;
    frame_make(&frame, number, now.expected_most, peer_mac, now.from);
    all.expected++;
    all.by_queue_out[queue]++;
    if (frame_is(&frame, bytes, length))
        now.alike++;
    else
        problem("out: frame %" PRIu32 ", %zu bytes long, differs from the frame expected", number, length);
}

static void swap(uint8_t *one, uint8_t *other, size_t length)
{
    for (size_t i = 0; i < length; i++) {
        uint8_t byte = one[i];
        one[i] = other[i];
        other[i] = byte;
    }
}

static bool is_echo(const uint8_t *frame, size_t length)
{
    return length >= UDP_HEADERS && frame[12] == 0x08 && frame[13] == 0x00 && frame[23] == UDP && frame[36] == 0 &&
           frame[37] == ECHO_PORT;
}

/* Sends a datagram back, with source and destination swapped in each header. The checksums stay valid. */
static void echo(const uint8_t *frame, size_t length)
{
    static uint8_t back[FRAME_JUMBO];
    if (length > sizeof back)
        return;
    memcpy(back, frame, length);
    swap(back, back + 6, 6);
    swap(back + 26, back + 30, 4);
    swap(back + 34, back + 36, 2);
    all.echoes++;
    if (!bus_arrive(run_bus, back, length))
        return;
    all.sent++;
    bus_receive(run_bus);
}

void peer_takes(void *of, uint16_t queue, const uint8_t *frame, size_t length)
{
    (void)of;
    if (now.came < now.expected) {
        compare(queue, frame, length);
    } else if (is_echo(frame, length)) {
        echo(frame, length);
    } else {
        all.others++;
        problem("an unexpected %zu-byte frame arrived on queue %u", length, queue);
    }
}

/* ---- orders ---- */

static void expect(const struct order_words *words)
{
    now.first = words->first;
    now.expected = words->count;
    now.expected_most = (uint16_t)words->most;
    now.came = now.alike = 0;
    memcpy(now.from, words->mac, sizeof now.from);
}

static void begin_sending(const struct order_words *words, uint32_t count)
{
    now.next = words->first;
    now.left = count;
    now.most = (uint16_t)words->most;
    now.function = words->function;
    memcpy(now.to, words->mac, sizeof now.to);
}

static void send_anyhow(struct order_words *words)
{
    uint64_t before = all.written;
    begin_sending(words, 0);
    send_one(words->first);
    wanted_queue = ANY_QUEUE;
    words->result = all.written > before;
}

static void end(const struct order_words *words)
{
    all.has_verdict = true;
    all.guest_wrong = words->count;
    all.guest_compared = words->first;
    if (words->count)
        problem("the guest found %" PRIu32 " problems", words->count);
}

void peer_orders(uint32_t what, struct order_words *words)
{
    bool needs_most = what == ORDER_EXPECT || what == ORDER_SEND || what == ORDER_ONE;
    if (needs_most && (words->most < FRAME_MIN || words->most > FRAME_JUMBO)) {
        problem("an order for frames of up to %" PRIu32 " bytes, which is out of range", words->most);
        return;
    }
    switch (what) {
    case ORDER_PHASE: bus_enter(run_bus, words->count < PHASE_END ? words->count : PHASE_END); break;
    case ORDER_LINK: nic_link(bus_device(run_bus), words->count != 0); break;
    case ORDER_EXPECT: expect(words); break;
    case ORDER_SENT:
        words->result = now.alike;
        words->result_2 = now.came;
        now.expected = now.came = 0;
        break;
    case ORDER_SEND:
        begin_sending(words, words->count);
        go_on();
        break;
    case ORDER_ONE: send_anyhow(words); break;
    case ORDER_MESSAGES: words->result = (uint32_t)pci_messages(words->function); break;
    case ORDER_ECHOES: words->result = (uint32_t)all.echoes; break;
    case ORDER_FAULTS:
        all.faults = words->count;
        words->result = (uint32_t)bus_counts(run_bus)->faults;
        break;
    case ORDER_VERDICT: end(words); break;
    default: problem("unknown order %" PRIu32 "", what);
    }
}

uint32_t peer_faults(void)
{
    return all.faults;
}

/* ---- the end ---- */

static void tell_queues(const uint64_t by_queue[BUS_QUEUES])
{
    for (unsigned int queue = 0; queue < BUS_QUEUES; queue++)
        if (by_queue[queue])
            printf(" %u:%" PRIu64, queue, by_queue[queue]);
    printf("\n");
}

void peer_tell(void)
{
    printf("the peer sent %" PRIu64 " frames; by queue", all.sent);
    tell_queues(all.by_queue_in);
    printf("  for %" PRIu64 " of them, the queue was compared with the one that RSS selects\n", all.compared_queues);
    printf("the peer compared %" PRIu64 " frames; by queue", all.expected);
    tell_queues(all.by_queue_out);
    if (all.echoes)
        printf("  and sent back %" PRIu64 " datagrams\n", all.echoes);
    if (all.faults)
        printf("the device reported %" PRIu64 " faults for offloads, as the guest expects\n",
               bus_counts(run_bus)->faults);
    same("frames that the peer sent, and frames written", all.sent, all.written);
    same("frames that the device sent, and frames that arrived", bus_counts(run_bus)->frames_out,
         all.expected + all.echoes + all.others);
    if (all.has_verdict)
        printf("the guest made %" PRIu32 " comparisons, of which %" PRIu32 " failed\n", all.guest_compared,
               all.guest_wrong);
    else
        problem("the guest reported no verdict");
}
