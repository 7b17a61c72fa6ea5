/* Runs DPDK's driver with its transmit offloads, on the guest server's card in this process. The card computes
   checksums, cuts TSO packets and inserts tags. drivers/dpdk/run --offloads compiles and calls it.

     offloads [--frames N] [--loud] [--turn out]

   Sends each kind of packet once, then N random ones (1,000 by default). Each frame sent is compared byte by byte with
   what its packet requests: headers, checksums (computed again here), payload. Status 0: all was correct; 1: something
   was wrong; 3: unknown arguments. */
#include <inttypes.h>
#include <rte_ip.h>
#include <rte_tcp.h>
#include <rte_udp.h>
#include <stdio.h>
#include <string.h>

#include "card.h"
#include "ports.h"
#include "server/bench_card.h"
#include "verdict.h"

enum { MEBIBYTES = 48, PACKETS = 4095, BUFFER = 2048, FRAMES_MOST = 1000000, QUEUE = 0, OUT_MOST = 256 };
#define ETHERNET 14u
#define TAG_BYTES 4u
#define TAG 0x6007u /* VLAN 7, priority 3 */
#define ID 0x8259u
#define SEQUENCE 0xFFFFF000u /* so that TSO packets wrap past 2^32 */
#define FLAGS (RTE_TCP_ACK_FLAG | RTE_TCP_PSH_FLAG | RTE_TCP_FIN_FLAG)
#define FIRST_FLAGS RTE_TCP_ACK_FLAG
#define PORT_FROM 4096
#define PORT_TO 80
#define LARGEST 20000u

/* A packet and the offloads that it requests. */
struct packet {
    bool is_v6, is_tcp, has_tag;
    uint16_t mss; /* segment size in bytes; 0 if the packet isn't cut */
    uint32_t payload;
};

static const struct packet kinds[] = {
    {false, false, false, 0, 100},   {true, false, false, 0, 101},      {false, true, false, 0, 1400},
    {true, true, false, 0, 1399},    {false, true, true, 0, 1000},      {true, false, true, 0, 333},
    {false, true, false, 1400, 700}, {false, true, false, 1400, 9800},  {true, true, false, 1380, 9999},
    {false, true, true, 536, 5000},  {true, true, true, 1400, LARGEST},
};

static struct {
    uint8_t bytes[2048];
    size_t length;
} out[OUT_MOST];
static unsigned int out_count, out_all, flipped, frames = 1000;
static uint64_t payload_bytes;

static void take(const uint8_t *frame, size_t length)
{
    out_all++;
    if (out_count == OUT_MOST || length > sizeof out[0].bytes)
        return;
    memcpy(out[out_count].bytes, frame, length);
    out[out_count].length = length;
    if (flipped && out_all == flipped)
        out[out_count].bytes[length - 1] ^= 1;
    out_count++;
}

/* ---- a packet ---- */

static uint8_t byte_of(uint32_t number, uint32_t at)
{
    return (uint8_t)(number * 31 + at * 7 + (at >> 8));
}

static unsigned int l3_bytes(const struct packet *it)
{
    return it->is_v6 ? sizeof(struct rte_ipv6_hdr) : sizeof(struct rte_ipv4_hdr);
}

static unsigned int l4_bytes(const struct packet *it)
{
    return it->is_tcp ? sizeof(struct rte_tcp_hdr) : sizeof(struct rte_udp_hdr);
}

static void put_l3(const struct packet *it, uint8_t *at)
{
    uint32_t length = l4_bytes(it) + it->payload;
    uint8_t protocol = it->is_tcp ? IPPROTO_TCP : IPPROTO_UDP;
    memset(at, 0, l3_bytes(it));
    if (it->is_v6) {
        uint8_t *addresses = at + 8;
        at[0] = 0x60;
        at[4] = (uint8_t)(length >> 8);
        at[5] = (uint8_t)length;
        at[6] = protocol;
        at[7] = 64;
        for (unsigned int i = 0; i < 32; i++)
            addresses[i] = (uint8_t)(0x20 + i);
        return;
    }
    struct rte_ipv4_hdr ip = {.version_ihl = 0x45,
                              .total_length = rte_cpu_to_be_16((uint16_t)(sizeof ip + length)),
                              .packet_id = rte_cpu_to_be_16(ID),
                              .time_to_live = 64,
                              .next_proto_id = protocol,
                              .src_addr = rte_cpu_to_be_32(RTE_IPV4(10, 0, 0, 2)),
                              .dst_addr = rte_cpu_to_be_32(RTE_IPV4(10, 0, 0, 1))};
    memcpy(at, &ip, sizeof ip);
}

static void put_l4(const struct packet *it, uint8_t *at)
{
    if (it->is_tcp) {
        struct rte_tcp_hdr tcp = {.src_port = rte_cpu_to_be_16(PORT_FROM),
                                  .dst_port = rte_cpu_to_be_16(PORT_TO),
                                  .sent_seq = rte_cpu_to_be_32(SEQUENCE),
                                  .data_off = 5 << 4,
                                  .tcp_flags = FLAGS,
                                  .rx_win = rte_cpu_to_be_16(8192)};
        memcpy(at, &tcp, sizeof tcp);
        return;
    }
    struct rte_udp_hdr udp = {.src_port = rte_cpu_to_be_16(PORT_FROM),
                              .dst_port = rte_cpu_to_be_16(PORT_TO),
                              .dgram_len = rte_cpu_to_be_16((uint16_t)(sizeof udp + it->payload))};
    memcpy(at, &udp, sizeof udp);
}

static void ask(const struct packet *it, struct rte_mbuf *head)
{
    head->l2_len = ETHERNET;
    head->l3_len = l3_bytes(it);
    head->l4_len = l4_bytes(it);
    head->ol_flags |= it->is_v6 ? RTE_MBUF_F_TX_IPV6 : RTE_MBUF_F_TX_IPV4 | RTE_MBUF_F_TX_IP_CKSUM;
    head->ol_flags |= it->is_tcp ? RTE_MBUF_F_TX_TCP_CKSUM : RTE_MBUF_F_TX_UDP_CKSUM;
    if (it->has_tag) {
        head->ol_flags |= RTE_MBUF_F_TX_VLAN;
        head->vlan_tci = TAG;
    }
    if (it->mss) {
        head->ol_flags |= RTE_MBUF_F_TX_TCP_SEG;
        head->tso_segsz = it->mss;
    }
}

/* Puts the payload into as many buffers as it needs. */
static bool put_payload(const struct packet *it, struct rte_mbuf *head, uint32_t number)
{
    struct rte_mbuf *part = head;
    for (uint32_t done = 0; done < it->payload;) {
        uint16_t room = rte_pktmbuf_tailroom(part);
        uint16_t length = (uint16_t)RTE_MIN(it->payload - done, (uint32_t)room);
        uint8_t *at = (uint8_t *)rte_pktmbuf_append(part, length);
        for (uint16_t i = 0; i < length; i++)
            at[i] = byte_of(number, done + i);
        done += length;
        if (done == it->payload)
            break;
        part = rte_pktmbuf_alloc(pool);
        if (!part || rte_pktmbuf_chain(head, part) != 0)
            return false;
    }
    head->pkt_len = ETHERNET + l3_bytes(it) + l4_bytes(it) + it->payload;
    return true;
}

static struct rte_mbuf *packet_of(const struct packet *it, uint32_t number)
{
    struct rte_mbuf *head = rte_pktmbuf_alloc(pool);
    if (!head)
        return NULL;
    uint8_t *at = (uint8_t *)rte_pktmbuf_append(head, (uint16_t)(ETHERNET + l3_bytes(it) + l4_bytes(it)));
    memcpy(at, peer_mac, 6);
    memcpy(at + 6, card_mac, 6);
    at[12] = it->is_v6 ? 0x86 : 0x08;
    at[13] = it->is_v6 ? 0xDD : 0x00;
    put_l3(it, at + ETHERNET);
    put_l4(it, at + ETHERNET + l3_bytes(it));
    ask(it, head);
    return put_payload(it, head, number) ? head : NULL;
}

/* ---- the frames that must be sent ---- */

static uint32_t sum(const uint8_t *bytes, size_t length, uint32_t so_far)
{
    for (size_t i = 0; i < length; i++)
        so_far += i % 2 ? bytes[i] : (uint32_t)bytes[i] << 8;
    return so_far;
}

static bool is_right(uint32_t all)
{
    while (all >> 16)
        all = (all & 0xFFFF) + (all >> 16);
    return all == 0xFFFF;
}

/* Returns the number of payload bytes in segment number `segment`. */
static uint32_t part_of(const struct packet *it, unsigned int segment)
{
    return it->mss ? RTE_MIN(it->payload - segment * it->mss, (uint32_t)it->mss) : it->payload;
}

static bool is_l3_right(const struct packet *it, const uint8_t *at, unsigned int segment)
{
    uint8_t wanted[sizeof(struct rte_ipv6_hdr)], came[sizeof(struct rte_ipv6_hdr)];
    struct packet part = *it;
    part.payload = part_of(it, segment);
    put_l3(&part, wanted);
    memcpy(came, at, l3_bytes(it));
    if (!it->is_v6) {
        if (!is_right(sum(at, l3_bytes(it), 0)))
            return false;
        uint16_t id = (uint16_t)(ID + segment);
        wanted[4] = (uint8_t)(id >> 8);
        wanted[5] = (uint8_t)id;
        came[10] = came[11] = 0;
    }
    return memcmp(wanted, came, l3_bytes(it)) == 0;
}

/* Checks the checksum over its pseudo header: addresses, protocol, length. */
static bool is_l4_sum_right(const struct packet *it, const uint8_t *l3, const uint8_t *l4, uint32_t length)
{
    const uint8_t *addresses = it->is_v6 ? l3 + 8 : l3 + 12;
    uint32_t all = (it->is_tcp ? IPPROTO_TCP : IPPROTO_UDP) + length;
    return is_right(sum(l4, length, sum(addresses, it->is_v6 ? 32 : 8, all)));
}

static bool is_l4_right(const struct packet *it, const uint8_t *at, unsigned int segment, bool is_last)
{
    uint8_t wanted[sizeof(struct rte_tcp_hdr)], came[sizeof(struct rte_tcp_hdr)];
    struct rte_tcp_hdr tcp;
    put_l4(it, wanted);
    memcpy(came, at, l4_bytes(it));
    if (!it->is_tcp) {
        came[6] = came[7] = 0;
        return memcmp(wanted, came, l4_bytes(it)) == 0;
    }
    memcpy(&tcp, wanted, sizeof tcp);
    tcp.sent_seq = rte_cpu_to_be_32(SEQUENCE + segment * it->mss);
    tcp.tcp_flags = is_last ? FLAGS : FIRST_FLAGS;
    memcpy(wanted, &tcp, sizeof tcp);
    came[16] = came[17] = 0;
    return memcmp(wanted, came, l4_bytes(it)) == 0;
}

/* Checks the addresses, the tag and the type. */
static bool is_l2_right(const struct packet *it, const uint8_t *frame)
{
    static const uint8_t tag[] = {0x81, 0x00, TAG >> 8, TAG & 0xFF};
    const uint8_t *type = frame + 12 + (it->has_tag ? TAG_BYTES : 0);
    return memcmp(frame, peer_mac, 6) == 0 && memcmp(frame + 6, card_mac, 6) == 0 &&
           (!it->has_tag || memcmp(frame + 12, tag, sizeof tag) == 0) && type[0] == (it->is_v6 ? 0x86 : 0x08) &&
           type[1] == (it->is_v6 ? 0xDD : 0x00);
}

/* Returns which part of a sent frame is wrong; null if none is. */
static const char *compare(const struct packet *it, uint32_t number, unsigned int segment, bool is_last)
{
    const uint8_t *frame = out[segment].bytes;
    uint32_t part = part_of(it, segment), l2 = ETHERNET + (it->has_tag ? TAG_BYTES : 0);
    const uint8_t *l3 = frame + l2, *l4 = l3 + l3_bytes(it), *payload = l4 + l4_bytes(it);
    if (out[segment].length != l2 + l3_bytes(it) + l4_bytes(it) + part)
        return "length";
    if (!is_l2_right(it, frame))
        return "address, tag or type";
    if (!is_l3_right(it, l3, segment))
        return "IP header";
    for (uint32_t i = 0; i < part; i++)
        if (payload[i] != byte_of(number, segment * it->mss + i))
            return "payload";
    if (!is_l4_right(it, l4, segment, is_last))
        return "TCP or UDP header";
    return is_l4_sum_right(it, l3, l4, l4_bytes(it) + part) ? NULL : "TCP or UDP checksum";
}

static void look(const struct packet *it, uint32_t number)
{
    unsigned int wanted = it->mss ? (it->payload + it->mss - 1) / it->mss : 1;
    if (out_count != wanted) {
        problem("packet %u, %u bytes long, was sent in %u frames instead of %u", number, it->payload, out_count,
                wanted);
        return;
    }
    for (unsigned int segment = 0; segment < wanted; segment++) {
        const char *what = compare(it, number, segment, segment + 1 == wanted);
        if (what)
            problem("packet %u, %u bytes long, frame %u: wrong %s", number, it->payload, segment, what);
    }
}

/* ---- the run ---- */

static bool give(uint16_t port, const struct packet *it, uint32_t number)
{
    struct rte_mbuf *packet = packet_of(it, number);
    out_count = 0;
    if (!packet || rte_eth_tx_prepare(port, QUEUE, &packet, 1) != 1 || rte_eth_tx_burst(port, QUEUE, &packet, 1) != 1) {
        problem("packet %u wasn't accepted", number);
        return false;
    }
    payload_bytes += it->payload;
    look(it, number);
    return true;
}

static uint32_t chance(void)
{
    static uint32_t state = 82599;
    state = state * 1103515245u + 12345u;
    return state >> 8;
}

static struct packet drawn(void)
{
    struct packet it = {.is_v6 = chance() % 2, .is_tcp = chance() % 4 != 0, .has_tag = chance() % 3 == 0};
    it.mss = it.is_tcp && chance() % 2 ? (uint16_t)(200 + chance() % 1200) : 0;
    it.payload = 60 + chance() % ((it.mss ? LARGEST : 1400u) - 60);
    return it;
}

static bool start(uint16_t *port)
{
    const char *what;
    struct rte_eth_conf configuration = {0};
    configuration.txmode.offloads = RTE_ETH_TX_OFFLOAD_IPV4_CKSUM | RTE_ETH_TX_OFFLOAD_UDP_CKSUM |
                                    RTE_ETH_TX_OFFLOAD_TCP_CKSUM | RTE_ETH_TX_OFFLOAD_TCP_TSO |
                                    RTE_ETH_TX_OFFLOAD_VLAN_INSERT | RTE_ETH_TX_OFFLOAD_MULTI_SEGS;
    if (failed("the driver's probe", card_probe(BUS_PHYSICAL, 0x10F7, 0, 0)))
        return false;
    *port = card_port(BUS_PHYSICAL);
    int status = port_configure(*port, &configuration, 1, SLOTS, &what);
    if (failed(what, status) || failed("rte_eth_dev_start", rte_eth_dev_start(*port)))
        return false;
    printf("  %s sends with %s\n", card_driver(BUS_PHYSICAL), sends_by(*port));
    bench_card_send_to(take);
    return true;
}

static void run(void)
{
    uint16_t port;
    uint64_t large, segments;
    uint32_t number = 0;
    if (!start(&port))
        return;
    for (size_t i = 0; i < RTE_DIM(kinds); i++)
        if (!give(port, &kinds[i], number++))
            return;
    for (unsigned int i = 0; i < frames; i++) {
        struct packet it = drawn();
        if (!give(port, &it, number++))
            return;
    }
    bench_card_counts(&large, &segments);
    printf("  %u packets with %" PRIu64 " bytes of payload went out in %u frames: %" PRIu64 " TSO sends in %" PRIu64
           " segments\n",
           number, payload_bytes, out_all, large, segments);
    failed("rte_eth_dev_stop", rte_eth_dev_stop(port));
    failed("the driver's remove", card_remove(BUS_PHYSICAL));
}

static bool read_words(int count, char **words, struct dpdk_options *options)
{
    for (int i = 1; i < count; i++) {
        bool has_next = i + 1 < count;
        if (has_next && strcmp(words[i], "--frames") == 0 && read_number(words[i + 1], 1, FRAMES_MOST, &frames))
            i++;
        else if (has_next && strcmp(words[i], "--turn") == 0 && dpdk_pair(words[i], words[i + 1], options))
            i++;
        else if (!dpdk_word(words[i], options))
            return false;
    }
    flipped = (unsigned int)options->bus.turn_out;
    return options->bus.turn_in == 0;
}

int main(int count, char **words)
{
    struct dpdk_options options = {.bus = {.answers = BUS_SWSM | BUS_ANLP1},
                                   .name = "offloads",
                                   .mebibytes = MEBIBYTES,
                                   .packets = PACKETS,
                                   .buffer = BUFFER};
    if (!read_words(count, words, &options)) {
        fprintf(stderr, "offloads [--frames N] [--loud] [--turn out]\n");
        return 3;
    }
    if (dpdk_start(&options))
        run();
    return dpdk_end(&options);
}
