/* Compares the fields and functions of nic82599_desc.h with the device's behavior, on a driver's rings. */
#include <string.h>

#include "check.h"

enum { RX = 5, TX = 2, SLOTS = 8 };

#define RING UINT64_C(0x000)
#define TX_RING UINT64_C(0x100)
#define HEAD UINT64_C(0x200)
#define BUFFER UINT64_C(0x800)

/* A frame's kind, determined by its bytes 12 and following, and what the device reports about it. */
typedef struct kind {
    uint16_t ether_type;
    uint8_t protocol;
    uint8_t rss_type;
    uint64_t packet;
} kind;

static const kind kinds[] = {
    {0x0800, 6, NIC_RSS_TCP_IPV4, NIC_RXWB_PKT_IPV4 | NIC_RXWB_PKT_TCP},
    {0x0800, 17, NIC_RSS_UDP_IPV4, NIC_RXWB_PKT_IPV4 | NIC_RXWB_PKT_UDP},
    {0x0800, 1, NIC_RSS_IPV4, NIC_RXWB_PKT_IPV4},
    {0x86DD, 6, NIC_RSS_TCP_IPV6, NIC_RXWB_PKT_IPV6 | NIC_RXWB_PKT_TCP},
    {0x86DD, 17, NIC_RSS_UDP_IPV6, NIC_RXWB_PKT_IPV6 | NIC_RXWB_PKT_UDP},
    {0x86DD, 58, NIC_RSS_IPV6, NIC_RXWB_PKT_IPV6},
};

static void frame_of(const kind *it, uint8_t *frame, size_t length)
{
    for (size_t k = 0; k < length; k++)
        frame[k] = (uint8_t)(k * 7);
    frame[0] = 2;
    frame[12] = (uint8_t)(it->ether_type >> 8);
    frame[13] = (uint8_t)it->ether_type;
    frame[14] = it->ether_type == 0x0800 ? 0x45 : 0x60;
    frame[20] = frame[21] = 0; /* IPv4: not a fragment; IPv6: next header (set below) and hop limit */
    frame[it->ether_type == 0x0800 ? 23 : 20] = it->protocol;
}

/* A receive queue for every entry in the redirection table, and a transmit queue. */
static void bring_up(nic *n)
{
    nic_outcome outcomes[8];
    size_t count;
    ANSWERS(NIC_DONE, nic_lend_all(n));
    ANSWERS(NIC_DONE, nic_write32(n, NIC_RXCTRL, NIC_RXCTRL_RXEN));
    ANSWERS(NIC_DONE, nic_write32(n, NIC_FCTRL, NIC_FCTRL_UPE));
    ANSWERS(NIC_DONE, nic_write32(n, NIC_RXCSUM, NIC_RXCSUM_PCSD));
    ANSWERS(NIC_DONE, nic_write32(n, NIC_MRQC,
                                  NIC_MRQC_MRQE_IS(1) | NIC_MRQC_TCPIPV4 | NIC_MRQC_IPV4 | NIC_MRQC_IPV6 |
                                      NIC_MRQC_TCPIPV6 | NIC_MRQC_UDPIPV4 | NIC_MRQC_UDPIPV6));
    for (uint32_t k = 0; k < NIC_RSSRK_COUNT; k++)
        ANSWERS(NIC_DONE, nic_write32(n, NIC_RSSRK(k), UINT32_C(0x9E3779B9) * (k + 1)));
    for (uint32_t k = 0; k < NIC_RETA_COUNT; k++)
        ANSWERS(NIC_DONE, nic_write32(n, NIC_RETA(k), UINT32_C(0x01010101) * RX));
    ANSWERS(NIC_DONE, nic_write32(n, NIC_RDBAL(RX), RING));
    ANSWERS(NIC_DONE, nic_write32(n, NIC_RDLEN(RX), SLOTS * NIC_DESC_BYTES));
    ANSWERS(NIC_DONE, nic_write32(n, NIC_SRRCTL(RX), NIC_SRRCTL_DESCTYPE_IS(1) | NIC_SRRCTL_BSIZEPACKET_IS(1)));
    ANSWERS(NIC_DONE, nic_write32(n, NIC_RXDCTL(RX), NIC_RXDCTL_ENABLE));
    ANSWERS(NIC_DONE, nic_write32(n, NIC_DMATXCTL, NIC_DMATXCTL_TE));
    ANSWERS(NIC_DONE, nic_write32(n, NIC_TDBAL(TX), TX_RING));
    ANSWERS(NIC_DONE, nic_write32(n, NIC_TDLEN(TX), SLOTS * NIC_DESC_BYTES));
    ANSWERS(NIC_DONE, nic_write32(n, NIC_TXDCTL(TX), NIC_TXDCTL_ENABLE));
    ANSWERS(NIC_DONE, nic_settle(n, 8, outcomes, 8, &count));
    CHECK(count == 2);
}

/* The write-back of each kind of frame contains its type, its hash and its length. */
static void receives_each_kind(nic *n)
{
    for (uint32_t slot = 0; slot < sizeof kinds / sizeof *kinds; slot++) {
        const kind *it = &kinds[slot];
        uint8_t frame[90];
        nic_outcome outcome;
        nic_desc d;
        uint64_t first = it->packet | NIC_RXWB_RSS_TYPE_IS(it->rss_type);
        frame_of(it, frame, sizeof frame);
        ANSWERS(NIC_DONE, nic_put_desc(n, RING, slot, nic_rx_desc(BUFFER + 1)));
        ANSWERS(NIC_DONE, nic_get_desc(n, RING, slot, &d));
        CHECK(d.first == BUFFER && d.second == 0 && !nic_rx_is_done(d) && (d.second & NIC_RXD_DD) == 0);
        ANSWERS(NIC_DONE, nic_write32(n, NIC_RDT(RX), slot + 1));
        ANSWERS(NIC_DONE, nic_arrive(n, frame, sizeof frame, &outcome));
        ANSWERS(NIC_WROTE, nic_rx_step(n, &outcome));
        CHECK(outcome.queue == RX && outcome.slot == slot);
        ANSWERS(NIC_DONE, nic_get_desc(n, RING, slot, &d));
        CHECK(nic_rx_is_done(d) && nic_rx_is_end(d) && nic_rx_length(d) == sizeof frame);
        CHECK(nic_rx_rss_type(d) == it->rss_type && nic_rx_hash(d) != 0);
        CHECK(d.first == (first | NIC_RXWB_RSS_HASH_IS(nic_rx_hash(d))));
        CHECK(d.second == (NIC_RXWB_DD | NIC_RXWB_EOP | NIC_RXWB_PKT_LEN_IS(sizeof frame)));
        CHECK(nic_desc_field(d.first, NIC_RXWB_PKT_IPV4) == (it->ether_type == 0x0800));
        CHECK(nic_desc_field(d.first, NIC_RXWB_PKT_IPV6) == (it->ether_type == 0x86DD));
    }
}

/* A frame longer than its buffer continues in the next slot, and ends there. */
static void receives_in_two_buffers(nic *n)
{
    static uint8_t frame[1500];
    nic_outcome outcomes[4];
    nic_desc first, second;
    size_t count;
    uint32_t slot = nic_get(n, NIC_RDH(RX)), next = (slot + 1) % SLOTS;
    frame_of(&kinds[0], frame, sizeof frame);
    ANSWERS(NIC_DONE, nic_put_desc(n, RING, slot, nic_rx_desc(BUFFER)));
    ANSWERS(NIC_DONE, nic_put_desc(n, RING, next, nic_rx_desc(BUFFER + 1024)));
    ANSWERS(NIC_DONE, nic_write32(n, NIC_RDT(RX), (slot + 2) % SLOTS));
    ANSWERS(NIC_DONE, nic_arrive(n, frame, sizeof frame, outcomes));
    ANSWERS(NIC_DONE, nic_settle(n, 8, outcomes, 4, &count));
    ANSWERS(NIC_DONE, nic_get_desc(n, RING, slot, &first));
    ANSWERS(NIC_DONE, nic_get_desc(n, RING, next, &second));
    CHECK(nic_rx_is_done(first) && !nic_rx_is_end(first) && nic_rx_length(first) == 1024);
    CHECK(nic_rx_is_done(second) && nic_rx_is_end(second) && nic_rx_length(second) == sizeof frame - 1024);
    CHECK(first.first == second.first);
}

/* A frame in two buffers is sent. Its end is reported by adding only DD to the descriptor. */
static void sends(nic *n)
{
    static uint8_t sent[1514];
    nic_outcome outcome;
    nic_desc head = nic_tx_desc(BUFFER, 40, 100, 0), end = nic_tx_desc(BUFFER + 512, 60, 100, NIC_TXD_EOP | NIC_TXD_RS);
    nic_desc d;
    CHECK(nic_desc_field(end.second, NIC_TXD_PAYLEN) == 100 && nic_desc_field(end.second, NIC_TXD_DTALEN) == 60);
    ANSWERS(NIC_DONE, nic_put_desc(n, TX_RING, 0, head));
    ANSWERS(NIC_DONE, nic_put_desc(n, TX_RING, 1, end));
    ANSWERS(NIC_DONE, nic_write32(n, NIC_TDT(TX), 2));
    ANSWERS(NIC_ADVANCED, nic_tx_step(n, TX, &outcome));
    ANSWERS(NIC_SENT, nic_tx_step(n, TX, &outcome));
    CHECK(outcome.len == 100 && outcome.back == 1 && outcome.at == TX_RING + NIC_DESC_BYTES);
    ANSWERS(NIC_FRAME, nic_collect(n, sent, sizeof sent, &outcome));
    ANSWERS(NIC_DONE, nic_get_desc(n, TX_RING, 0, &d));
    CHECK(d.first == head.first && d.second == head.second && !nic_tx_is_done(d));
    ANSWERS(NIC_DONE, nic_get_desc(n, TX_RING, 1, &d));
    CHECK(nic_tx_is_done(d) && d.first == end.first && d.second == (end.second | NIC_TXWB_DD));
}

/* With head write-back, the number of the next slot is written and the descriptor doesn't change. */
static void reports_the_head(nic *n)
{
    uint8_t bytes[4];
    nic_outcome outcome;
    nic_desc end = nic_tx_desc(BUFFER, 60, 60, NIC_TXD_EOP | NIC_TXD_RS), d;
    ANSWERS(NIC_DONE, nic_write32(n, NIC_TDWBAL(TX), HEAD | NIC_TDWBAL_HEAD_WB_EN));
    ANSWERS(NIC_DONE, nic_put_desc(n, TX_RING, 2, end));
    ANSWERS(NIC_DONE, nic_write32(n, NIC_TDT(TX), 3));
    ANSWERS(NIC_SENT, nic_tx_step(n, TX, &outcome));
    CHECK(outcome.back == 1 && outcome.at == HEAD);
    ANSWERS(NIC_DONE, nic_dma_read(n, HEAD, bytes, sizeof bytes));
    CHECK(nic_head_of_bytes(bytes) == 3 && nic_get(n, NIC_TDH(TX)) == 3);
    ANSWERS(NIC_DONE, nic_get_desc(n, TX_RING, 2, &d));
    CHECK(d.second == end.second && !nic_tx_is_done(d));
}

/* A descriptor with an unsupported request is a fault, as docs/DESCRIPTORS.md says. */
static void refuses(const nic_kept *kept, uint64_t clear, uint64_t set, uint8_t status, uint8_t why)
{
    nic n = {NULL};
    nic_outcome outcome;
    nic_desc d = nic_tx_desc(BUFFER, 60, 60, NIC_TXD_EOP);
    uint32_t slot;
    ANSWERS(NIC_DONE, nic_open(&n, 0, 64, 1));
    ANSWERS(NIC_DONE, nic_restore(&n, kept));
    slot = nic_get(&n, NIC_TDH(TX));
    d.second = (d.second & ~clear) | set;
    ANSWERS(NIC_DONE, nic_put_desc(&n, TX_RING, slot, d));
    ANSWERS(NIC_DONE, nic_write32(&n, NIC_TDT(TX), slot + 1));
    ANSWERS(status, nic_tx_step(&n, TX, &outcome));
    CHECK(outcome.why == why);
    nic_close(&n);
}

static void refuses_each(nic *n)
{
    nic_kept kept = {NULL};
    ANSWERS(NIC_DONE, nic_snapshot(n, &kept));
    refuses(&kept, 0, 0, NIC_SENT, 0);
    refuses(&kept, NIC_TXD_IFCS | NIC_TXD_PAYLEN, 0, NIC_SENT, 0);
    refuses(&kept, NIC_TXD_DEXT, 0, NIC_FAULT, NIC_FAULT_LEGACY);
    refuses(&kept, 0, NIC_TXD_VLE, NIC_FAULT, NIC_FAULT_OFFLOAD);
    refuses(&kept, 0, NIC_TXD_TSE, NIC_FAULT, NIC_FAULT_OFFLOAD);
    refuses(&kept, 0, NIC_TXD_POPTS_IS(1), NIC_FAULT, NIC_FAULT_OFFLOAD);
    refuses(&kept, 0, NIC_TXD_POPTS_IS(32), NIC_FAULT, NIC_FAULT_OFFLOAD);
    refuses(&kept, NIC_TXD_DTYP, NIC_TXD_DTYP_IS(2), NIC_ADVANCED, 0);
    refuses(&kept, NIC_TXD_DTYP, NIC_TXD_DTYP_IS(1), NIC_FAULT, NIC_FAULT_UNKNOWN_TYPE);
    refuses(&kept, NIC_TXD_DTALEN, NIC_TXD_DTALEN_IS(1515), NIC_FAULT, NIC_FAULT_TOO_LONG);
    nic_drop_snapshot(&kept);
}

int main(void)
{
    nic n;
    CHECK(nic_desc_field(UINT64_C(0xF000000000000000), 0) == 0);
    CHECK(nic_desc_field(NIC_TXD_PAYLEN, NIC_TXD_PAYLEN) == 0x3FFFF && NIC_TXD_PAYLEN_IS(0x40000) == 0);
    ANSWERS(NIC_DONE, nic_open(&n, 0, 64, 2));
    bring_up(&n);
    receives_each_kind(&n);
    receives_in_two_buffers(&n);
    sends(&n);
    reports_the_head(&n);
    refuses_each(&n);
    nic_close(&n);
    return 0;
}
