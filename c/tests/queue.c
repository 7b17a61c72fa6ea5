/* Brings up a queue, receives a frame by RSS with its interrupt, and sends a frame with its report; then does the same
   through a virtual function. Every field of each answer is checked. */
#include <string.h>

#include "check.h"

enum { RX = 3, TX = 1, RING = 0, BUFFER = 0x800, TX_RING = 0x1000, TX_BUFFER = 0x1800, CAUSE = 5 };

static const uint8_t key[40] = {0x6d, 0x5a, 0x56, 0xda, 0x25, 0x5b, 0x0e, 0xc2, 0x41, 0x67, 0x25, 0x3d, 0x43, 0xa3,
                                0x8f, 0xb0, 0xd0, 0xca, 0x2b, 0xcb, 0xae, 0x7b, 0x30, 0xb4, 0x77, 0xcb, 0x2d, 0xa3,
                                0x80, 0x30, 0xf2, 0x0c, 0x6a, 0x42, 0xb7, 0x3b, 0xbe, 0xac, 0x01, 0xfa};
static const uint8_t frame[60] = {2,   0,  0,  0,   0, 1,   2,  0, 0, 0, 0,  2, 8,   0,   0x45, 0,
                                  0,   40, 0,  0,   0, 0,   64, 6, 0, 0, 66, 9, 149, 187, 161,  142,
                                  100, 80, 10, 234, 6, 230, 0,  0, 0, 0, 0,  0, 0,   0,   0x50, 16};

static void set_up_rss(nic *n)
{
    for (uint32_t word = 0; word < NIC_RSSRK_COUNT; word++) {
        const uint8_t *k = key + 4 * word;
        uint32_t four = NIC_RSSRK_K_0_IS(k[0]) | NIC_RSSRK_K_1_IS(k[1]);
        four |= NIC_RSSRK_K_2_IS(k[2]) | NIC_RSSRK_K_3_IS(k[3]);
        ANSWERS(NIC_DONE, nic_write32(n, NIC_RSSRK(word), four));
    }
    ANSWERS(NIC_DONE, nic_write32(n, NIC_RETA(0x78 / 4), NIC_RETA_ENTRY_0_IS(RX)));
    ANSWERS(NIC_DONE, nic_write32(n, NIC_MRQC, NIC_MRQC_MRQE_IS(1) | NIC_MRQC_TCPIPV4));
    ANSWERS(NIC_DONE, nic_write32(n, NIC_RXCSUM, NIC_RXCSUM_PCSD));
}

static void bring_up(nic *n)
{
    nic_outcome outcome;
    uint32_t word;
    ANSWERS(NIC_DONE, nic_lend_all(n));
    ANSWERS(NIC_DONE, nic_write32(n, NIC_RXCTRL, NIC_RXCTRL_RXEN));
    ANSWERS(NIC_DONE, nic_write32(n, NIC_FCTRL, NIC_FCTRL_UPE));
    set_up_rss(n);
    ANSWERS(NIC_DONE, nic_write32(n, NIC_RDBAL(RX), RING));
    ANSWERS(NIC_DONE, nic_write32(n, NIC_RDLEN(RX), 128));
    ANSWERS(NIC_DONE, nic_write32(n, NIC_SRRCTL(RX), NIC_SRRCTL_DESCTYPE_IS(1) | NIC_SRRCTL_BSIZEPACKET_IS(2)));
    ANSWERS(NIC_DONE, nic_write32(n, NIC_RXDCTL(RX), NIC_RXDCTL_ENABLE));
    ANSWERS(NIC_DONE, nic_read32(n, NIC_RXDCTL(RX), &word));
    CHECK((word & NIC_RXDCTL_ENABLE) == 0);
    ANSWERS(NIC_DONE, nic_queue_step(n, false, RX, &outcome));
    ANSWERS(NIC_IDLE, nic_queue_step(n, false, RX, &outcome));
    CHECK(nic_get(n, NIC_RXDCTL(RX)) == NIC_RXDCTL_ENABLE);
    ANSWERS(NIC_DONE, nic_write32(n, NIC_RDBAL(RX), 0x800));
    CHECK(nic_get(n, NIC_RDBAL(RX)) == RING);
    ANSWERS(NIC_DONE, nic_write32(n, NIC_IVAR(RX / 2), NIC_IVAR_INT_ALLOC_2_IS(CAUSE) | NIC_IVAR_INT_ALLOC_VAL_2));
    ANSWERS(NIC_DONE, nic_write32(n, NIC_EIMS, 1u << CAUSE));
}

static void receives(nic *n)
{
    nic_outcome outcome;
    uint8_t written[60];
    uint64_t first, second;
    uint32_t hash, word;
    ANSWERS(NIC_DONE, nic_put64(n, RING, BUFFER));
    ANSWERS(NIC_DONE, nic_put64(n, RING + 8, 0));
    ANSWERS(NIC_DONE, nic_arrive(n, frame, sizeof frame, &outcome));
    ANSWERS(NIC_IDLE, nic_rx_step(n, &outcome));
    ANSWERS(NIC_DONE, nic_write32(n, NIC_RDT(RX), 1));
    ANSWERS(NIC_WROTE, nic_rx_step(n, &outcome));
    CHECK(outcome.queue == RX && outcome.slot == 0 && outcome.end == 1);
    CHECK(outcome.desc == RING && outcome.at == BUFFER && outcome.len == sizeof frame);
    ANSWERS(NIC_MESSAGE, nic_int_step(n, 0, &outcome));
    CHECK(outcome.group == 0 && outcome.vector == CAUSE);
    ANSWERS(NIC_DONE, nic_dma_read(n, BUFFER, written, sizeof written));
    CHECK(memcmp(written, frame, sizeof frame) == 0);
    ANSWERS(NIC_DONE, nic_hash(key, frame + 26, 12, &hash));
    CHECK(hash == 0x51ccc178);
    ANSWERS(NIC_DONE, nic_get64(n, RING, &first));
    ANSWERS(NIC_DONE, nic_get64(n, RING + 8, &second));
    CHECK(first == ((uint64_t)hash << 32 | 0x0111) && second == ((uint64_t)sizeof frame << 32 | 3));
    CHECK(nic_get(n, NIC_RDH(RX)) == 1);
    ANSWERS(NIC_DONE, nic_peek32(n, NIC_GPRC, &word));
    CHECK(word == 1 && nic_get(n, NIC_GPRC) == 1 && nic_get(n, NIC_GPRC) == 0);
}

static void sends(nic *n)
{
    nic_outcome outcome;
    uint8_t sent[60];
    uint64_t second;
    ANSWERS(NIC_DONE, nic_write32(n, NIC_DMATXCTL, NIC_DMATXCTL_TE));
    ANSWERS(NIC_DONE, nic_write32(n, NIC_TDBAL(TX), TX_RING));
    ANSWERS(NIC_DONE, nic_write32(n, NIC_TDLEN(TX), 128));
    ANSWERS(NIC_DONE, nic_write32(n, NIC_TXDCTL(TX), NIC_TXDCTL_ENABLE));
    ANSWERS(NIC_DONE, nic_queue_step(n, true, TX, &outcome));
    ANSWERS(NIC_DONE, nic_dma_write(n, TX_BUFFER, frame, 32));
    ANSWERS(NIC_DONE, nic_put64(n, TX_RING, TX_BUFFER));
    ANSWERS(NIC_DONE, nic_put64(n, TX_RING + 8, UINT64_C(0x000800002b300020)));
    ANSWERS(NIC_IDLE, nic_tx_step(n, TX, &outcome));
    ANSWERS(NIC_DONE, nic_write32(n, NIC_TDT(TX), 1));
    ANSWERS(NIC_SENT, nic_tx_step(n, TX, &outcome));
    CHECK(outcome.queue == TX && outcome.len == 60 && outcome.back == 1 && outcome.at == TX_RING);
    ANSWERS(NIC_DONE, nic_get64(n, TX_RING + 8, &second));
    CHECK(second == UINT64_C(0x000800012b300020));
    CHECK(nic_next_out(n) == 60);
    ANSWERS(NIC_NO_ROOM, nic_collect(n, sent, 59, &outcome));
    ANSWERS(NIC_FRAME, nic_collect(n, sent, sizeof sent, &outcome));
    CHECK(outcome.queue == TX && outcome.len == 60 && memcmp(sent, frame, 32) == 0 && sent[32] == 0 && sent[59] == 0);
    ANSWERS(NIC_IDLE, nic_collect(n, sent, sizeof sent, &outcome));
    CHECK(nic_next_out(n) == 0);
}

/* Virtual function 0's own driver brings up its queue and receives; virtual function 1 isn't affected. */
static void receives_in_a_function(void)
{
    nic n;
    nic_outcome outcomes[32];
    size_t count;
    uint32_t word;
    ANSWERS(NIC_DONE, nic_open(&n, 2, 64, 2));
    ANSWERS(NIC_DONE, nic_lend_all(&n));
    ANSWERS(NIC_STRAY, nic_vf_read32(&n, 0, NIC_VFSTATUS, &word));
    CHECK(word == UINT32_C(0xFFFFFFFF));
    ANSWERS(NIC_DONE, nic_write32(&n, NIC_GCR_EXT, NIC_GCR_EXT_VT_MODE_IS(3)));
    ANSWERS(NIC_DONE, nic_write32(&n, NIC_VT_CTL, NIC_VT_CTL_VT_ENA));
    ANSWERS(NIC_DONE, nic_write32(&n, NIC_VFRE(0), 3));
    ANSWERS(NIC_DONE, nic_write32(&n, NIC_MRQC, NIC_MRQC_MRQE_IS(8)));
    ANSWERS(NIC_DONE, nic_write32(&n, NIC_RAL(0), 2));
    ANSWERS(NIC_DONE, nic_write32(&n, NIC_RAH(0), NIC_RAH_AV | NIC_RAH_RAH_IS(0x0100)));
    ANSWERS(NIC_DONE, nic_write32(&n, NIC_MPSAR(0), 1));
    ANSWERS(NIC_DONE, nic_write32(&n, NIC_RXCTRL, NIC_RXCTRL_RXEN));
    ANSWERS(NIC_DONE, nic_vf_write32(&n, 0, NIC_VFRDLEN(0), 128));
    ANSWERS(NIC_DONE, nic_vf_write32(&n, 0, NIC_VFSRRCTL(0), 0x02000002));
    ANSWERS(NIC_DONE, nic_vf_write32(&n, 0, NIC_VFRXDCTL(0), NIC_RXDCTL_ENABLE));
    ANSWERS(NIC_DONE, nic_vf_write32(&n, 0, NIC_VTIVAR(0), 0x81));
    ANSWERS(NIC_DONE, nic_vf_write32(&n, 0, NIC_VTEIMS, 2));
    ANSWERS(NIC_DONE, nic_put64(&n, 0, BUFFER));
    ANSWERS(NIC_DONE, nic_settle(&n, 2, outcomes, 32, &count));
    CHECK(count == 1 && outcomes[0].status == NIC_DONE && outcomes[0].step == NIC_RX_ENABLE && outcomes[0].of == 0);
    ANSWERS(NIC_DONE, nic_vf_write32(&n, 0, NIC_VFRDT(0), 1));
    ANSWERS(NIC_DONE, nic_arrive(&n, frame, sizeof frame, outcomes));
    ANSWERS(NIC_DONE, nic_settle(&n, 2, outcomes, 32, &count));
    CHECK(count == 2 && outcomes[0].status == NIC_WROTE && outcomes[0].step == NIC_RECEIVE && outcomes[0].queue == 0);
    CHECK(outcomes[1].status == NIC_MESSAGE && outcomes[1].step == NIC_INTERRUPT && outcomes[1].of == 1);
    CHECK(outcomes[1].group == 1 && outcomes[1].vector == 1);
    ANSWERS(NIC_DONE, nic_vf_peek32(&n, 0, NIC_VFGPRC_OFFSET, &word));
    CHECK(word == 1);
    ANSWERS(NIC_DONE, nic_vf_read32(&n, 1, NIC_VFGPRC_OFFSET, &word));
    CHECK(word == 0);
    nic_close(&n);
    nic_close(&n);
}

int main(void)
{
    nic n;
    ANSWERS(NIC_DONE, nic_open(&n, 0, 64, 4));
    bring_up(&n);
    receives(&n);
    sends(&n);
    nic_close(&n);
    receives_in_a_function();
    return 0;
}
