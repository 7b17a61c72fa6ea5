/* Passes the frames of a capture through the device: `capture IN OUT` receives each, sends its bytes from where they
   were written, and writes a capture of the sent frames. */
#include <string.h>

#include "check.h"
#include "nic82599_pcap.h"

enum { BUFFER = 0x800, TX_RING = 0x1800 };

static void bring_up(nic *n)
{
    nic_outcome outcome;
    ANSWERS(NIC_DONE, nic_lend_all(n));
    ANSWERS(NIC_DONE, nic_write32(n, NIC_RXCTRL, NIC_RXCTRL_RXEN));
    ANSWERS(NIC_DONE, nic_write32(n, NIC_DMATXCTL, NIC_DMATXCTL_TE));
    ANSWERS(NIC_DONE, nic_write32(n, NIC_FCTRL, NIC_FCTRL_UPE | NIC_FCTRL_MPE));
    ANSWERS(NIC_DONE, nic_write32(n, NIC_RDLEN(0), 128));
    ANSWERS(NIC_DONE, nic_write32(n, NIC_SRRCTL(0), NIC_SRRCTL_DESCTYPE_IS(1) | NIC_SRRCTL_BSIZEPACKET_IS(2)));
    ANSWERS(NIC_DONE, nic_write32(n, NIC_RXDCTL(0), NIC_RXDCTL_ENABLE));
    ANSWERS(NIC_DONE, nic_write32(n, NIC_TDBAL(0), TX_RING));
    ANSWERS(NIC_DONE, nic_write32(n, NIC_TDLEN(0), 128));
    ANSWERS(NIC_DONE, nic_write32(n, NIC_TXDCTL(0), NIC_TXDCTL_ENABLE));
    ANSWERS(NIC_DONE, nic_queue_step(n, false, 0, &outcome));
    ANSWERS(NIC_DONE, nic_queue_step(n, true, 0, &outcome));
}

/* Receives and sends one frame, in slot `slot` of both rings. */
static size_t echo(nic *n, uint32_t slot, const uint8_t *frame, size_t length, uint8_t *sent, size_t room)
{
    nic_outcome outcomes[4];
    size_t count;
    uint64_t second = (uint64_t)length << 46 | 0x2B300000 | length;
    ANSWERS(NIC_DONE, nic_put64(n, 16 * slot, BUFFER));
    ANSWERS(NIC_DONE, nic_write32(n, NIC_RDT(0), (slot + 1) % 8));
    ANSWERS(NIC_DONE, nic_arrive(n, frame, length, outcomes));
    ANSWERS(NIC_DONE, nic_settle(n, 1, outcomes, 4, &count));
    CHECK(count == 1 && outcomes[0].status == NIC_WROTE && outcomes[0].len == length && outcomes[0].end);
    ANSWERS(NIC_DONE, nic_put64(n, TX_RING + 16 * slot, BUFFER));
    ANSWERS(NIC_DONE, nic_put64(n, TX_RING + 16 * slot + 8, second));
    ANSWERS(NIC_DONE, nic_write32(n, NIC_TDT(0), (slot + 1) % 8));
    ANSWERS(NIC_DONE, nic_settle(n, 1, outcomes, 4, &count));
    CHECK(count == 1 && outcomes[0].status == NIC_SENT);
    ANSWERS(NIC_FRAME, nic_collect(n, sent, room, outcomes));
    CHECK(outcomes[0].len == length && memcmp(sent, frame, length) == 0);
    return outcomes[0].len;
}

int main(int words, char **word)
{
    nic n;
    FILE *in, *out;
    pcap_reader reader;
    uint8_t frame[2048], sent[2048];
    size_t length;
    unsigned count = 0;
    enum pcap_next_is next;
    CHECK(words == 3);
    in = fopen(word[1], "rb");
    out = fopen(word[2], "wb");
    CHECK(in && out && pcap_begin_reading(&reader, in) && pcap_begin_writing(out));
    ANSWERS(NIC_DONE, nic_open(&n, 0, 8, 4));
    bring_up(&n);
    while ((next = pcap_next(&reader, frame, sizeof frame, &length)) == PCAP_FRAME) {
        length = echo(&n, count % 8, frame, length, sent, sizeof sent);
        CHECK(pcap_put(out, count++, sent, length));
    }
    CHECK(next == PCAP_END);
    CHECK(fclose(in) == 0 && fclose(out) == 0);
    nic_close(&n);
    printf("%u frames\n", count);
    return 0;
}
