/* Helpers that scenarios share. They read or write a descriptor in a single access, build frames that carry a number,
   and find a flow's queue. They also make the mailbox calls of the PF's driver and of a virtual function's driver. All
   helpers use a driver's calls, so their accesses are points. */
#include <string.h>

#include "engine.h"
#include "left.h"
#include "parts.h"

/* --- descriptors --- */

uint8_t nicx_put_desc(uint64_t ring, uint32_t slot, nic_desc d)
{
    uint8_t bytes[NIC_DESC_BYTES];
    nic_desc_to_bytes(d, bytes);
    nicxi_note_call((const char *)__builtin_return_address(0) - 1);
    return nicx_dma_write(ring + NIC_DESC_BYTES * (uint64_t)slot, bytes, sizeof bytes);
}

nic_desc nicx_get_desc(uint64_t ring, uint32_t slot)
{
    uint8_t bytes[NIC_DESC_BYTES] = {0};
    nicxi_note_call((const char *)__builtin_return_address(0) - 1);
    nicx_dma_read(ring + NIC_DESC_BYTES * (uint64_t)slot, bytes, sizeof bytes);
    return nic_desc_of_bytes(bytes);
}

/* --- numbered frames --- */

enum { ETHERNET = 14, IP = 20, TCP = 20, UDP = 8, TYPE_AT = 12, PROTOCOL_AT = 23, OWN_TYPE = 0x88B5 };

static const uint8_t addresses[TYPE_AT] = {2, 0, 0, 0, 0, 1, 2, 0, 0, 0, 0, 2};

static void put16(uint8_t *bytes, uint32_t value)
{
    bytes[0] = (uint8_t)(value >> 8);
    bytes[1] = (uint8_t)value;
}

static void put32(uint8_t *bytes, uint32_t value)
{
    put16(bytes, value >> 16);
    put16(bytes + 2, value);
}

static uint32_t sum_of(const uint8_t *bytes, size_t length)
{
    uint32_t sum = 0;
    for (size_t k = 0; k < length; k++)
        sum += (uint32_t)bytes[k] << (k % 2 ? 0 : 8);
    return sum;
}

static uint32_t folded(uint32_t sum)
{
    while (sum >> 16)
        sum = (sum & 0xFFFF) + (sum >> 16);
    return ~sum & 0xFFFF;
}

/* Returns the offset of a frame's number, which follows the headers. */
static size_t place_of_number(const uint8_t *frame, size_t length)
{
    if (length < 60 || memcmp(frame, addresses, sizeof addresses) != 0)
        return 0;
    if (frame[TYPE_AT] == OWN_TYPE >> 8 && frame[TYPE_AT + 1] == (OWN_TYPE & 0xFF))
        return ETHERNET;
    if (frame[TYPE_AT] != 8 || frame[TYPE_AT + 1])
        return 0;
    return ETHERNET + IP + (frame[PROTOCOL_AT] == NICX_TCP ? TCP : frame[PROTOCOL_AT] == NICX_UDP ? UDP : 0);
}

/* Fills the bytes after the number: they depend on the frame's number and their offset. */
static uint8_t filling(uint32_t number, size_t place)
{
    return (uint8_t)(number * 37 + place * 11 + 1);
}

static void put_number(uint8_t *frame, size_t length, uint32_t number)
{
    size_t at = place_of_number(frame, length);
    put32(frame + at, number);
    for (size_t k = at + 4; k < length; k++)
        frame[k] = filling(number, k);
}

bool nicx_numbered_frame(uint8_t *frame, size_t length, uint32_t number)
{
    if (length < 60 || length > MOST_FRAME)
        return false;
    memcpy(frame, addresses, sizeof addresses);
    put16(frame + TYPE_AT, OWN_TYPE);
    put_number(frame, length, number);
    return true;
}

static void put_ip(uint8_t *ip, size_t length, const nicx_flow *flow)
{
    memset(ip, 0, IP);
    ip[0] = 0x45;
    put16(ip + 2, (uint32_t)length);
    ip[8] = 64;
    ip[9] = flow->protocol;
    put32(ip + 12, flow->from);
    put32(ip + 16, flow->to);
    put16(ip + 10, folded(sum_of(ip, IP)));
}

/* Called after the payload is written, because the checksum covers it. */
static void put_ports(uint8_t *ip, size_t length, const nicx_flow *flow)
{
    uint8_t *it = ip + IP, *checksum = it + (flow->protocol == NICX_TCP ? 16 : 6);
    memset(it, 0, flow->protocol == NICX_TCP ? TCP : UDP);
    put16(it, flow->from_port);
    put16(it + 2, flow->to_port);
    if (flow->protocol == NICX_TCP)
        put16(it + 12, 0x5010);
    else
        put16(it + 4, (uint32_t)(length - IP));
    uint32_t sum = sum_of(ip + 12, 8) + flow->protocol + (uint32_t)(length - IP) + sum_of(it, length - IP);
    put16(checksum, folded(sum));
}

bool nicx_flow_frame(uint8_t *frame, size_t length, const nicx_flow *flow, uint32_t number)
{
    uint8_t *ip = frame + ETHERNET;
    if (length < 60 || length > 1518)
        return false;
    memcpy(frame, addresses, sizeof addresses);
    put16(frame + TYPE_AT, 0x0800);
    put_ip(ip, length - ETHERNET, flow);
    put_number(frame, length, number);
    if (flow->protocol == NICX_TCP || flow->protocol == NICX_UDP)
        put_ports(ip, length - ETHERNET, flow);
    return true;
}

uint32_t nicx_frame_number(const uint8_t *frame, size_t length)
{
    size_t at = place_of_number(frame, length);
    if (!at)
        return NICX_TORN;
    uint32_t number = (uint32_t)frame[at] << 24 | (uint32_t)frame[at + 1] << 16 | (uint32_t)frame[at + 2] << 8 |
                      (uint32_t)frame[at + 3];
    for (size_t k = at + 4; k < length; k++)
        if (frame[k] != filling(number, k))
            return NICX_TORN;
    return number;
}

void nicx_frames(uint32_t count, size_t length)
{
    static uint8_t frame[MOST_FRAME];
    if (!nicx_numbered_frame(frame, length, 0) || count > NICX_FRAMES) {
        nicxi_failed(NICX_MISUSE, "nicx_frames takes at most %d frames of 60 to %d bytes", NICX_FRAMES, MOST_FRAME);
        return;
    }
    for (uint32_t k = 0; k < count; k++) {
        nicx_numbered_frame(frame, length, k);
        nicx_frame(frame, length);
    }
}

/* --- the queue of a flow --- */

/* Returns how many bytes of addresses and ports the hash covers under the current MRQC; 0: no hash. */
static size_t hashed_bytes(const nicx_flow *flow)
{
    uint32_t mrqc = nicxi_peek(NIC_MRQC);
    if ((flow->protocol == NICX_TCP && mrqc & NIC_MRQC_TCPIPV4) ||
        (flow->protocol == NICX_UDP && mrqc & NIC_MRQC_UDPIPV4))
        return 12;
    return mrqc & NIC_MRQC_IPV4 ? 8 : 0;
}

uint32_t nicx_rss_hash(const nicx_flow *flow)
{
    uint8_t key[4 * NIC_RSSRK_COUNT], tuple[12];
    uint32_t hash = 0;
    for (uint32_t k = 0; k < sizeof key; k++)
        key[k] = (uint8_t)(nicxi_peek(NIC_RSSRK(k / 4)) >> 8 * (k % 4));
    put32(tuple, flow->from);
    put32(tuple + 4, flow->to);
    put16(tuple + 8, flow->from_port);
    put16(tuple + 10, flow->to_port);
    nicxi.is_changed = true; /* hashing may change the library's memory */
    nic_hash(key, tuple, hashed_bytes(flow), &hash);
    return hash;
}

uint16_t nicx_rss_queue(const nicx_flow *flow)
{
    uint32_t entry = nicx_rss_hash(flow) & 127;
    if ((nicxi_peek(NIC_MRQC) & NIC_MRQC_MRQE) != 1 || !hashed_bytes(flow))
        return 0;
    return nicxi_peek(NIC_RETA(entry / 4)) >> 8 * (entry % 4) & 15;
}

/* --- a mailbox --- */

enum { TAKEN_BY_READ = NIC_PVFMAILBOX_PFSTS | NIC_PVFMAILBOX_PFACK | NIC_PVFMAILBOX_RSTI | NIC_PVFMAILBOX_RSTD };

static uint32_t function_looks(nicx_mailbox *mailbox)
{
    uint32_t word = nicx_vf_read32(mailbox->vf, NIC_VFMAILBOX);
    mailbox->seen |= word & TAKEN_BY_READ;
    return word;
}

static void function_takes(nicx_mailbox *mailbox)
{
    while (!nicxi_is_left()) {
        nicx_vf_write32(mailbox->vf, NIC_VFMAILBOX, NIC_PVFMAILBOX_VFU);
        if (function_looks(mailbox) & NIC_PVFMAILBOX_VFU)
            return;
        nicx_wait();
    }
}

static bool has_come(nicx_mailbox *mailbox, uint32_t bit)
{
    if (!(mailbox->seen & bit))
        function_looks(mailbox);
    bool it_has = (mailbox->seen & bit) != 0;
    mailbox->seen &= ~bit;
    return it_has;
}

void nicx_function_sends(nicx_mailbox *mailbox, const uint32_t *words, uint32_t count)
{
    function_takes(mailbox);
    for (uint32_t k = 0; k < count && k < NICX_MAILBOX; k++)
        nicx_vf_write32(mailbox->vf, NIC_VFMBMEM(k), words[k]);
    nicx_vf_write32(mailbox->vf, NIC_VFMAILBOX, NIC_PVFMAILBOX_REQ);
}

bool nicx_function_receives(nicx_mailbox *mailbox, uint32_t *words, uint32_t count)
{
    if (!has_come(mailbox, NIC_PVFMAILBOX_PFSTS))
        return false;
    function_takes(mailbox);
    for (uint32_t k = 0; k < count && k < NICX_MAILBOX; k++)
        words[k] = nicx_vf_read32(mailbox->vf, NIC_VFMBMEM(k));
    nicx_vf_write32(mailbox->vf, NIC_VFMAILBOX, NIC_PVFMAILBOX_ACK);
    return true;
}

bool nicx_function_is_acked(nicx_mailbox *mailbox)
{
    return has_come(mailbox, NIC_PVFMAILBOX_PFACK);
}

static void host_takes(uint8_t vf)
{
    while (!nicxi_is_left()) {
        nicx_write32(NIC_PFMAILBOX(vf), NIC_PFMAILBOX_PFU);
        if (nicx_read32(NIC_PFMAILBOX(vf)) & NIC_PFMAILBOX_PFU)
            return;
        nicx_wait();
    }
}

/* Returns whether a virtual function's request or acknowledgement bit is set, and clears it. 16 virtual functions share
   a register; writing 1 to a bit clears it. */
static bool has_come_from(uint8_t vf, uint32_t bit)
{
    uint32_t own = bit << vf % 16;
    if (!(nicx_read32(NIC_PFMBICR(vf / 16)) & own))
        return false;
    nicx_write32(NIC_PFMBICR(vf / 16), own);
    return true;
}

void nicx_host_sends(uint8_t vf, const uint32_t *words, uint32_t count)
{
    host_takes(vf);
    for (uint32_t k = 0; k < count && k < NICX_MAILBOX; k++)
        nicx_write32(NIC_PFMBMEM(NICX_MAILBOX * vf + k), words[k]);
    nicx_write32(NIC_PFMAILBOX(vf), NIC_PFMAILBOX_STS);
}

bool nicx_host_receives(uint8_t vf, uint32_t *words, uint32_t count)
{
    if (!has_come_from(vf, 1))
        return false;
    host_takes(vf);
    for (uint32_t k = 0; k < count && k < NICX_MAILBOX; k++)
        words[k] = nicx_read32(NIC_PFMBMEM(NICX_MAILBOX * vf + k));
    nicx_write32(NIC_PFMAILBOX(vf), NIC_PFMAILBOX_ACK);
    return true;
}

bool nicx_host_is_acked(uint8_t vf)
{
    return has_come_from(vf, 1u << 16);
}
