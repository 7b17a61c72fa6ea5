/* Frames that identify themselves: each byte after the header depends on the frame's number and the byte's position. */
#include <string.h>

#include "drive.h"

enum { ETHERNET = 14, PLAIN_TYPE = 0x88B5, IPV4 = 0x0800, IPV6 = 0x86DD, TCP = 6, UDP = 17, OTHER = 253 };

static const uint8_t others[][6] = {
    [TO_OTHER] = {2, 0, 0, 0, 0, 0x77},
    [TO_BROADCAST] = {0xFF, 0xFF, 0xFF, 0xFF, 0xFF, 0xFF},
    [TO_MULTICAST] = {1, 0, 0x5E, 0, 0, 0x11},
    [TO_SECOND] = {2, 0, 0, 0, 0, 0x22},
};

static void put16(uint8_t *at, unsigned value)
{
    at[0] = (uint8_t)(value >> 8);
    at[1] = (uint8_t)value;
}

static void fill(uint8_t *bytes, uint32_t from, uint32_t length, uint16_t number)
{
    for (uint32_t k = from; k < length; k++)
        bytes[k] = (uint8_t)(number * 37u + k * 11u + 5u);
    put16(bytes + length - 2, number);
}

/* Writes a flow's addresses. The flow's ports follow them. The hash covers both, in this order. */
static uint32_t put_flow(uint8_t *at, uint16_t flow, uint32_t each)
{
    for (uint32_t k = 0; k < 2 * each; k++)
        at[k] = (uint8_t)(flow * 73u + k * 29u + 1u);
    return 2 * each;
}

static uint32_t put_ports(uint8_t *at, uint16_t flow)
{
    put16(at, 1024u + flow * 7u);
    put16(at + 2, 80u + flow);
    return 4;
}

static uint32_t put_ipv4(uint8_t *at, const struct come *come, uint8_t protocol)
{
    memset(at, 0, 20);
    at[0] = 0x45;
    put16(at + 2, come->length - ETHERNET);
    at[8] = 64;
    at[9] = protocol;
    put_flow(at + 12, come->flow, 4);
    return 20 + (protocol == OTHER ? 0 : put_ports(at + 20, come->flow));
}

static uint32_t put_ipv6(uint8_t *at, const struct come *come, uint8_t protocol)
{
    memset(at, 0, 40);
    at[0] = 0x60;
    put16(at + 4, come->length - ETHERNET - 40);
    at[6] = protocol;
    at[7] = 64;
    put_flow(at + 8, come->flow, 16);
    return 40 + (protocol == OTHER ? 0 : put_ports(at + 40, come->flow));
}

static uint32_t put_network(uint8_t *bytes, const struct come *come)
{
    uint8_t *at = bytes + ETHERNET;
    bool is_ipv6 = come->type == NIC_RSS_TCP_IPV6 || come->type == NIC_RSS_IPV6 || come->type == NIC_RSS_UDP_IPV6;
    put16(bytes + 12, come->type == NIC_RSS_NONE ? PLAIN_TYPE : is_ipv6 ? IPV6 : IPV4);
    switch (come->type) {
    case NIC_RSS_TCP_IPV4: return put_ipv4(at, come, TCP);
    case NIC_RSS_UDP_IPV4: return put_ipv4(at, come, UDP);
    case NIC_RSS_IPV4: return put_ipv4(at, come, OTHER);
    case NIC_RSS_TCP_IPV6: return put_ipv6(at, come, TCP);
    case NIC_RSS_UDP_IPV6: return put_ipv6(at, come, UDP);
    case NIC_RSS_IPV6: return put_ipv6(at, come, OTHER);
    default: return 0;
    }
}

uint32_t nicd_make(const struct come *come, uint16_t number, uint8_t *bytes)
{
    static const uint8_t source[6] = {2, 0, 0, 0, 0, 0x99};
    memcpy(bytes, come->to == TO_OWN ? nicd.setup.address : others[come->to], 6);
    memcpy(bytes + 6, source, 6);
    fill(bytes, ETHERNET + put_network(bytes, come), come->length, number);
    return come->length;
}

void nicd_make_sent(uint16_t number, uint32_t length, uint8_t *bytes)
{
    memcpy(bytes, others[TO_OTHER], 6);
    memcpy(bytes + 6, nicd.setup.address, 6);
    put16(bytes + 12, PLAIN_TYPE);
    fill(bytes, ETHERNET, length, number);
    bytes[ETHERNET] = 0xA0; /* no received frame has this value at this byte */
}

uint16_t nicd_come(struct come come)
{
    static uint8_t bytes[NICD_FRAME_MOST];
    uint16_t number = nicd.count++;
    if (!come.length)
        come.length =
            come.type == NIC_RSS_TCP_IPV6 || come.type == NIC_RSS_UDP_IPV6 || come.type == NIC_RSS_IPV6 ? 74 : 60;
    nicd.coming[number] = come;
    nicx_frame(bytes, nicd_make(&come, number, bytes));
    return number;
}

void nicd_come_late(uint32_t count, uint32_t length)
{
    nicd_come_plain(count, length);
    nicd.late = (uint16_t)(nicd.late + count);
}

void nicd_come_flows(uint8_t type, uint16_t count)
{
    for (uint16_t flow = 0; flow < count; flow++) {
        struct come come = {TO_OWN, type, flow, 0};
        nicd_come(come);
    }
}

void nicd_come_plain(uint32_t count, uint32_t length)
{
    for (uint32_t k = 0; k < count; k++) {
        struct come come = {TO_OWN, NIC_RSS_NONE, 0, length ? length : 60};
        nicd_come(come);
    }
}
