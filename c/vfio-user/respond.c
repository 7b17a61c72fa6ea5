#include "respond.h"

#include <stdbool.h>
#include <string.h>

#define ETHERNET 14u
#define TYPE_ARP 0x0806u
#define TYPE_IPV4 0x0800u
#define ARP_BYTES 28u
#define IP_LEAST 20u
#define ICMP 1u
#define UDP 17u
#define ECHO_PORT 7u

static uint32_t get16(const uint8_t *at)
{
    return (uint32_t)at[0] << 8 | at[1];
}

static uint32_t get32(const uint8_t *at)
{
    return get16(at) << 16 | get16(at + 2);
}

static void put16(uint8_t *to, uint32_t value)
{
    to[0] = (uint8_t)(value >> 8);
    to[1] = (uint8_t)value;
}

static uint32_t checksum(const uint8_t *bytes, size_t length)
{
    uint32_t sum = 0;
    for (size_t i = 0; i + 1 < length; i += 2)
        sum += get16(bytes + i);
    if (length % 2)
        sum += (uint32_t)bytes[length - 1] << 8;
    while (sum >> 16)
        sum = (sum & 0xFFFF) + (sum >> 16);
    return ~sum & 0xFFFF;
}

/* Turns an ARP request for the address into its reply. */
static bool answer_arp(uint8_t *frame, size_t length, const uint8_t own[6], uint32_t address)
{
    uint8_t *arp = frame + ETHERNET;
    if (length < ETHERNET + ARP_BYTES || get16(arp + 6) != 1 || get32(arp + 24) != address)
        return false;
    uint8_t wanted[4];
    memcpy(wanted, arp + 24, 4);
    put16(arp + 6, 2);
    memcpy(arp + 18, arp + 8, 10); /* the sender becomes the target */
    memcpy(arp + 8, own, 6);
    memcpy(arp + 14, wanted, 4);
    return true;
}

static bool answer_echo(uint8_t *icmp, size_t length)
{
    if (length < 8 || icmp[0] != 8)
        return false;
    icmp[0] = 0;
    put16(icmp + 2, 0);
    put16(icmp + 2, checksum(icmp, length));
    return true;
}

static bool answer_udp(uint8_t *udp, size_t length)
{
    uint8_t from[2];
    if (length < 8 || get16(udp + 2) != ECHO_PORT)
        return false;
    memcpy(from, udp, 2);
    memcpy(udp, udp + 2, 2);
    memcpy(udp + 2, from, 2);
    return true;
}

/* Answers an unfragmented IPv4 packet that is sent to the address. Swapping the addresses doesn't change the
   checksum. */
static bool answer_ip(uint8_t *frame, size_t length, uint32_t address)
{
    uint8_t *ip = frame + ETHERNET, from[4];
    if (length < ETHERNET + IP_LEAST || ip[0] >> 4 != 4 || get32(ip + 16) != address || get16(ip + 6) & 0x3FFF)
        return false;
    size_t head = 4u * (ip[0] & 0xF), all = get16(ip + 2);
    if (head < IP_LEAST || all < head || all > length - ETHERNET)
        return false;
    memcpy(from, ip + 12, 4);
    memcpy(ip + 12, ip + 16, 4);
    memcpy(ip + 16, from, 4);
    if (ip[9] == ICMP)
        return answer_echo(ip + head, all - head);
    return ip[9] == UDP && answer_udp(ip + head, all - head);
}

size_t respond(const uint8_t *frame, size_t length, const uint8_t own[6], uint32_t address, uint8_t *to)
{
    if (length < ETHERNET)
        return 0;
    memcpy(to, frame, length);
    memcpy(to, frame + 6, 6);
    memcpy(to + 6, own, 6);
    uint32_t type = get16(frame + 12);
    bool is_answered =
        type == TYPE_ARP ? answer_arp(to, length, own, address) : type == TYPE_IPV4 && answer_ip(to, length, address);
    return is_answered ? length : 0;
}
