#include "frames.h"

#include <stdlib.h>
#include <string.h>

#define IP_AT 14
#define IPV4_BYTES 20
#define IPV6_BYTES 40
#define IPV4_ADDRESSES (IP_AT + 12)
#define IPV6_ADDRESSES (IP_AT + 8)
#define PORTS_BYTES 4
#define IPV6_LEAST 74 /* Ethernet, IPv6 and TCP */
#define TYPE_IPV4 0x0800
#define TYPE_IPV6 0x86DD
#define TYPE_OTHER 0x88B5 /* reserved for local experiments */
#define TCP 6
#define UDP 17
#define OSPF 89
#define LENGTH_STEP 433u /* coprime to the number of lengths, so every length occurs */
#define NOISE_STEP 2048u

/* Returns a number that looks random but is the same in each run. */
static uint32_t mixed(uint32_t seed)
{
    seed = (seed ^ seed >> 16) * 0x45d9f3bu;
    seed = (seed ^ seed >> 16) * 0x45d9f3bu;
    return seed ^ seed >> 16;
}

static uint8_t noise(uint32_t number, uint32_t at)
{
    uint32_t part = at / NOISE_STEP;
    return (uint8_t)mixed((number * NOISE_STEP + at % NOISE_STEP) ^ part * 0x9E3779B9u);
}

static void put16(uint8_t *at, unsigned int value)
{
    at[0] = (uint8_t)(value >> 8);
    at[1] = (uint8_t)value;
}

static enum frame_kind kind_of(uint32_t number, uint16_t length)
{
    enum frame_kind kind = (enum frame_kind)(number % FRAME_KINDS);
    bool is_ipv6 = kind == FRAME_TCP6 || kind == FRAME_UDP6 || kind == FRAME_IPV6;
    return is_ipv6 && length < IPV6_LEAST ? (enum frame_kind)(kind - FRAME_TCP6) : kind;
}

static bool is_ipv4(uint8_t kind)
{
    return kind == FRAME_TCP4 || kind == FRAME_UDP4 || kind == FRAME_IPV4;
}

static uint8_t protocol_of(uint8_t kind)
{
    switch (kind) {
    case FRAME_TCP4:
    case FRAME_TCP6: return TCP;
    case FRAME_UDP4:
    case FRAME_UDP6: return UDP;
    default: return OSPF;
    }
}

static uint16_t ipv4_checksum(const uint8_t *header)
{
    uint32_t sum = 0;
    for (unsigned int at = 0; at < IPV4_BYTES; at += 2)
        sum += (uint32_t)header[at] << 8 | header[at + 1];
    sum = (sum & 0xFFFF) + (sum >> 16);
    return (uint16_t) ~(sum + (sum >> 16));
}

/* The header's other bytes, including the addresses, keep the random filling. */
static void put_ipv4(uint8_t *header, uint8_t kind, uint16_t length)
{
    header[0] = 0x45;
    put16(header + 2, length - IP_AT);
    put16(header + 6, 0);
    header[9] = protocol_of(kind);
    put16(header + 10, 0);
    put16(header + 10, ipv4_checksum(header));
}

static void put_ipv6(uint8_t *header, uint8_t kind, uint16_t length)
{
    put16(header, 0x6000);
    put16(header + 2, 0);
    put16(header + 4, length - IP_AT - IPV6_BYTES);
    header[6] = protocol_of(kind);
}

void frame_make(struct frame *frame, uint32_t number, uint16_t most, const uint8_t to[6], const uint8_t from[6])
{
    frame->length = (uint16_t)(FRAME_MIN + number * LENGTH_STEP % (most - FRAME_MIN + 1u));
    frame->kind = (uint8_t)kind_of(number, frame->length);
    for (uint32_t at = 0; at < frame->length; at++)
        frame->bytes[at] = noise(number, at);
    memcpy(frame->bytes, to, 6);
    memcpy(frame->bytes + 6, from, 6);
    if (frame->kind == FRAME_OTHER) {
        put16(frame->bytes + 12, TYPE_OTHER);
    } else if (is_ipv4(frame->kind)) {
        put16(frame->bytes + 12, TYPE_IPV4);
        put_ipv4(frame->bytes + IP_AT, frame->kind, frame->length);
    } else {
        put16(frame->bytes + 12, TYPE_IPV6);
        put_ipv6(frame->bytes + IP_AT, frame->kind, frame->length);
    }
}

bool frame_is(const struct frame *frame, const void *bytes, size_t length)
{
    return length == frame->length && memcmp(bytes, frame->bytes, length) == 0;
}

size_t frame_hashed(const struct frame *frame, size_t *at)
{
    size_t ports = protocol_of(frame->kind) == OSPF ? 0 : PORTS_BYTES;
    if (frame->kind == FRAME_OTHER)
        return 0;
    *at = is_ipv4(frame->kind) ? IPV4_ADDRESSES : IPV6_ADDRESSES;
    return (is_ipv4(frame->kind) ? 8 : 32) + ports;
}

/* ---- line-ups ---- */

bool line_up_begin(struct line_up *line_up, unsigned int room)
{
    *line_up = (struct line_up){.numbers = calloc(room ? room : 1, sizeof *line_up->numbers), .room = room};
    return line_up->numbers != NULL;
}

void line_up_end(struct line_up *line_up)
{
    free(line_up->numbers);
    *line_up = (struct line_up){0};
}

void line_up_put(struct line_up *line_up, uint32_t number)
{
    if (line_up->put < line_up->room)
        line_up->numbers[line_up->put++] = number;
}

bool line_up_take(struct line_up *line_up, uint32_t *number)
{
    if (line_up->taken == line_up->put)
        return false;
    *number = line_up->numbers[line_up->taken++];
    return true;
}

unsigned int line_up_left(const struct line_up *line_up)
{
    return line_up->put - line_up->taken;
}
