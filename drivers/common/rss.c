#include "rss.h"

#include <string.h>

#include "bus.h"

static const uint32_t bits_of_kind[FRAME_KINDS][2] = {
    /* with ports; addresses only */
    [FRAME_TCP4] = {NIC_MRQC_TCPIPV4, NIC_MRQC_IPV4},
    [FRAME_UDP4] = {NIC_MRQC_UDPIPV4, NIC_MRQC_IPV4},
    [FRAME_IPV4] = {0, NIC_MRQC_IPV4},
    [FRAME_TCP6] = {NIC_MRQC_TCPIPV6, NIC_MRQC_IPV6},
    [FRAME_UDP6] = {NIC_MRQC_UDPIPV6, NIC_MRQC_IPV6},
    [FRAME_IPV6] = {0, NIC_MRQC_IPV6},
    [FRAME_OTHER] = {0, 0},
};

/* Toeplitz hash: for each 1 bit of the input, XORs the 32 key bits that start at the same bit position. */
static uint32_t toeplitz(const uint8_t key[RSS_KEY_BYTES], const uint8_t *input, size_t length)
{
    uint32_t hash = 0;
    uint64_t window = 0;
    for (size_t i = 0; i < 8; i++)
        window = window << 8 | key[i];
    for (size_t at = 0; at < length; at++) {
        for (unsigned int bit = 0; bit < 8; bit++)
            if (input[at] >> (7 - bit) & 1)
                hash ^= (uint32_t)(window >> (32 - bit));
        window = window << 8 | (at + 8 < RSS_KEY_BYTES ? key[at + 8] : 0);
    }
    return hash;
}

void rss_of_registers(struct rss *rss, const struct bus *bus)
{
    rss->mrqc = bus_peek(bus, NIC_MRQC);
    for (unsigned int word = 0; word < NIC_RSSRK_COUNT; word++) {
        uint32_t bytes = bus_peek(bus, NIC_RSSRK(word));
        for (unsigned int i = 0; i < 4; i++)
            rss->key[4 * word + i] = (uint8_t)(bytes >> 8 * i);
    }
    for (unsigned int word = 0; word < NIC_RETA_COUNT; word++) {
        uint32_t entries = bus_peek(bus, NIC_RETA(word));
        for (unsigned int i = 0; i < 4; i++)
            rss->table[4 * word + i] = entries >> 8 * i & 0xF;
    }
}

bool rss_hash(const struct rss *rss, const struct frame *frame, uint32_t *hash)
{
    const uint32_t *bits = bits_of_kind[frame->kind];
    size_t at, length = frame_hashed(frame, &at);
    if (!(rss->mrqc & (bits[0] | bits[1])))
        return false;
    if (!(rss->mrqc & bits[0]))
        length = length > 12 ? 32 : 8;
    *hash = toeplitz(rss->key, frame->bytes + at, length);
    return true;
}

uint16_t rss_queue(const struct rss *rss, const struct frame *frame, unsigned int queues)
{
    uint32_t hash;
    uint8_t entry = rss->table[rss_hash(rss, frame, &hash) ? hash % RSS_ENTRIES : 0];
    return (uint16_t)(entry & (queues - 1));
}
