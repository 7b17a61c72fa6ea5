#include "hashes.h"

#include <rte_byteorder.h>
#include <rte_ethdev.h>
#include <rte_thash.h>
#include <stdio.h>
#include <string.h>

#include "dpdk.h"

#define SAID_MOST 20 /* number of wrong hashes to print; problem() has the same limit */

/* Whether to print this wrong hash. */
static bool is_said(void)
{
    static unsigned int count;
    return count++ < SAID_MOST;
}

/* Returns rte_softrss's hash of an input in wire order. rte_softrss takes words in the machine's byte order; on the
   wire they are big-endian. */
static uint32_t soft_hash(const uint8_t *input, size_t length, const uint8_t *key)
{
    uint32_t words[HASH_INPUT_MAX / 4];
    for (size_t i = 0; i < length / 4; i++) {
        memcpy(&words[i], input + 4 * i, 4);
        words[i] = rte_be_to_cpu_32(words[i]);
    }
    return rte_softrss(words, (uint32_t)(length / 4), key);
}

enum hash hash_compare(const struct rte_mbuf *packet, const struct frame *frame, const struct rss *rss)
{
    bool is_reported = packet->ol_flags & RTE_MBUF_F_RX_RSS_HASH;
    size_t at = 0, length = frame_hashed(frame, &at);
    uint32_t expected = 0, bench = 0;
    if (!rss_hash(rss, frame, &expected)) {
        if (is_reported && is_said())
            fprintf(stderr, "a %u-byte frame has a hash, but should have none\n", frame->length);
        return is_reported ? HASH_WRONG : HASH_NONE;
    }
    uint32_t soft = soft_hash(frame->bytes + at, length, rss->key);
    nic_hash(rss->key, frame->bytes + at, length, &bench);
    if (is_reported && packet->hash.rss == soft && packet->hash.rss == bench && packet->hash.rss == expected)
        return HASH_RIGHT;
    if (is_said())
        fprintf(stderr, "the driver reports %s hash, %08x; rte_softrss %08x, nic_hash %08x, drivers/common %08x\n",
                is_reported ? "a" : "no", is_reported ? packet->hash.rss : 0, soft, bench, expected);
    return HASH_WRONG;
}

uint16_t choose_queues(uint16_t port, unsigned int queues, struct rss *rss)
{
    struct rte_eth_rss_reta_entry64 entries[RSS_ENTRIES / RTE_ETH_RETA_GROUP_SIZE];
    rss->mrqc = RSS_ALL;
    memcpy(rss->key, rss_key, sizeof rss->key);
    for (unsigned int entry = 0; entry < RSS_ENTRIES; entry++) {
        rss->table[entry] = (uint8_t)((entry * 5 + entry / 16) % queues);
        entries[entry / RTE_ETH_RETA_GROUP_SIZE].mask = UINT64_MAX;
        entries[entry / RTE_ETH_RETA_GROUP_SIZE].reta[entry % RTE_ETH_RETA_GROUP_SIZE] = rss->table[entry];
    }
    return rte_eth_dev_rss_reta_update(port, entries, RSS_ENTRIES) != 0;
}
