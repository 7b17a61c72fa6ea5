/* Offloads that the card performs on transmitted frames but the bench's device doesn't: checksums, TCP segmentation
   (TSO), VLAN tags. The device gets descriptors without these requests, and the frame that it sends is completed
   afterwards, as the Intel 82599 10 GbE Controller Datasheet (331520) describes. This part of the server is tested;
   nothing in it is proved.

   The device sends one short frame in place of a TSO packet. When it has sent that frame, the server cuts the TSO
   packet into segments, as many at a time as the budget allows. A request for IPsec, which isn't supported, stays in
   the descriptor, so that the device refuses it. */
#ifndef OFFLOAD_H
#define OFFLOAD_H

#include <stdbool.h>
#include <stddef.h>
#include <stdint.h>

#include "budget.h"
#include "legacy_form.h"

#define OFFLOAD_QUEUES 128
#define OFFLOAD_CONTEXTS 2
#define OFFLOAD_LARGEST (256u * 1024 + 512) /* bytes of a TSO packet: PAYLEN's 18 bits, and headers */
#define OFFLOAD_FRAME_MOST 65536u           /* bytes of a frame passed to the sink */
#define OFFLOAD_STAND_IN 60u                /* bytes of the frame that the device sends in a TSO packet's place */

/* The offloads that a frame requests. */
struct offload_job {
    bool sums_ip, sums_l4, is_large, has_tag;
    uint8_t mac_length, l4_length, l4_type;
    uint16_t ip_length, mss, tag;
    struct legacy_sum legacy;
};

struct offload_queue {
    uint64_t contexts[OFFLOAD_CONTEXTS][2];
    struct offload_job job;
    bool is_partial; /* a frame has begun, but its last descriptor hasn't arrived yet */
    bool is_ready;   /* the last descriptor has arrived, but the device hasn't sent the frame yet */
    uint8_t *bytes;  /* bytes of the TSO packet */
    size_t length, room;
    size_t cut; /* offset of the next segment in a TSO packet that the device has sent; 0: none is being cut */
    uint32_t segment;
};

struct offload_counts {
    uint64_t sums, tags, large, segments, dropped;
    uint64_t given_up; /* TSO packets in queues that were reset or changed owners before all segments were sent */
};

struct offload {
    struct offload_queue queues[OFFLOAD_QUEUES];
    struct offload_counts counts;
    uint8_t frame[OFFLOAD_FRAME_MOST];
    uint32_t crc[256]; /* CRC of each byte value, for SCTP's checksum */
};

typedef void offload_sink(void *to, const uint8_t *frame, size_t length);

struct offload *offload_new(void);
void offload_free(struct offload *it);
/* Copy and restore the state, like rings_copy and rings_become. */
struct offload *offload_copy(const struct offload *it);
void offload_become(struct offload *it, struct offload *copy);

/* Stores a context descriptor that is on its way to the device. */
void offload_context(struct offload *it, unsigned int queue, uint64_t first, uint64_t second);
/* Processes a data descriptor with its bytes. Returns the second half of the descriptor for the device, and sets
   *length to the number of bytes for the device. `legacy` is null, or the checksum that a legacy descriptor requests;
   then `tag` is that descriptor's tag. */
uint64_t offload_data(struct offload *it, unsigned int queue, uint64_t second, const uint8_t *bytes, size_t *length,
                      const struct legacy_sum *legacy, uint16_t tag);
/* Completes a frame that the device sent from this queue, and passes it to the sink. A TSO packet waits to be cut into
   segments. */
void offload_sent(struct offload *it, unsigned int queue, const uint8_t *frame, size_t length, offload_sink *sink,
                  void *to);
/* Returns whether segments of a TSO packet wait in this queue. If so, the queue's next descriptors wait too. */
bool offload_is_cutting(const struct offload *it, unsigned int queue);
/* Sends segments until the budget is spent or none is left. */
void offload_cut(struct offload *it, unsigned int queue, struct budget *budget, offload_sink *sink, void *to);

/* Discards the unfinished frame of a queue that was enabled again. */
void offload_give_up(struct offload *it, unsigned int queue);
/* Discards the whole state of a queue that was reset or got another owner. */
void offload_forget(struct offload *it, unsigned int queue);

#endif
