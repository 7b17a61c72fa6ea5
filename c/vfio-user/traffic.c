#include "traffic.h"

#include <string.h>

static const uint8_t peer[6] = {0x02, 0x00, 0x00, 0x00, 0x00, 0x01};

void traffic_begin(struct traffic *it, const uint8_t card[6])
{
    *it = (struct traffic){.next = 1};
    memcpy(it->card, card, sizeof it->card);
}

void traffic_end(struct traffic *it)
{
    numbered_end(&it->expected);
}

void traffic_send(struct traffic *it, unsigned int count, uint16_t most)
{
    it->next = 1;
    it->last = count;
    it->most = most;
}

bool traffic_expect(struct traffic *it, unsigned int count, uint16_t most, const uint8_t from[6])
{
    numbered_end(&it->expected);
    return numbered_start(&it->expected, count, most, peer, from);
}

void traffic_prepare(struct traffic *it, size_t bytes)
{
    numbered_prepare(&it->expected, bytes);
}

bool traffic_is_busy(const struct traffic *it)
{
    return !numbered_is_ready(&it->expected);
}

bool traffic_has_more(const struct traffic *it)
{
    return it->next <= it->last;
}

const struct frame *traffic_next(struct traffic *it)
{
    if (!traffic_has_more(it))
        return NULL;
    frame_make(&it->frame, it->next, it->most, it->card, peer);
    if (it->next == it->turn_in)
        it->frame.bytes[it->frame.length - 1] ^= 1;
    it->next++;
    return &it->frame;
}

void traffic_take(struct traffic *it, const uint8_t *frame, size_t length)
{
    if (!it->expected.count || length < FRAME_MIN || length > FRAME_JUMBO || memcmp(frame, peer, sizeof peer) != 0)
        return;
    memcpy(it->frame.bytes, frame, length);
    if (++it->taken == it->turn_out)
        it->frame.bytes[length - 1] ^= 1;
    numbered_take(&it->expected, it->frame.bytes, length);
}
