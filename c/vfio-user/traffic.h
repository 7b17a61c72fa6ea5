/* Numbered frames (c/bus/frames.h): sends them from the wire to the card, and compares those that the card sends, for
   runs with a guest that does the same. */
#ifndef VFU_TRAFFIC_H
#define VFU_TRAFFIC_H

#include <stdbool.h>
#include <stddef.h>
#include <stdint.h>

#include "frames.h"
#include "numbered.h"

#define TRAFFIC_MOST 1000000u /* maximum number of frames */
#define TRAFFIC_EARLY 65536u  /* frames that may arrive from the card while the expected frames are being built */

struct traffic {
    uint8_t card[6];
    unsigned int next, last; /* numbers of frames to the card */
    uint16_t most;
    struct numbered expected; /* frames that the card should send */
    /* For tests: numbers of the frames to and from the card in which one byte is corrupted; 0: none */
    unsigned int turn_in, turn_out, taken;
    struct frame frame;
};

void traffic_begin(struct traffic *it, const uint8_t card[6]);
void traffic_end(struct traffic *it);
/* traffic_send sends `count` frames of FRAME_MIN to `most` bytes to the card. traffic_expect expects such frames from
   the card, and returns false if memory runs out. Expected frames are built in pieces: while traffic_is_busy, each
   traffic_prepare builds about `bytes` bytes of frames. */
void traffic_send(struct traffic *it, unsigned int count, uint16_t most);
bool traffic_expect(struct traffic *it, unsigned int count, uint16_t most, const uint8_t from[6]);
void traffic_prepare(struct traffic *it, size_t bytes);
bool traffic_is_busy(const struct traffic *it);
/* Returns the next frame for the card; null if there is none. */
const struct frame *traffic_next(struct traffic *it);
bool traffic_has_more(const struct traffic *it);
/* Compares a frame from the card if its destination is the peer's address. */
void traffic_take(struct traffic *it, const uint8_t *frame, size_t length);

#endif
