/* Frames numbered from 1 (frames.h) that arrive in any order: records which have arrived, and compares each byte. */
#ifndef BUS_NUMBERED_H
#define BUS_NUMBERED_H

#include <stdbool.h>
#include <stddef.h>
#include <stdint.h>

#define NUMBERED_EARLY 65536u /* frames that may arrive before the frames with their numbers are built */

struct frame;

struct numbered {
    unsigned int count, good, twice, wrong; /* wrong: frames that match none */
    uint64_t *prints;                       /* hash of each frame, at number - 1 */
    uint32_t *places;                       /* hash table of frame numbers; 0: none */
    bool *has_come;
    uint32_t room;
    /* used only while the frames are being built: */
    struct frame *frame;
    unsigned int made;
    uint16_t most;
    uint8_t to[6], from[6];
    uint64_t *early; /* hashes of frames that arrived and matched no frame built so far */
    unsigned int early_count;
};

/* Builds `count` frames in a single pass, FRAME_MIN to `most` bytes long. Returns false if memory runs out. */
bool numbered_begin(struct numbered *it, unsigned int count, uint16_t most, const uint8_t to[6], const uint8_t from[6]);
/* Build the frames step by step: numbered_start builds none, and each numbered_prepare builds about `bytes` bytes of
   further frames. Frames may arrive between these calls. If more than NUMBERED_EARLY arrive before they are built, the
   excess counts as wrong. */
bool numbered_start(struct numbered *it, unsigned int count, uint16_t most, const uint8_t to[6], const uint8_t from[6]);
void numbered_prepare(struct numbered *it, size_t bytes);
/* Returns whether all frames are built. */
bool numbered_is_ready(const struct numbered *it);
void numbered_end(struct numbered *it);
/* Records a frame that arrived. */
void numbered_take(struct numbered *it, const uint8_t *bytes, size_t length);

#endif
