/* The frames that a run sends. A frame's number determines its bytes, so either end can build the frame and compare.
   This file needs no library, so a guest's program can use it too. */
#ifndef BUS_FRAMES_H
#define BUS_FRAMES_H

#include <stdbool.h>
#include <stddef.h>
#include <stdint.h>

#define FRAME_MIN 60
#define FRAME_MAX 1514   /* bytes, without the frame check sequence */
#define FRAME_JUMBO 9014 /* the longest frame with an MTU of 9,000 */
#define HASH_INPUT_MAX 36

/* Seven kinds of frames alternate: TCP, UDP and neither, over IPv4 and over IPv6, and a frame that isn't IP. IPv6 is
   used only if the frame has room for TCP's ports. */
enum frame_kind { FRAME_TCP4, FRAME_UDP4, FRAME_IPV4, FRAME_TCP6, FRAME_UDP6, FRAME_IPV6, FRAME_OTHER, FRAME_KINDS };

struct frame {
    uint16_t length;
    uint8_t kind; /* enum frame_kind */
    uint8_t bytes[FRAME_JUMBO];
};

/* Builds the frame with this number, FRAME_MIN to `most` bytes long. Consecutive numbers cycle through all these
   lengths. */
void frame_make(struct frame *frame, uint32_t number, uint16_t most, const uint8_t to[6], const uint8_t from[6]);

/* Returns whether these bytes equal the frame's. */
bool frame_is(const struct frame *frame, const void *bytes, size_t length);

/* Finds the part of a frame that RSS hashes: the addresses, and the ports if there are any. Sets *at to its first byte
   and returns its length in bytes, 0 if the frame isn't IP. */
size_t frame_hashed(const struct frame *frame, size_t *at);

/* A FIFO of the numbers of the frames that a queue or a peer sends next. */
struct line_up {
    uint32_t *numbers;
    unsigned int room, put, taken;
};

/* Creates an empty line-up with room for `room` numbers. Returns false if memory runs out. The struct may be
   uninitialized. line_up_end frees it. */
bool line_up_begin(struct line_up *line_up, unsigned int room);
void line_up_end(struct line_up *line_up);
void line_up_put(struct line_up *line_up, uint32_t number);
/* Removes the next number and stores it in *number. Returns false, and leaves *number unchanged, if there is none. */
bool line_up_take(struct line_up *line_up, uint32_t *number);
unsigned int line_up_left(const struct line_up *line_up);

#endif
