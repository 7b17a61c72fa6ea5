/* Captures. Writes the wire's frames in both directions as pcapng, with direction and nanosecond timestamp. Reads the
   frames in a pcap or pcapng file, to send them to the card. */
#ifndef VFU_CAPTURE_H
#define VFU_CAPTURE_H

#include <stdbool.h>
#include <stddef.h>
#include <stdint.h>
#include <stdio.h>

#include "output.h"

enum capture_direction { CAPTURE_IN = 1, CAPTURE_OUT = 2 };

#define CAPTURE_FRAME_MOST 65536u /* bytes: longer frames aren't written */

/* Writes a file's header. */
void capture_begin(struct output *to);
void capture_write(struct output *to, enum capture_direction direction, const uint8_t *frame, size_t length);

struct capture_reader {
    FILE *file;
    bool is_ng, is_big;
    /* in a pcapng section: number of interfaces, and a bit for each of the first 32 that is Ethernet */
    unsigned int interfaces, ethernet;
    uint32_t longest; /* bytes of each frame that the file's first interface keeps; 0: all */
};

enum capture_next { CAPTURE_FRAME, CAPTURE_END, CAPTURE_BROKEN };

/* Reads a file's header. Returns false if the file isn't a capture of Ethernet frames. */
bool capture_open(struct capture_reader *it, FILE *file);
/* Reads the next frame. Returns CAPTURE_BROKEN if the file is damaged, or if the frame is longer than `room` bytes or
   was only partly captured. */
enum capture_next capture_next(struct capture_reader *it, uint8_t *frame, size_t room, size_t *length);

#endif
