/* Captures of Ethernet frames. Reads pcap files (microseconds or nanoseconds, either byte order) and writes them with
   microseconds. Each call returns whether it succeeded. It fails for a file that is truncated, has a link type other
   than Ethernet, or contains a partly captured frame. (tools/pcap2nic and the Python module also read pcapng.)

       FILE *in = fopen("in.pcap", "rb");
       pcap_reader reader;
       if (pcap_begin_reading(&reader, in))
           while (pcap_next(&reader, frame, sizeof frame, &length) == PCAP_FRAME)
               nic_arrive(&n, frame, length, &event); */
#ifndef NIC82599_PCAP_H
#define NIC82599_PCAP_H

#include <stdbool.h>
#include <stddef.h>
#include <stdint.h>
#include <stdio.h>

/* A capture being read. `big` is true if its numbers are stored high byte first. */
typedef struct pcap_reader {
    FILE *file;
    bool big;
} pcap_reader;

/* The result of pcap_next. */
enum pcap_next_is { PCAP_FRAME, PCAP_END, PCAP_BROKEN };

static inline uint32_t pcap_word(const uint8_t *at, bool big)
{
    uint32_t word = 0;
    for (int k = 0; k < 4; k++)
        word |= (uint32_t)at[k] << 8 * (big ? 3 - k : k);
    return word;
}

static inline void pcap_put_word(uint8_t *at, uint32_t word)
{
    for (int k = 0; k < 4; k++)
        at[k] = (uint8_t)(word >> 8 * k);
}

/* Reads the header of a capture. Returns false if it isn't a capture of Ethernet frames. */
static inline bool pcap_begin_reading(pcap_reader *reader, FILE *file)
{
    uint8_t head[24];
    uint32_t magic;
    reader->file = file;
    reader->big = false;
    if (fread(head, 1, sizeof head, file) != sizeof head)
        return false;
    magic = pcap_word(head, true);
    reader->big = magic == UINT32_C(0xA1B2C3D4) || magic == UINT32_C(0xA1B23C4D);
    if (!reader->big && magic != UINT32_C(0xD4C3B2A1) && magic != UINT32_C(0x4D3CB2A1))
        return false;
    return (pcap_word(head + 20, reader->big) & 0xFFFF) == 1;
}

/* Reads the next frame into a buffer of `room` bytes, and sets *length to its length. If the frame doesn't fit, the
   result is PCAP_BROKEN. */
static inline enum pcap_next_is pcap_next(pcap_reader *reader, uint8_t *frame, size_t room, size_t *length)
{
    uint8_t head[16];
    size_t read = fread(head, 1, sizeof head, reader->file);
    *length = 0;
    if (read == 0 && feof(reader->file))
        return PCAP_END;
    if (read != sizeof head || pcap_word(head + 8, reader->big) != pcap_word(head + 12, reader->big))
        return PCAP_BROKEN;
    if (pcap_word(head + 8, reader->big) > room)
        return PCAP_BROKEN;
    *length = pcap_word(head + 8, reader->big);
    return fread(frame, 1, *length, reader->file) == *length ? PCAP_FRAME : PCAP_BROKEN;
}

/* Writes the header of a capture. */
static inline bool pcap_begin_writing(FILE *file)
{
    static const uint8_t head[24] = {0xD4, 0xC3, 0xB2, 0xA1, 2, 0, 4, 0, 0, 0, 0, 0, 0, 0, 0, 0, 0xFF, 0xFF, 0, 0, 1};
    return fwrite(head, 1, sizeof head, file) == sizeof head;
}

/* Writes a frame with its time in microseconds. */
static inline bool pcap_put(FILE *file, uint64_t time, const uint8_t *frame, size_t length)
{
    uint8_t head[16];
    pcap_put_word(head, (uint32_t)(time / 1000000));
    pcap_put_word(head + 4, (uint32_t)(time % 1000000));
    pcap_put_word(head + 8, (uint32_t)length);
    pcap_put_word(head + 12, (uint32_t)length);
    return fwrite(head, 1, sizeof head, file) == sizeof head && fwrite(frame, 1, length, file) == length;
}

#endif
