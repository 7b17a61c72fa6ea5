#define _POSIX_C_SOURCE 200809L
#include "capture.h"

#include <string.h>
#include <time.h>

#include "nic82599_pcap.h"

/* pcapng: the block types in use */
#define SECTION 0x0A0D0D0Au
#define INTERFACE 1u
#define SIMPLE 3u
#define ENHANCED 6u
#define BYTE_ORDER 0x1A2B3C4Du
#define ETHERNET 1u
#define BLOCK_MOST (1u << 24) /* as in python/nic82599/pcap.py */

/* ---- writing ---- */

static void put16(uint8_t *to, unsigned int value)
{
    to[0] = (uint8_t)value;
    to[1] = (uint8_t)(value >> 8);
}

/* Writes a block's header and trailer around a body of this length. Returns the block's length. */
static size_t frame_block(uint8_t *block, uint32_t type, size_t body)
{
    size_t all = body + 12;
    pcap_put_word(block, type);
    pcap_put_word(block + 4, (uint32_t)all);
    pcap_put_word(block + 8 + body, (uint32_t)all);
    return all;
}

void capture_begin(struct output *to)
{
    uint8_t blocks[28 + 32] = {0}, *section = blocks + 8, *interface = blocks + 28 + 8;
    pcap_put_word(section, BYTE_ORDER);
    put16(section + 4, 1); /* version 1.0, unknown section length */
    memset(section + 8, 0xFF, 8);
    put16(interface, ETHERNET);
    put16(interface + 8, 9); /* option: timestamp resolution, 1 byte, 10^-9 */
    put16(interface + 10, 1);
    interface[12] = 9;
    frame_block(blocks, SECTION, 16);
    frame_block(blocks + 28, INTERFACE, 20);
    output_put(to, blocks, sizeof blocks);
}

void capture_write(struct output *to, enum capture_direction direction, const uint8_t *frame, size_t length)
{
    static uint8_t block[8 + 20 + CAPTURE_FRAME_MOST + 12 + 4];
    uint8_t *body = block + 8, *end = body + 20 + (length + 3) / 4 * 4;
    struct timespec now;
    if (length > CAPTURE_FRAME_MOST)
        return;
    clock_gettime(CLOCK_REALTIME, &now);
    uint64_t at = (uint64_t)now.tv_sec * UINT64_C(1000000000) + (uint64_t)now.tv_nsec;
    pcap_put_word(body, 0); /* the interface */
    pcap_put_word(body + 4, (uint32_t)(at >> 32));
    pcap_put_word(body + 8, (uint32_t)at);
    pcap_put_word(body + 12, (uint32_t)length);
    pcap_put_word(body + 16, (uint32_t)length);
    memcpy(body + 20, frame, length);
    memset(body + 20 + length, 0, (size_t)(end - body) - 20 - length);
    memset(end, 0, 12);
    put16(end, 2); /* option: flags, 4 bytes: the direction; then the end of options */
    put16(end + 2, 4);
    end[4] = (uint8_t)direction;
    output_put(to, block, frame_block(block, ENHANCED, (size_t)(end - body) + 12));
}

/* ---- reading ---- */

static bool begin_section(struct capture_reader *it, const uint8_t *order)
{
    it->is_big = pcap_word(order, true) == BYTE_ORDER;
    it->interfaces = it->ethernet = it->longest = 0;
    return it->is_big || pcap_word(order, false) == BYTE_ORDER;
}

bool capture_open(struct capture_reader *it, FILE *file)
{
    uint8_t head[12];
    *it = (struct capture_reader){.file = file};
    if (fread(head, 1, sizeof head, file) == sizeof head && pcap_word(head, true) == SECTION) {
        it->is_ng = true;
        return begin_section(it, head + 8) && fseek(file, -(long)sizeof head, SEEK_CUR) == 0;
    }
    pcap_reader reader;
    rewind(file);
    if (!pcap_begin_reading(&reader, file))
        return false;
    it->is_big = reader.big;
    return true;
}

static uint32_t half(const struct capture_reader *it, const uint8_t *at)
{
    return it->is_big ? (uint32_t)at[0] << 8 | at[1] : (uint32_t)at[1] << 8 | at[0];
}

/* Finds the length of the frame in an enhanced or simple packet block. Returns whether the block contains a whole
   Ethernet frame of at most `room` bytes. */
static bool is_frame(const struct capture_reader *it, uint32_t type, const uint8_t *head, size_t body, size_t room,
                     size_t *length)
{
    uint32_t interface = type == ENHANCED ? pcap_word(head, it->is_big) : 0;
    uint32_t all = pcap_word(head + (type == ENHANCED ? 16 : 0), it->is_big);
    bool is_cut = type == SIMPLE && it->longest && it->longest < all;
    *length = type == ENHANCED ? pcap_word(head + 12, it->is_big) : is_cut ? it->longest : all;
    return *length == all && *length <= room && *length <= body && interface < 32 && it->ethernet >> interface & 1;
}

/* Skips this many bytes, at least one. Returns false if the file ends before the last of them. */
static bool skip(FILE *file, size_t length)
{
    return fseek(file, (long)length - 1, SEEK_CUR) == 0 && fgetc(file) != EOF;
}

/* Returns the length of the fixed fields at the start of a block's body; 0 for blocks whose body is skipped. */
static size_t head_of(uint32_t type)
{
    return type == ENHANCED ? 20 : type == INTERFACE ? 8 : type == SIMPLE ? 4 : 0;
}

static void add_interface(struct capture_reader *it, const uint8_t *body)
{
    if (!it->interfaces)
        it->longest = pcap_word(body + 4, it->is_big);
    if (it->interfaces++ < 32 && half(it, body) == ETHERNET)
        it->ethernet |= 1u << (it->interfaces - 1);
}

/* Reads one block. Returns CAPTURE_FRAME if it contains a frame, CAPTURE_END if it doesn't. */
static enum capture_next read_block(struct capture_reader *it, uint8_t *frame, size_t room, size_t *length)
{
    uint8_t head[8], body[20];
    if (fread(head, 1, sizeof head, it->file) != sizeof head)
        return CAPTURE_BROKEN;
    bool is_section = pcap_word(head, true) == SECTION;
    if (is_section && (fread(body, 1, 4, it->file) != 4 || !begin_section(it, body)))
        return CAPTURE_BROKEN;
    uint32_t type = pcap_word(head, it->is_big), all = pcap_word(head + 4, it->is_big);
    size_t taken = is_section ? 12 : 8, own = head_of(type);
    if (all % 4 || all < 12 + own + (is_section ? 4 : 0) || all > BLOCK_MOST || fread(body, 1, own, it->file) != own)
        return CAPTURE_BROKEN;
    taken += own;
    if (type == INTERFACE)
        add_interface(it, body);
    if (type != ENHANCED && type != SIMPLE)
        return skip(it->file, all - taken) ? CAPTURE_END : CAPTURE_BROKEN;
    if (!is_frame(it, type, body, all - taken - 4, room, length) || fread(frame, 1, *length, it->file) != *length ||
        !skip(it->file, all - taken - *length))
        return CAPTURE_BROKEN;
    return CAPTURE_FRAME;
}

enum capture_next capture_next(struct capture_reader *it, uint8_t *frame, size_t room, size_t *length)
{
    if (!it->is_ng) {
        pcap_reader reader = {it->file, it->is_big};
        enum pcap_next_is next = pcap_next(&reader, frame, room, length);
        return next == PCAP_FRAME ? CAPTURE_FRAME : next == PCAP_END ? CAPTURE_END : CAPTURE_BROKEN;
    }
    for (;;) {
        int first = fgetc(it->file);
        if (first == EOF)
            return CAPTURE_END;
        ungetc(first, it->file);
        enum capture_next next = read_block(it, frame, room, length);
        if (next != CAPTURE_END)
            return next;
    }
}
