/* One client's socket. Bytes and files arrive in chunks of any size, and are read as whole messages. Nothing in this
   file blocks: if a message has only partly arrived, the caller polls again. If a client doesn't read, its replies are
   kept; while they exceed CHANNEL_KEPT bytes, the client isn't served. */
#ifndef VFU_CHANNEL_H
#define VFU_CHANNEL_H

#include <stdbool.h>
#include <stddef.h>
#include <stdint.h>

#include "buffer.h"
#include "protocol.h"

#define CHANNEL_ROOM (4 * VFU_MESSAGE_MOST)
#define CHANNEL_KEPT (64u << 10)
#define CHANNEL_FILES (2 * VFU_FILES_MOST)
#define CHANNEL_FILES_AT_ONCE 253 /* the kernel's limit: with less room, it would close some files, which takes time */

/* A message. For each file, the receiver either closes it, or keeps it and sets its entry to -1. */
struct message {
    struct vfu_header head;
    unsigned int length; /* bytes of the body */
    unsigned int owner;  /* owner of the files: see closer.h */
    unsigned int file_count;
    int files[VFU_FILES_MOST];
    union {
        uint64_t aligned;
        uint8_t bytes[VFU_MESSAGE_MOST - sizeof(struct vfu_header)];
    } body;
};

struct channel {
    int file; /* -1: no client */
    unsigned int owner;
    uint8_t in[CHANNEL_ROOM];
    size_t in_at, in_end;
    struct {
        int file;
        size_t end; /* the files arrived before this byte of `in` */
    } files[CHANNEL_FILES];
    unsigned int file_count;
    struct buffer out;
};

enum channel_state {
    CHANNEL_OPEN,
    CHANNEL_GONE, /* the client has disconnected or can't be reached */
    CHANNEL_WRONG /* the client sent bytes that aren't a message, or too many files */
};

void channel_begin(struct channel *it, int file, unsigned int owner);
void channel_end(struct channel *it);

/* Receives what has arrived, as far as there is room for it. */
enum channel_state channel_receive(struct channel *it);
/* Takes the next message. Returns true if a whole message has arrived; *state is then unchanged. Otherwise returns
   false, and sets *state to CHANNEL_WRONG if no valid message can follow. */
bool channel_next(struct channel *it, struct message *message, enum channel_state *state);
/* Closes the remaining files of a message. */
void message_drop_files(struct message *message);

/* Sends bytes, and keeps the bytes that can't be sent now. */
enum channel_state channel_send(struct channel *it, const void *bytes, size_t length);
enum channel_state channel_flush(struct channel *it);
/* Returns the number of bytes waiting to be sent. */
size_t channel_waiting(const struct channel *it);

#endif
