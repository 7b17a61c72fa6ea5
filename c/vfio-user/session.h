/* A client of one function. Its requests are checked and answered in the session, or passed to the function. */
#ifndef VFU_SESSION_H
#define VFU_SESSION_H

#include <stdbool.h>
#include <stdint.h>

#include "channel.h"
#include "line.h"
#include "memory_map.h"
#include "vectors.h"

/* The session's calls to its function. */
struct session_calls {
    /* returns the size of a region in bytes; 0 if there is none */
    uint64_t (*region_bytes)(void *function, uint32_t region);
    /* performs an access inside a region; returns false if the function doesn't have these bytes */
    bool (*access)(void *function, uint32_t region, uint64_t offset, uint8_t *bytes, uint32_t length, bool write);
    void (*reset)(void *function);
    /* the ranges of memory changed */
    void (*remapped)(void *function);
    /* called after the client changed how it receives interrupts while MSI-X is off */
    void (*rearmed)(void *function);
    /* called after a message was served; returns false if other clients have their turn before the next message */
    bool (*may_serve)(void *function);
    /* called after part of a message; returns false if other clients have their turn before the message continues */
    bool (*may_go_on)(void *function);
};

struct session_counts {
    uint64_t messages, reads, writes, multiple, refused, maps, unmaps;
};

struct session {
    struct channel channel;
    struct memory_map map;
    struct vectors vectors;
    struct line line; /* while MSI-X is off */
    const struct session_calls *calls;
    void *function;
    const char *name; /* name of the socket, for lines on standard error */
    bool has_version, has_reported_memory;
    bool is_stalled;   /* whether received messages are waiting for replies to be sent, or for memory to be unmapped */
    bool is_paused;    /* whether received messages are waiting for the next turn */
    bool is_continued; /* whether the current message itself also continues in the next turn */
    struct message message;
    uint64_t done; /* parts of the current message that are done: writes, or vectors */
    int error;     /* result of the current message so far */
    struct session_counts counts;
};

/* `has_line`: INTx and MSI in addition to the vectors of MSI-X. `owner`: this session's unique number for closer.h. */
void session_begin(struct session *it, const struct session_calls *calls, void *function, unsigned int vectors,
                   bool has_line, unsigned int owner);
/* Begins a session with a client that has connected, and takes ownership of the client's socket. */
void session_open(struct session *it, int file);
bool session_is_open(const struct session *it);
/* Serves what has been received. Returns false if the session has ended; if the client is at fault, a line on standard
   error says why. */
bool session_serve(struct session *it);
/* Sends waiting replies. Returns false as session_serve does. */
bool session_flush(struct session *it);
/* Reads the eventfd with which the client unmasks the line, once and without blocking. */
void session_unmask(struct session *it);
/* Returns whether the session receives more now. It doesn't while too many replies are waiting to be read, too much of
   its client's removed memory is still mapped, or too many files are waiting to be closed. */
bool session_is_ready(const struct session *it);
/* Returns whether received messages are waiting for the next turn, in which session_serve continues. */
bool session_is_paused(const struct session *it);
void session_close(struct session *it);
/* Returns whether the client is waiting for work that the server does in several turns. */
bool session_is_busy(const struct session *it);
/* Unmaps part of the client's removed memory. Returns whether some remains. */
bool session_give_back(struct session *it);
/* Unmaps all of the client's memory on exit, after the session was closed. */
void session_end(struct session *it);

#endif
