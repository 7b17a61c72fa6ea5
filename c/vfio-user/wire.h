/* The other end of the card's cable: nothing, a responder, or a program on a UNIX socket. The program uses the formats
   of QEMU's -netdev stream (each frame after its length, four bytes, high byte first) or -netdev dgram (a datagram for
   each frame). Up to WIRE_KEPT bytes are kept for a slow other end; lost frames are counted. */
#ifndef VFU_WIRE_H
#define VFU_WIRE_H

#include <poll.h>
#include <stdbool.h>
#include <stddef.h>
#include <stdint.h>
#include <stdio.h>

#include "budget.h"
#include "buffer.h"
#include "capture.h"
#include "connector.h"

#define WIRE_FRAME_MOST 65536u  /* bytes: the card sends and accepts no longer frame */
#define WIRE_LENGTH_MOST 69632u /* the longest frame that QEMU sends; a longer one isn't valid */
#define WIRE_KEPT (16u << 20)
#define WIRE_GATHERED (64u << 10)   /* bytes that wait for wire_flush */
#define WIRE_COMING_BACK (1u << 20) /* bytes of replies and hairpins kept for each sender */
#define WIRE_SENDERS BUDGET_PAYERS  /* senders of frames: clients by their sockets, and the other payers */
#define WIRE_POLLS 2

enum wire_kind { WIRE_NONE, WIRE_RESPOND, WIRE_STREAM, WIRE_LISTEN, WIRE_DGRAM };

struct wire_options {
    enum wire_kind kind;
    uint32_t address;        /* the responder's IPv4 address, first byte in bits 31:24 */
    const char *path, *peer; /* the socket; dgram: also the other end's socket */
    bool has_hairpin;        /* sent frames also return to the card, as from a switch between its functions */
    const char *capture;     /* file that captures all frames; null: none */
    const char *play;        /* file of frames to send to the card; null: none */
    bool is_confined;        /* the process that connects gives up its rights */
};

struct wire_counts {
    uint64_t out, out_bytes, in, in_bytes; /* frames and bytes from the card, and to it */
    uint64_t replies, hairpins, played;    /* included in `in`, by origin */
    /* frames lost: there was no other end; too many bytes were waiting; the frame was too long */
    uint64_t lost_nobody, lost_full, too_long;
};

struct wire {
    struct wire_options options;
    struct wire_counts counts;
    int file, listener; /* -1: none */
    bool had_end;       /* a stream's other end was connected before */
    bool is_cut;        /* connections are refused, because the card's link is down */
    bool gathers;
    struct connector connector;
    struct buffer out;                 /* for the other end; stream: bytes; dgram: frames after their lengths */
    struct buffer in;                  /* bytes received from a stream */
    struct buffer local[WIRE_SENDERS]; /* replies and hairpins for each sender, after their lengths */
    unsigned int next_local;           /* the sender with the next turn */
    bool others_turn;                  /* whether the other end or the played file has its turn before `local` */
    struct output capture;
    FILE *played;
    struct capture_reader play;
    uint8_t frame[WIRE_FRAME_MOST];
};

/* Opens the wire. Returns false after a line on standard error that says why. */
bool wire_open(struct wire *it, const struct wire_options *options);
void wire_close(struct wire *it);

/* With `is_cut`, the card's link goes down: a stream's other end is disconnected, and can't connect until the link is
   up again. Without `is_cut`, the link goes up. If the link is already up, the only effect is that a disconnected other
   end counts as never connected. */
void wire_cut(struct wire *it, bool is_cut);
/* Returns whether a stream's other end was connected and has disconnected. */
bool wire_is_gone(const struct wire *it);

/* Sends a frame from the card. `sender` is the owner of its ring. */
void wire_send(struct wire *it, unsigned int sender, const uint8_t *frame, size_t length);
/* After wire_gather, frames for the other end wait for wire_flush, or until WIRE_GATHERED bytes are waiting. One system
   call then sends all of them to a stream. */
void wire_gather(struct wire *it);
/* Sends the waiting frames as far as the other end accepts them. */
void wire_flush(struct wire *it);
/* Stores the next frame for the card, padded to 60 bytes, in it->frame. Returns the frame's length; 0 if none is
   waiting. With `plays`, frames from the played file count too. Each sender's replies and hairpins take turns with the
   frames from the other end, so none starves the others. */
size_t wire_next(struct wire *it, bool plays);

/* Fills in WIRE_POLLS entries to poll; unused ones have file -1. `takes`: the card has room for frames. */
void wire_polls(const struct wire *it, struct pollfd *polls, bool takes);
/* Handles what poll reported in these entries. */
void wire_serve(struct wire *it, const struct pollfd *polls);
/* Returns whether frames are waiting that need no poll. With `plays`, frames from the played file count too. */
bool wire_has_more(const struct wire *it, bool plays);
/* Returns the milliseconds after which the wire connects again even without an event; -1: never. */
int wire_patience(const struct wire *it);

#endif
