/* Tests the wire's kinds of other end: QEMU's formats with the test as the peer, and the responder. Also tests captures
   that are written and read, and counts of lost frames. wires FOLDER */
#define _GNU_SOURCE
#include <errno.h>
#include <fcntl.h>
#include <stdio.h>
#include <string.h>
#include <sys/socket.h>
#include <sys/stat.h>
#include <sys/un.h>
#include <unistd.h>

#include "../../tests/check.h"
#include "respond.h"
#include "wire.h"

#define DATAGRAMS 2000u /* more than any queue can hold, but less than the wire keeps */

static struct wire wire;
static char first_path[200], second_path[200], file_path[200];

static void serve(bool has_data)
{
    struct pollfd polls[WIRE_POLLS];
    wire_polls(&wire, polls, true);
    CHECK(poll(polls, WIRE_POLLS, has_data ? 300000 : 0) >= 0);
    wire_serve(&wire, polls);
}

static void make_frame(uint8_t *frame, size_t length, unsigned int seed)
{
    for (size_t i = 0; i < length; i++)
        frame[i] = (uint8_t)(seed * 31 + i * 7 + (i >> 8));
}

static struct sockaddr_un name_of(const char *path)
{
    struct sockaddr_un name = {.sun_family = AF_UNIX};
    snprintf(name.sun_path, sizeof name.sun_path, "%s", path);
    return name;
}

static void take(int file, uint8_t *bytes, size_t length)
{
    for (size_t got = 0; got < length;) {
        ssize_t now = recv(file, bytes + got, length - got, 0);
        CHECK(now > 0);
        got += (size_t)now;
    }
}

/* ---- streams ---- */

/* Checks that outgoing frames follow their lengths. Incoming frames arrive whole, in pieces and several at a time. */
static void passes_a_stream(int peer)
{
    uint8_t frame[2000], bytes[4 + 2000];
    make_frame(frame, 1514, 1);
    wire_send(&wire, 0, frame, 1514);
    wire_send(&wire, 0, frame, 60);
    take(peer, bytes, 4 + 1514);
    CHECK(memcmp(bytes, "\0\0\5\352", 4) == 0 && memcmp(bytes + 4, frame, 1514) == 0);
    take(peer, bytes, 4 + 60);
    CHECK(memcmp(bytes, "\0\0\0\74", 4) == 0 && memcmp(bytes + 4, frame, 60) == 0);
    memcpy(bytes, "\0\0\0\74", 4);
    memcpy(bytes + 4, frame, 60);
    for (unsigned int i = 0; i < 64; i++) {
        CHECK(wire_next(&wire, false) == 0);
        CHECK(send(peer, bytes + i, 1, 0) == 1);
        serve(true);
    }
    CHECK(wire_has_more(&wire, false) && wire_next(&wire, false) == 60 && memcmp(wire.frame, frame, 60) == 0);
    memcpy(bytes + 64, "\0\0\0\52", 4); /* 42 bytes, padded to 60 */
    memcpy(bytes + 68, frame, 42);
    CHECK(send(peer, bytes, 110, 0) == 110);
    serve(true);
    CHECK(wire_next(&wire, false) == 60 && wire_next(&wire, false) == 60);
    CHECK(memcmp(wire.frame, frame, 42) == 0 && wire.frame[42] == 0 && wire.frame[59] == 0);
    CHECK(wire_next(&wire, false) == 0 && !wire_has_more(&wire, false));
}

/* Sends a frame of this length in two pieces, of which the first ends `after` bytes after 65,536. Checks in between
   that the server continues to read, whatever the length. */
static void in_two_pieces(int peer, size_t length, size_t after)
{
    static uint8_t bytes[4 + 80000];
    size_t first = 65536 + after;
    for (unsigned int i = 0; i < 4; i++)
        bytes[i] = (uint8_t)(length >> 8 * (3 - i));
    for (size_t sent = 0; sent < first;) {
        ssize_t went = send(peer, bytes + sent, first - sent, MSG_DONTWAIT);
        sent += went > 0 ? (size_t)went : 0;
        serve(went > 0);
        CHECK(wire_next(&wire, false) == 0 && wire.file >= 0);
    }
    for (unsigned int i = 0; i < 100 && buffer_waiting(&wire.in) < first; i++)
        serve(true);
    CHECK(!wire_has_more(&wire, false) && buffer_waiting(&wire.in) == first);
    CHECK(send(peer, bytes + first, 4 + length - first, 0) == (ssize_t)(4 + length - first));
    serve(true);
    CHECK(wire_has_more(&wire, false));
}

/* Checks that a frame too long for any card is skipped, and that a length that no frame can have ends the
   connection. */
static void bad_lengths(int peer)
{
    static uint8_t bytes[68];
    in_two_pieces(peer, 65536, 1);
    CHECK(wire_next(&wire, false) == 65536 && wire.counts.too_long == 0);
    in_two_pieces(peer, 65540, 3);
    CHECK(wire_next(&wire, false) == 0 && wire.counts.too_long == 1);
    in_two_pieces(peer, WIRE_LENGTH_MOST, 0);
    memcpy(bytes, "\0\0\0\0\0\0\0\74", 8); /* an empty frame, then a frame of 60 bytes */
    CHECK(send(peer, bytes, 68, 0) == 68);
    for (unsigned int i = 0; i < 100 && !wire_next(&wire, false); i++)
        serve(true);
    CHECK(wire.counts.too_long == 2);
    memcpy(bytes, "\377\377\377\377", 4);
    CHECK(send(peer, bytes, 4, 0) == 4);
    serve(true);
    CHECK(wire_next(&wire, false) == 0 && wire.file < 0);
}

/* Serves until the other end has connected. */
static void serve_until_connected(void)
{
    while (wire.file < 0) {
        struct pollfd polls[WIRE_POLLS];
        wire_polls(&wire, polls, true);
        CHECK(poll(polls, WIRE_POLLS, wire_patience(&wire)) >= 0);
        wire_serve(&wire, polls);
    }
}

static void streams(void)
{
    const struct wire_options listens = {.kind = WIRE_LISTEN, .path = first_path};
    const struct wire_options connects = {.kind = WIRE_STREAM, .path = second_path};
    struct sockaddr_un name = name_of(first_path);
    uint8_t frame[100] = {0};
    CHECK(wire_open(&wire, &listens));
    wire_send(&wire, 0, frame, sizeof frame);
    CHECK(wire.counts.lost_nobody == 1 && wire.counts.out == 1);
    int peer = socket(AF_UNIX, SOCK_STREAM, 0);
    CHECK(connect(peer, (const struct sockaddr *)&name, sizeof name) == 0);
    serve(true);
    passes_a_stream(peer);
    bad_lengths(peer);
    close(peer);
    wire_close(&wire);
    /* the other way round: connects, at first without a listener */
    CHECK(wire_open(&wire, &connects) && wire.file < 0 && wire_patience(&wire) >= 0);
    int listener = socket(AF_UNIX, SOCK_STREAM, 0);
    name = name_of(second_path);
    unlink(second_path);
    CHECK(bind(listener, (const struct sockaddr *)&name, sizeof name) == 0 && listen(listener, 1) == 0);
    serve_until_connected();
    peer = accept(listener, NULL, NULL);
    CHECK(peer >= 0 && wire.file >= 0 && wire_patience(&wire) == -1);
    passes_a_stream(peer);
    close(peer);
    serve(true);
    CHECK(wire_next(&wire, false) == 0 && wire.file < 0); /* the other end has disconnected, and another one connects */
    serve_until_connected();
    peer = accept(listener, NULL, NULL);
    CHECK(peer >= 0);
    passes_a_stream(peer);
    close(peer);
    close(listener);
    wire_close(&wire);
}

/* Checks what happens if the other end doesn't read: a limited number of bytes is kept and arrives in whole frames; the
   remaining frames are lost and counted. */
static void a_full_end(void)
{
    const struct wire_options listens = {.kind = WIRE_LISTEN, .path = first_path};
    struct sockaddr_un name = name_of(first_path);
    static uint8_t frame[16000], got[4 + 16000];
    uint64_t sent = 0;
    CHECK(wire_open(&wire, &listens));
    int peer = socket(AF_UNIX, SOCK_STREAM, 0);
    CHECK(connect(peer, (const struct sockaddr *)&name, sizeof name) == 0);
    serve(true);
    for (; wire.counts.lost_full < 10; sent++) {
        make_frame(frame, sizeof frame, (unsigned int)sent);
        wire_send(&wire, 0, frame, sizeof frame);
    }
    CHECK(sent * sizeof frame > WIRE_KEPT && sent * sizeof frame < 2 * WIRE_KEPT);
    for (uint64_t i = 0; i < sent - 10; i++) {
        serve(false);
        take(peer, got, sizeof got);
        make_frame(frame, sizeof frame, (unsigned int)i);
        CHECK(memcmp(got + 4, frame, sizeof frame) == 0);
    }
    close(peer);
    wire_close(&wire);
}

/* Checks that gathered frames wait for wire_flush, or until enough bytes are waiting, and arrive in order. */
static void gathers(void)
{
    const struct wire_options listens = {.kind = WIRE_LISTEN, .path = first_path};
    struct sockaddr_un name = name_of(first_path);
    static uint8_t frame[16000], got[4 + 16000];
    CHECK(wire_open(&wire, &listens));
    wire_gather(&wire);
    int peer = socket(AF_UNIX, SOCK_STREAM, 0);
    CHECK(connect(peer, (const struct sockaddr *)&name, sizeof name) == 0);
    serve(true);
    for (unsigned int i = 0; i < 8; i++) {
        make_frame(frame, sizeof frame, i);
        wire_send(&wire, 0, frame, sizeof frame);
        bool is_out = recv(peer, got, 1, MSG_DONTWAIT | MSG_PEEK) == 1;
        CHECK(is_out == ((i + 1) * sizeof got >= WIRE_GATHERED));
    }
    wire_flush(&wire);
    for (unsigned int i = 0; i < 8; i++) {
        take(peer, got, sizeof got);
        make_frame(frame, sizeof frame, i);
        CHECK(memcmp(got + 4, frame, sizeof frame) == 0);
    }
    wire_send(&wire, 0, frame, 60);
    CHECK(recv(peer, got, 1, MSG_DONTWAIT) < 0 && errno == EAGAIN);
    wire_flush(&wire);
    take(peer, got, 64);
    close(peer);
    wire_close(&wire);
}

/* ---- datagrams ---- */

/* Waits until the wire's socket is connected to the other end. */
static void wait_for_other(void)
{
    struct sockaddr_un name;
    socklen_t length = sizeof name;
    while (getpeername(wire.file, (struct sockaddr *)&name, &length) != 0)
        usleep(1000);
}

static void datagrams(void)
{
    const struct wire_options options = {.kind = WIRE_DGRAM, .path = first_path, .peer = second_path};
    struct sockaddr_un name = name_of(second_path), own = name_of(first_path);
    static uint8_t frame[70000], got[20000];
    unsigned int count = 0;
    CHECK(wire_open(&wire, &options));
    wire_send(&wire, 0, frame, 60);
    CHECK(wire.counts.lost_nobody == 1);
    int peer = socket(AF_UNIX, SOCK_DGRAM, 0);
    unlink(second_path);
    CHECK(bind(peer, (const struct sockaddr *)&name, sizeof name) == 0);
    wait_for_other();
    /* until the other end's queue is full */
    for (; count < 100 || (count < DATAGRAMS && wire_patience(&wire) != 1); count++) {
        make_frame(frame, 1514, count);
        wire_send(&wire, 0, frame, 1514);
    }
    CHECK(wire_patience(&wire) == 1);
    for (unsigned int i = 0; i < count; i++) {
        serve(false);
        make_frame(frame, 1514, i);
        CHECK(recv(peer, got, sizeof got, 0) == 1514 && memcmp(got, frame, 1514) == 0);
    }
    CHECK(wire.counts.lost_nobody == 1 && wire.counts.lost_full == 0 && wire_patience(&wire) == -1);
    CHECK(sendto(peer, frame, sizeof frame, 0, (const struct sockaddr *)&own, sizeof own) == sizeof frame);
    CHECK(sendto(peer, frame, 77, 0, (const struct sockaddr *)&own, sizeof own) == 77);
    CHECK(wire_next(&wire, false) == 77 && memcmp(wire.frame, frame, 77) == 0 && wire.counts.too_long == 1);
    close(peer);
    unlink(second_path);
    wire_close(&wire);
    CHECK(access(first_path, F_OK) != 0);
}

/* ---- turns ---- */

/* Sends ten 60-byte frames from the other end, in a single write. */
static void send_ten(int peer, uint8_t mark)
{
    uint8_t bytes[10 * 64] = {0};
    for (unsigned int i = 0; i < 10; i++) {
        bytes[64 * i + 3] = 60;
        bytes[64 * i + 63] = mark;
    }
    CHECK(send(peer, bytes, sizeof bytes, 0) == sizeof bytes);
}

/* Checks that a full queue of hairpins for one sender blocks neither another sender's hairpins nor frames from the
   other end. */
static void turns(void)
{
    const struct wire_options listens = {.kind = WIRE_LISTEN, .path = first_path, .has_hairpin = true};
    struct sockaddr_un name = name_of(first_path);
    uint8_t frame[60] = {0};
    unsigned int from[3] = {0};
    CHECK(wire_open(&wire, &listens));
    while (wire.counts.lost_full == 0)
        wire_send(&wire, 1, frame, sizeof frame);
    CHECK(wire.counts.hairpins * 64 <= WIRE_COMING_BACK + 64);
    frame[59] = 1;
    for (unsigned int i = 0; i < 10; i++)
        wire_send(&wire, 2, frame, sizeof frame);
    CHECK(wire.counts.lost_full == 1);
    int peer = socket(AF_UNIX, SOCK_STREAM, 0);
    CHECK(connect(peer, (const struct sockaddr *)&name, sizeof name) == 0);
    serve(true);
    send_ten(peer, 2);
    serve(true);
    for (unsigned int i = 0; i < 40; i++) {
        CHECK(wire_next(&wire, false) == 60 && wire.frame[59] < 3);
        from[wire.frame[59]]++;
    }
    CHECK(from[0] == 20 && from[1] == 10 && from[2] == 10);
    close(peer);
    wire_close(&wire);
}

/* ---- captures ---- */

static void captures(void)
{
    const struct wire_options out = {.kind = WIRE_NONE, .has_hairpin = true, .capture = file_path};
    const struct wire_options in = {.kind = WIRE_NONE, .play = file_path};
    static uint8_t frame[2000];
    CHECK(wire_open(&wire, &out));
    for (unsigned int i = 0; i < 50; i++) {
        make_frame(frame, 60 + i, i);
        wire_send(&wire, 0, frame, 60 + i);
        CHECK(wire_next(&wire, false) == 60 + i); /* the frame comes back */
    }
    CHECK(wire.counts.hairpins == 50);
    wire_close(&wire);
    CHECK(wire_open(&wire, &in) && wire_next(&wire, false) == 0 && wire_has_more(&wire, true));
    for (unsigned int i = 0; i < 100; i++) { /* each frame was captured in both directions */
        make_frame(frame, 60 + i / 2, i / 2);
        CHECK(wire_next(&wire, true) == 60 + i / 2 && memcmp(wire.frame, frame, 60 + i / 2) == 0);
    }
    CHECK(wire_next(&wire, true) == 0 && !wire_has_more(&wire, true) && wire.counts.played == 100);
    wire_close(&wire);
}

/* Checks that a capture that is cut anywhere, or has any byte changed, ends early or is refused, with no other
   effect. */
static void spoilt_captures(void)
{
    static uint8_t bytes[4096], frame[WIRE_FRAME_MOST];
    FILE *file = fopen(file_path, "rb");
    size_t all = fread(bytes, 1, sizeof bytes, file), length;
    fclose(file);
    for (unsigned int i = 0; i < 3000; i++) {
        struct capture_reader reader;
        FILE *spoilt = tmpfile();
        size_t at = chance() % all, end = i % 2 ? all : at;
        uint8_t kept = bytes[at];
        bytes[at] = (uint8_t)chance();
        CHECK(fwrite(bytes, 1, end, spoilt) == end && fseek(spoilt, 0, SEEK_SET) == 0);
        bytes[at] = kept;
        if (capture_open(&reader, spoilt))
            for (unsigned int k = 0; capture_next(&reader, frame, sizeof frame, &length) == CAPTURE_FRAME; k++)
                CHECK(k < 100 && length <= sizeof frame);
        fclose(spoilt);
    }
}

/* ---- the responder ---- */

/* Sends random requests: each answer must have the request's length and go back to the sender. */
static void answers(void)
{
    static const uint8_t own[6] = {2, 0, 0, 0, 0, 1};
    uint8_t frame[200], reply[200];
    unsigned int answered = 0;
    for (unsigned int i = 0; i < 200000; i++) {
        size_t length = chance() % sizeof frame;
        for (size_t k = 0; k < length; k++)
            frame[k] = (uint8_t)chance();
        if (length > 14 && i % 2)
            memcpy(frame + 12, i % 4 == 1 ? "\10\6" : "\10\0\105\0\0\34\0\0\0\0\100\1", i % 4 == 1 ? 2 : 12);
        if (length > 42 && i % 3)
            memcpy(frame + (i % 4 == 1 ? 38 : 30), "\12\0\0\1", 4);
        if (length > 36 && i % 4 == 1)
            frame[20] = 0, frame[21] = 1;
        size_t got = respond(frame, length, own, 0x0A000001, reply);
        CHECK(got == 0 || (got == length && memcmp(reply, frame + 6, 6) == 0 && memcmp(reply + 6, own, 6) == 0));
        answered += got != 0;
    }
    CHECK(answered > 1000);
}

int main(int count, char **words)
{
    CHECK(count == 2);
    snprintf(first_path, sizeof first_path, "%s/first", words[1]);
    snprintf(second_path, sizeof second_path, "%s/second", words[1]);
    snprintf(file_path, sizeof file_path, "%s/capture", words[1]);
    streams();
    a_full_end();
    gathers();
    datagrams();
    turns();
    captures();
    spoilt_captures();
    answers();
    printf("wires: passed\n");
    return 0;
}
