#define _GNU_SOURCE
#include "wire.h"

#include <errno.h>
#include <fcntl.h>
#include <string.h>
#include <sys/socket.h>
#include <sys/stat.h>
#include <unistd.h>

#include "closer.h"
#include "local_socket.h"
#include "log.h"
#include "respond.h"

#define LENGTH_BYTES 4u
#define FRAME_LEAST 60u
#define STREAM_ROOM (64u << 10)
#define CAPTURE_END_MS 1000 /* limit for writing the remaining part of a capture on exit */
#define SOCKET_BYTES (4 << 20)
#define PASSED_OVER_MOST 8u /* invalid datagrams before others have their turn */

static const uint8_t responder[6] = {0x02, 0x00, 0x00, 0x00, 0x00, 0x01};

/* ---- sockets ---- */

static void hang_up(struct wire *it)
{
    if (it->file >= 0)
        closer_close_foreign(it->file, CLOSER_WIRE);
    it->file = -1;
    buffer_clear(&it->in);
    buffer_clear(&it->out);
}

static const char *open_datagrams(struct wire *it)
{
    int bytes = SOCKET_BYTES;
    const char *error = local_bind(&it->file, SOCK_DGRAM, it->options.path);
    if (error)
        return error;
    setsockopt(it->file, SOL_SOCKET, SO_SNDBUF, &bytes, sizeof bytes);
    if (!connector_start_datagrams(&it->connector, it->file, it->options.peer, it->options.is_confined))
        return strerror(errno);
    connector_wait(&it->connector);
    return NULL;
}

static void has_end(struct wire *it, int file)
{
    it->file = file;
    it->had_end |= file >= 0;
}

static const char *open_stream(struct wire *it)
{
    if (!connector_start_stream(&it->connector, it->options.path, it->options.is_confined))
        return strerror(errno);
    connector_ask(&it->connector);
    has_end(it, connector_wait(&it->connector));
    if (it->file < 0)
        log_line(LOG_WIRE, "%s: no program listens there yet; frames are lost until one does", it->options.path);
    return NULL;
}

/* ---- the other end ---- */

void wire_cut(struct wire *it, bool is_cut)
{
    if (it->options.kind != WIRE_STREAM && it->options.kind != WIRE_LISTEN)
        return;
    it->is_cut = is_cut;
    if (is_cut)
        hang_up(it);
    it->had_end = it->file >= 0;
}

bool wire_is_gone(const struct wire *it)
{
    return it->had_end && it->file < 0;
}

static void put_length(uint8_t *to, size_t length)
{
    for (unsigned int i = 0; i < LENGTH_BYTES; i++)
        to[i] = (uint8_t)(length >> 8 * (LENGTH_BYTES - 1 - i));
}

static size_t get_length(const uint8_t *at)
{
    size_t length = 0;
    for (unsigned int i = 0; i < LENGTH_BYTES; i++)
        length = length << 8 | at[i];
    return length;
}

static void flush_stream(struct wire *it)
{
    while (buffer_waiting(&it->out)) {
        ssize_t went = send(it->file, buffer_front(&it->out), buffer_waiting(&it->out), MSG_NOSIGNAL | MSG_DONTWAIT);
        if (went < 0 && errno == EINTR)
            continue;
        if (went < 0 && (errno == EAGAIN || errno == EWOULDBLOCK))
            return;
        if (went < 0) {
            hang_up(it);
            return;
        }
        buffer_take(&it->out, (size_t)went);
    }
}

/* A datagram is sent whole or not at all. Datagrams wait here while the other end's queue is full, and are lost if the
   other end doesn't exist. The connector resolves the other end's name, because that may access a file system that
   doesn't answer. */
static void flush_datagrams(struct wire *it)
{
    while (buffer_waiting(&it->out)) {
        const uint8_t *front = buffer_front(&it->out);
        size_t length = get_length(front);
        ssize_t went = send(it->file, front + LENGTH_BYTES, length, MSG_NOSIGNAL | MSG_DONTWAIT);
        if (went < 0 && errno == EINTR)
            continue;
        if (went < 0 && (errno == EAGAIN || errno == EWOULDBLOCK || errno == ENOBUFS))
            return;
        it->counts.lost_nobody += went < 0;
        buffer_take(&it->out, LENGTH_BYTES + length);
    }
}

void wire_flush(struct wire *it)
{
    if (it->file < 0)
        return;
    if (it->options.kind == WIRE_DGRAM)
        flush_datagrams(it);
    else
        flush_stream(it);
}

/* Stores a frame after its length. Drops the frame if more than `most` bytes would wait. */
static bool keep(struct wire *it, struct buffer *buffer, size_t most, const uint8_t *frame, size_t length)
{
    uint8_t head[LENGTH_BYTES];
    put_length(head, length);
    if (buffer_waiting(buffer) + length <= most && buffer_put(buffer, head, sizeof head, frame, length))
        return true;
    it->counts.lost_full++;
    return false;
}

static void send_out(struct wire *it, const uint8_t *frame, size_t length)
{
    if (it->file < 0) {
        it->counts.lost_nobody++;
        return;
    }
    size_t before = buffer_waiting(&it->out), most = it->gathers ? WIRE_GATHERED : 1;
    if (keep(it, &it->out, WIRE_KEPT, frame, length) && before < most && buffer_waiting(&it->out) >= most)
        wire_flush(it);
}

static void capture(struct wire *it, enum capture_direction direction, const uint8_t *frame, size_t length)
{
    if (it->capture.file < 0)
        return;
    capture_write(&it->capture, direction, frame, length);
    if (!it->capture.error)
        return;
    log_line(LOG_WIRE, "can't write %s, so the capture ends here: %s", it->options.capture,
             strerror(it->capture.error));
    output_end(&it->capture, 0);
}

void wire_gather(struct wire *it)
{
    it->gathers = true;
}

/* Keeps a reply to a frame from this sender, or the frame's copy from the hairpin. Returns whether it was kept. */
static bool comes_back(struct wire *it, unsigned int sender, const uint8_t *frame, size_t length)
{
    return keep(it, &it->local[sender % WIRE_SENDERS], WIRE_COMING_BACK, frame, length);
}

void wire_send(struct wire *it, unsigned int sender, const uint8_t *frame, size_t length)
{
    static uint8_t reply[WIRE_FRAME_MOST];
    it->counts.out++;
    it->counts.out_bytes += length;
    capture(it, CAPTURE_OUT, frame, length);
    if (length > WIRE_FRAME_MOST) {
        it->counts.too_long++;
        return;
    }
    if (it->options.kind == WIRE_RESPOND) {
        size_t answer = respond(frame, length, responder, it->options.address, reply);
        it->counts.replies += answer && comes_back(it, sender, reply, answer);
    } else if (it->options.kind != WIRE_NONE) {
        send_out(it, frame, length);
    }
    if (it->options.has_hairpin)
        it->counts.hairpins += comes_back(it, sender, frame, length);
}

/* ---- frames for the card ---- */

/* Returns the sender with waiting frames whose turn it is; WIRE_SENDERS if nothing is waiting. */
static unsigned int next_local(const struct wire *it)
{
    for (unsigned int i = 0; i < WIRE_SENDERS; i++) {
        unsigned int sender = (it->next_local + i) % WIRE_SENDERS;
        if (buffer_waiting(&it->local[sender]))
            return sender;
    }
    return WIRE_SENDERS;
}

static size_t from_local(struct wire *it)
{
    unsigned int sender = next_local(it);
    if (sender == WIRE_SENDERS)
        return 0;
    struct buffer *buffer = &it->local[sender];
    size_t length = get_length(buffer_front(buffer));
    memcpy(it->frame, buffer_front(buffer) + LENGTH_BYTES, length);
    buffer_take(buffer, LENGTH_BYTES + length);
    it->next_local = sender + 1;
    return length;
}

/* Returns whether the received bytes contain a whole frame, or can't be a frame. If neither, more has to be read. */
static bool has_frame(const struct wire *it)
{
    size_t waiting = buffer_waiting(&it->in);
    if (waiting < LENGTH_BYTES)
        return false;
    size_t length = get_length(buffer_front(&it->in));
    return length > WIRE_LENGTH_MOST || waiting >= LENGTH_BYTES + length;
}

static void read_stream(struct wire *it)
{
    static const uint8_t nothing[1];
    uint8_t bytes[STREAM_ROOM];
    if (has_frame(it))
        return;
    ssize_t got = closer_receive(it->file, bytes, sizeof bytes, MSG_DONTWAIT, CLOSER_WIRE);
    if (got > 0 && buffer_put(&it->in, nothing, 0, bytes, (size_t)got))
        return;
    if (got < 0 && (errno == EAGAIN || errno == EWOULDBLOCK || errno == EINTR))
        return;
    hang_up(it);
}

/* An impossible length ends the connection, because the bytes after it can't be divided into frames. */
static size_t from_stream(struct wire *it)
{
    while (buffer_waiting(&it->in) >= LENGTH_BYTES) {
        size_t length = get_length(buffer_front(&it->in));
        if (length > WIRE_LENGTH_MOST) {
            log_line(LOG_WIRE, "%s: a %zu-byte frame isn't valid, so the wire's other end is disconnected",
                     it->options.path, length);
            hang_up(it);
            return 0;
        }
        if (buffer_waiting(&it->in) < LENGTH_BYTES + length)
            return 0;
        bool fits = length <= WIRE_FRAME_MOST;
        if (fits)
            memcpy(it->frame, buffer_front(&it->in) + LENGTH_BYTES, length);
        buffer_take(&it->in, LENGTH_BYTES + length);
        if (fits && length)
            return length;
        it->counts.too_long += !fits;
    }
    return 0;
}

static size_t from_datagram(struct wire *it)
{
    for (unsigned int i = 0; i < PASSED_OVER_MOST && !closer_is_full(CLOSER_WIRE); i++) {
        ssize_t got = closer_receive(it->file, it->frame, sizeof it->frame, MSG_DONTWAIT | MSG_TRUNC, CLOSER_WIRE);
        if (got <= 0)
            return 0;
        if ((size_t)got <= sizeof it->frame)
            return (size_t)got;
        it->counts.too_long++;
    }
    return 0;
}

static size_t from_file(struct wire *it)
{
    size_t length = 0;
    if (!it->played)
        return 0;
    enum capture_next next = capture_next(&it->play, it->frame, sizeof it->frame, &length);
    if (next == CAPTURE_FRAME) {
        it->counts.played++;
        return length;
    }
    if (next == CAPTURE_BROKEN)
        log_line(LOG_WIRE, "%s: stopped after %llu frames, because the next one isn't a complete Ethernet frame",
                 it->options.play, (unsigned long long)it->counts.played);
    fclose(it->played);
    it->played = NULL;
    return 0;
}

static size_t from_others(struct wire *it, bool plays)
{
    size_t length = 0;
    if (it->file >= 0)
        length = it->options.kind == WIRE_DGRAM ? from_datagram(it) : from_stream(it);
    return !length && plays ? from_file(it) : length;
}

size_t wire_next(struct wire *it, bool plays)
{
    size_t length = it->others_turn ? from_others(it, plays) : from_local(it);
    if (!length)
        length = it->others_turn ? from_local(it) : from_others(it, plays);
    it->others_turn = !it->others_turn;
    if (!length)
        return 0;
    if (length < FRAME_LEAST) { /* on a real wire the sender pads short frames */
        memset(it->frame + length, 0, FRAME_LEAST - length);
        length = FRAME_LEAST;
    }
    it->counts.in++;
    it->counts.in_bytes += length;
    capture(it, CAPTURE_IN, it->frame, length);
    return length;
}

/* ---- events ---- */

void wire_polls(const struct wire *it, struct pollfd *polls, bool takes)
{
    bool reads = takes && !closer_is_full(CLOSER_WIRE);
    short events = (short)((reads ? POLLIN : 0) | (buffer_waiting(&it->out) ? POLLOUT : 0));
    polls[0] = (struct pollfd){.fd = events ? it->file : -1, .events = events};
    polls[1] =
        (struct pollfd){.fd = local_rests() || closer_is_full(CLOSER_WIRE) ? -1 : it->listener, .events = POLLIN};
    if (it->is_cut)
        polls[1].fd = -1;
    else if (it->options.kind == WIRE_STREAM)
        polls[1].fd = connector_file(&it->connector);
    /* whether a datagram can be sent depends on the other end's queue, which poll doesn't see */
    if (it->options.kind == WIRE_DGRAM)
        polls[0].events &= ~POLLOUT;
}

/* Takes the requested stream, or requests one. */
static void call(struct wire *it, bool is_answered)
{
    if (is_answered)
        has_end(it, connector_take(&it->connector));
    if (it->file < 0 && !closer_is_full(CLOSER_WIRE))
        connector_ask(&it->connector);
}

static void accept_one(struct wire *it)
{
    int file = local_accept(it->listener);
    if (file < 0)
        return;
    hang_up(it);
    has_end(it, file);
}

void wire_serve(struct wire *it, const struct pollfd *polls)
{
    if (it->is_cut)
        return;
    if (it->options.kind == WIRE_STREAM) {
        call(it, polls[1].revents != 0);
    } else if (polls[1].revents) {
        accept_one(it);
        return;
    }
    wire_flush(it);
    if (it->file >= 0 && it->options.kind != WIRE_DGRAM && polls[0].revents & (POLLIN | POLLHUP | POLLERR))
        read_stream(it);
}

bool wire_has_more(const struct wire *it, bool plays)
{
    if (next_local(it) < WIRE_SENDERS || (plays && it->played))
        return true;
    return has_frame(it);
}

int wire_patience(const struct wire *it)
{
    if ((it->options.kind == WIRE_DGRAM && buffer_waiting(&it->out)) || closer_is_full(CLOSER_WIRE))
        return 1;
    return it->options.kind == WIRE_STREAM && it->file < 0 && !it->is_cut ? connector_patience(&it->connector) : -1;
}

/* ---- opening and closing ---- */

/* Returns null, or why it can't open the wire. If no process listens for a stream yet, it connects later. */
static const char *open_socket(struct wire *it)
{
    struct sockaddr_un name;
    const struct wire_options *options = &it->options;
    if (options->kind == WIRE_NONE || options->kind == WIRE_RESPOND)
        return NULL;
    if (!local_name(&name, options->path) || (options->kind == WIRE_DGRAM && !local_name(&name, options->peer)))
        return strerror(ENAMETOOLONG);
    if (options->kind == WIRE_DGRAM)
        return open_datagrams(it);
    if (options->kind == WIRE_LISTEN)
        return local_listen(&it->listener, options->path, 1);
    return open_stream(it);
}

static bool open_capture(struct wire *it, const char *name)
{
    if (!output_create(&it->capture, name)) {
        log_line(LOG_SERVER, "can't write %s: %s", name,
                 errno == ENXIO ? "no process reads this FIFO; start its reader first" : strerror(errno));
        return false;
    }
    capture_begin(&it->capture);
    return true;
}

static bool open_played(struct wire *it, const char *name)
{
    struct stat about;
    int file = open(name, O_RDONLY | O_CLOEXEC | O_NONBLOCK | O_NOCTTY);
    bool is_file = file >= 0 && fstat(file, &about) == 0 && S_ISREG(about.st_mode);
    it->played = is_file ? fdopen(file, "rb") : NULL;
    if (!it->played && file >= 0)
        close(file);
    if (it->played && capture_open(&it->play, it->played))
        return true;
    log_line(LOG_SERVER, "%s can't be opened, or isn't a capture of Ethernet frames", name);
    return false;
}

bool wire_open(struct wire *it, const struct wire_options *options)
{
    *it = (struct wire){.options = *options, .file = -1, .listener = -1, .capture = {.file = -1}};
    connector_begin(&it->connector);
    const char *error = open_socket(it);
    if (error) {
        log_line(LOG_SERVER, "can't connect the wire at %s: %s", options->path, error);
        return false;
    }
    return (!options->capture || open_capture(it, options->capture)) &&
           (!options->play || open_played(it, options->play));
}

void wire_close(struct wire *it)
{
    bool has_name = it->listener >= 0 || (it->options.kind == WIRE_DGRAM && it->file >= 0);
    hang_up(it);
    connector_end(&it->connector);
    for (unsigned int sender = 0; sender < WIRE_SENDERS; sender++)
        buffer_clear(&it->local[sender]);
    if (it->listener >= 0)
        close(it->listener);
    if (has_name)
        local_forget(it->options.path);
    output_end(&it->capture, CAPTURE_END_MS);
    if (it->played)
        fclose(it->played);
}
