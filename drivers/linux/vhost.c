#define _GNU_SOURCE /* accept4, MSG_CMSG_CLOEXEC */
#include "vhost.h"

#include <errno.h>
#include <inttypes.h>
#include <stdio.h>
#include <string.h>
#include <sys/mman.h>
#include <sys/socket.h>
#include <sys/un.h>
#include <unistd.h>

#include "verdict.h"

enum request {
    GET_FEATURES = 1,
    SET_FEATURES = 2,
    SET_OWNER = 3,
    SET_MEM_TABLE = 5,
    SET_VRING_NUM = 8,
    SET_VRING_ADDR = 9,
    SET_VRING_BASE = 10,
    SET_VRING_KICK = 12,
    SET_VRING_CALL = 13,
    SET_VRING_ERR = 14,
    GET_PROTOCOL_FEATURES = 15,
    SET_PROTOCOL_FEATURES = 16,
    SET_VRING_ENABLE = 18,
    SET_SLAVE_REQ_FD = 21,
    VRING_KICK = 35
};
#define CALL_REQUEST 4u /* request from this end: interrupts the guest for a ring */

/* request flags */
#define VERSION 1u
#define IS_REPLY 4u
#define NEEDS_REPLY 8u

/* features: virtio 1 and protocol features; protocol features: replies, requests from this end, kicks in the socket */
#define FEATURES (UINT64_C(1) << 32 | UINT64_C(1) << 30)
#define PROTOCOL_FEATURES (UINT64_C(1) << 3 | UINT64_C(1) << 5 | UINT64_C(1) << 14)

/* flags of a ring's descriptor */
#define HAS_NEXT 1u
#define IS_WRITTEN 2u

#define REGIONS 8
#define DESCRIPTORS_PASSED 8

struct header {
    uint32_t request, flags, size;
};

struct region {
    uint64_t guest, size, user, offset;
};

/* The payload of a request; the layouts have no padding. */
union body {
    uint64_t number;
    struct {
        uint32_t index, value;
    } ring;
    struct {
        uint32_t index, flags;
        uint64_t descriptors, used, available, log;
    } addresses;
    struct {
        uint32_t count, padding;
        struct region regions[REGIONS];
    } memory;
    uint8_t bytes[512];
};

struct request_message {
    struct header header;
    union body body;
    int files[DESCRIPTORS_PASSED];
    unsigned int file_count;
};

struct ring_descriptor {
    uint64_t address;
    uint32_t length;
    uint16_t flags, next;
};

static struct {
    unsigned char *at;
    uint64_t first, bytes;
} memory; /* the guest's; shared by all its devices */

void *vhost_memory(uint64_t address, uint64_t length)
{
    if (address < memory.first || length > memory.bytes || address - memory.first > memory.bytes - length)
        return NULL;
    return memory.at + (address - memory.first);
}

uint64_t vhost_memory_first(void)
{
    return memory.first;
}

uint64_t vhost_memory_bytes(void)
{
    return memory.bytes;
}

/* ---- the connection ---- */

/* The socket gets its name only when it listens, so the guest can connect as soon as the name exists. */
bool vhost_listen(struct vhost *vhost, const char *path)
{
    struct sockaddr_un name = {.sun_family = AF_UNIX};
    int length = snprintf(name.sun_path, sizeof name.sun_path, "%s~", path);
    vhost->socket = vhost->calls = -1;
    vhost->listener = socket(AF_UNIX, SOCK_STREAM | SOCK_CLOEXEC, 0);
    if (length < 0 || (size_t)length >= sizeof name.sun_path) {
        problem("%s is too long for a socket's name", path);
        return false;
    }
    unlink(name.sun_path);
    if (vhost->listener < 0 || bind(vhost->listener, (struct sockaddr *)&name, sizeof name) != 0 ||
        listen(vhost->listener, 1) != 0 || rename(name.sun_path, path) != 0) {
        problem("can't create the socket %s: %s", path, strerror(errno));
        return false;
    }
    return true;
}

bool vhost_accept(struct vhost *vhost)
{
    vhost->socket = accept4(vhost->listener, NULL, NULL, SOCK_CLOEXEC);
    if (vhost->socket < 0)
        problem("can't accept the guest's connection: %s", strerror(errno));
    return vhost->socket >= 0;
}

static void close_file(int *file)
{
    if (*file >= 0)
        close(*file);
    *file = -1;
}

void vhost_close(struct vhost *vhost)
{
    close_file(&vhost->listener);
    close_file(&vhost->socket);
    close_file(&vhost->calls);
}

static void put_all(int file, const void *bytes, size_t length)
{
    const unsigned char *at = bytes;
    while (length) {
        ssize_t put = send(file, at, length, MSG_NOSIGNAL);
        if (put < 0 && errno == EINTR)
            continue;
        if (put <= 0)
            return; /* the guest is gone; the next read reports it */
        at += put;
        length -= (size_t)put;
    }
}

static bool take_all(int file, void *bytes, size_t length)
{
    unsigned char *at = bytes;
    while (length) {
        ssize_t got = read(file, at, length);
        if (got < 0 && errno == EINTR)
            continue;
        if (got <= 0)
            return false;
        at += got;
        length -= (size_t)got;
    }
    return true;
}

static void keep_files(struct request_message *message, struct msghdr *header)
{
    for (struct cmsghdr *it = CMSG_FIRSTHDR(header); it; it = CMSG_NXTHDR(header, it)) {
        if (it->cmsg_level != SOL_SOCKET || it->cmsg_type != SCM_RIGHTS)
            continue;
        message->file_count = (unsigned int)((it->cmsg_len - CMSG_LEN(0)) / sizeof(int));
        memcpy(message->files, CMSG_DATA(it), message->file_count * sizeof(int));
    }
}

static bool take_message(int socket, struct request_message *message)
{
    _Alignas(struct cmsghdr) char control[CMSG_SPACE(DESCRIPTORS_PASSED * sizeof(int))];
    struct iovec part = {&message->header, sizeof message->header};
    struct msghdr header = {
        .msg_iov = &part, .msg_iovlen = 1, .msg_control = control, .msg_controllen = sizeof control};
    ssize_t got;
    message->file_count = 0;
    do
        got = recvmsg(socket, &header, MSG_CMSG_CLOEXEC | MSG_WAITALL);
    while (got < 0 && errno == EINTR);
    if (got != (ssize_t)sizeof message->header)
        return false;
    keep_files(message, &header);
    return message->header.size <= sizeof message->body && take_all(socket, &message->body, message->header.size);
}

static void put_message(int socket, uint32_t request, uint32_t flags, const void *body)
{
    struct {
        struct header header;
        uint8_t body[8];
    } message = {.header = {request, VERSION | flags, sizeof message.body}};
    memcpy(message.body, body, sizeof message.body);
    put_all(socket, &message, sizeof message);
}

static void reply(const struct vhost *vhost, uint32_t request, uint64_t number)
{
    put_message(vhost->socket, request, IS_REPLY, &number);
}

/* ---- requests ---- */

static void set_memory(const struct request_message *message)
{
    const struct region *region = &message->body.memory.regions[0];
    if (message->body.memory.count == 0 || message->file_count == 0) {
        problem("the guest reported no memory");
        return;
    }
    if (memory.at)
        return; /* another device of the same guest has already set it */
    void *at = mmap(NULL, region->size, PROT_READ | PROT_WRITE, MAP_SHARED, message->files[0], (off_t)region->offset);
    if (at == MAP_FAILED) {
        problem("the guest's memory can't be mapped: %s", strerror(errno));
        return;
    }
    memory.at = at;
    memory.first = region->guest;
    memory.bytes = region->size;
}

static void set_ring(struct vhost *vhost, const struct request_message *message)
{
    uint32_t value = message->body.ring.value;
    if (message->body.ring.index >= VHOST_RINGS) {
        problem("the guest set up ring %u, which doesn't exist", message->body.ring.index);
        return;
    }
    struct vhost_ring *ring = &vhost->rings[message->body.ring.index];
    switch (message->header.request) {
    case SET_VRING_NUM: ring->slots = value; break;
    case SET_VRING_BASE:
        ring->taken = (uint16_t)value;
        ring->given = 0;
        break;
    case SET_VRING_ADDR:
        ring->descriptors = message->body.addresses.descriptors;
        ring->available = message->body.addresses.available;
        ring->used = message->body.addresses.used;
        break;
    case SET_VRING_ENABLE: ring->is_on = value != 0; break;
    default: vhost->kicked(vhost->owner, message->body.ring.index); break;
    }
}

/* Returns true if it has sent the reply itself. */
static bool serve(struct vhost *vhost, struct request_message *message)
{
    switch (message->header.request) {
    case GET_FEATURES: reply(vhost, GET_FEATURES, FEATURES); return true;
    case GET_PROTOCOL_FEATURES: reply(vhost, GET_PROTOCOL_FEATURES, PROTOCOL_FEATURES); return true;
    case SET_MEM_TABLE: set_memory(message); return false;
    case SET_SLAVE_REQ_FD:
        close_file(&vhost->calls);
        if (message->file_count)
            vhost->calls = message->files[--message->file_count];
        return false;
    case SET_VRING_NUM:
    case SET_VRING_BASE:
    case SET_VRING_ADDR:
    case SET_VRING_ENABLE:
    case VRING_KICK: set_ring(vhost, message); return false;
    case SET_FEATURES:
    case SET_PROTOCOL_FEATURES:
    case SET_OWNER:
    case SET_VRING_KICK:
    case SET_VRING_CALL:
    case SET_VRING_ERR: return false;
    default: problem("unknown vhost-user request %u", message->header.request); return false;
    }
}

bool vhost_serve(struct vhost *vhost)
{
    struct request_message message;
    if (!take_message(vhost->socket, &message))
        return false;
    bool is_answered = serve(vhost, &message);
    while (message.file_count)
        close(message.files[--message.file_count]);
    if (!is_answered && message.header.flags & NEEDS_REPLY)
        reply(vhost, message.header.request, 0);
    return true;
}

/* ---- rings ---- */

/* Adds the bytes of one descriptor to a message. Returns false if they aren't in the guest's memory or make the message
   too long. */
static bool add_part(struct vhost_chain *chain, const struct ring_descriptor *part)
{
    uint8_t *bytes = vhost_memory(part->address, part->length);
    if (!bytes || (!(part->flags & IS_WRITTEN) && part->length > VHOST_MESSAGE - chain->out_length))
        return false;
    if (part->flags & IS_WRITTEN) {
        chain->in = bytes;
        chain->in_length = part->length;
    } else {
        memcpy(chain->out + chain->out_length, bytes, part->length);
        chain->out_length += part->length;
    }
    return true;
}

static bool read_chain(struct vhost_chain *chain, const struct ring_descriptor *parts, uint32_t slots)
{
    uint16_t at = chain->head;
    chain->out_length = chain->in_length = 0;
    chain->in = NULL;
    for (uint32_t count = 0; count < slots; count++) {
        if (at >= slots || !add_part(chain, &parts[at]))
            break;
        if (!(parts[at].flags & HAS_NEXT))
            return true;
        at = parts[at].next;
    }
    problem("a message from the guest isn't in its memory, or is too long");
    return false;
}

bool vhost_take(struct vhost *vhost, unsigned int number, struct vhost_chain *chain)
{
    struct vhost_ring *ring = &vhost->rings[number];
    const volatile uint16_t *available = vhost_memory(ring->available, 4 + UINT64_C(2) * ring->slots);
    const struct ring_descriptor *parts = vhost_memory(ring->descriptors, sizeof *parts * (uint64_t)ring->slots);
    if (!ring->is_on || !ring->slots || !available || !parts)
        return false;
    __atomic_thread_fence(__ATOMIC_SEQ_CST);
    if (available[1] == ring->taken)
        return false;
    chain->head = available[2 + ring->taken++ % ring->slots];
    return read_chain(chain, parts, ring->slots);
}

void vhost_give(struct vhost *vhost, unsigned int number, const struct vhost_chain *chain, uint32_t written)
{
    struct vhost_ring *ring = &vhost->rings[number];
    volatile uint16_t *used = vhost_memory(ring->used, 4 + UINT64_C(8) * ring->slots);
    if (!used)
        return;
    volatile uint32_t *slot = (volatile uint32_t *)(used + 2) + 2 * (ring->given % ring->slots);
    slot[0] = chain->head;
    slot[1] = written;
    __atomic_thread_fence(__ATOMIC_SEQ_CST);
    used[1] = ++ring->given;
}

void vhost_call(struct vhost *vhost, unsigned int ring)
{
    uint32_t body[2] = {ring, 0};
    put_message(vhost->calls, CALL_REQUEST, 0, body);
}
