#define _GNU_SOURCE
#include "channel.h"

#include <errno.h>
#include <string.h>
#include <sys/socket.h>

#include "closer.h"

void channel_begin(struct channel *it, int file, unsigned int owner)
{
    it->file = file;
    it->owner = owner;
    it->in_at = it->in_end = 0;
    it->file_count = 0;
    it->out = (struct buffer){0};
}

void channel_end(struct channel *it)
{
    if (it->file >= 0)
        closer_close_foreign(it->file, it->owner);
    for (unsigned int i = 0; i < it->file_count; i++)
        closer_close(it->files[i].file, it->owner);
    buffer_clear(&it->out);
    channel_begin(it, -1, it->owner);
}

/* ---- receiving ---- */

/* Moves the remaining bytes to the front. */
static void settle(struct channel *it)
{
    memmove(it->in, it->in + it->in_at, it->in_end - it->in_at);
    for (unsigned int i = 0; i < it->file_count; i++)
        it->files[i].end -= it->in_at;
    it->in_end -= it->in_at;
    it->in_at = 0;
}

/* Keeps the files that arrived with the bytes just read, which end at in_end. Closes the files for which no room is
   left. Returns false if a file was lost. */
static bool take_files(struct channel *it, struct msghdr *head)
{
    bool fits = !(head->msg_flags & MSG_CTRUNC);
    for (struct cmsghdr *c = CMSG_FIRSTHDR(head); c; c = CMSG_NXTHDR(head, c)) {
        if (c->cmsg_level != SOL_SOCKET || c->cmsg_type != SCM_RIGHTS)
            continue;
        size_t count = (c->cmsg_len - CMSG_LEN(0)) / sizeof(int);
        for (size_t i = 0; i < count; i++) {
            int file;
            memcpy(&file, CMSG_DATA(c) + i * sizeof file, sizeof file);
            if (it->file_count == CHANNEL_FILES) {
                closer_close(file, it->owner);
                fits = false;
                continue;
            }
            it->files[it->file_count].file = file;
            it->files[it->file_count++].end = it->in_end;
        }
    }
    return fits;
}

/* The kernel ends a read after the bytes that were sent with files, so the files belong to the last message that was
   read. */
enum channel_state channel_receive(struct channel *it)
{
    union {
        struct cmsghdr aligned;
        char room[CMSG_SPACE(CHANNEL_FILES_AT_ONCE * sizeof(int))];
    } control;
    settle(it);
    struct iovec part = {it->in + it->in_end, sizeof it->in - it->in_end};
    struct msghdr head = {
        .msg_iov = &part, .msg_iovlen = 1, .msg_control = control.room, .msg_controllen = sizeof control.room};
    if (part.iov_len == 0)
        return CHANNEL_OPEN;
    ssize_t got = recvmsg(it->file, &head, MSG_CMSG_CLOEXEC | MSG_DONTWAIT);
    if (got < 0 && (errno == EINTR || errno == EAGAIN || errno == EWOULDBLOCK))
        return CHANNEL_OPEN;
    if (got <= 0)
        return CHANNEL_GONE;
    it->in_end += (size_t)got;
    return take_files(it, &head) ? CHANNEL_OPEN : CHANNEL_WRONG;
}

/* Gives a message its files: those that arrived up to byte `end`, where the message ends. If there are too many, closes
   the surplus and returns false. */
static bool give_files(struct channel *it, struct message *message, size_t end)
{
    unsigned int left = 0;
    bool fits = true;
    message->owner = it->owner;
    message->file_count = 0;
    for (unsigned int i = 0; i < it->file_count; i++) {
        if (it->files[i].end > end) {
            it->files[left++] = it->files[i];
        } else if (message->file_count == VFU_FILES_MOST) {
            closer_close(it->files[i].file, it->owner);
            fits = false;
        } else {
            message->files[message->file_count++] = it->files[i].file;
        }
    }
    it->file_count = left;
    return fits;
}

bool channel_next(struct channel *it, struct message *message, enum channel_state *state)
{
    size_t have = it->in_end - it->in_at;
    if (have < sizeof message->head)
        return false;
    memcpy(&message->head, it->in + it->in_at, sizeof message->head);
    if (message->head.size < sizeof message->head || message->head.size > VFU_MESSAGE_MOST) {
        *state = CHANNEL_WRONG;
        return false;
    }
    if (have < message->head.size)
        return false;
    message->length = message->head.size - (unsigned int)sizeof message->head;
    memcpy(message->body.bytes, it->in + it->in_at + sizeof message->head, message->length);
    it->in_at += message->head.size;
    if (give_files(it, message, it->in_at))
        return true;
    message_drop_files(message);
    *state = CHANNEL_WRONG;
    return false;
}

void message_drop_files(struct message *message)
{
    for (unsigned int i = 0; i < message->file_count; i++)
        if (message->files[i] >= 0)
            closer_close(message->files[i], message->owner);
    message->file_count = 0;
}

/* ---- sending ---- */

size_t channel_waiting(const struct channel *it)
{
    return buffer_waiting(&it->out);
}

/* Returns the number of bytes sent, or -1 if the client has disconnected. */
static ssize_t try_to_send(const struct channel *it, const uint8_t *bytes, size_t length)
{
    for (;;) {
        ssize_t went = send(it->file, bytes, length, MSG_NOSIGNAL | MSG_DONTWAIT);
        if (went >= 0)
            return went;
        if (errno == EAGAIN || errno == EWOULDBLOCK)
            return 0;
        if (errno != EINTR)
            return -1;
    }
}

enum channel_state channel_flush(struct channel *it)
{
    while (channel_waiting(it)) {
        ssize_t went = try_to_send(it, buffer_front(&it->out), channel_waiting(it));
        if (went < 0)
            return CHANNEL_GONE;
        if (went == 0)
            break;
        buffer_take(&it->out, (size_t)went);
    }
    return CHANNEL_OPEN;
}

enum channel_state channel_send(struct channel *it, const void *bytes, size_t length)
{
    ssize_t went = channel_waiting(it) ? 0 : try_to_send(it, bytes, length);
    if (went < 0)
        return CHANNEL_GONE;
    if ((size_t)went < length && !buffer_put(&it->out, NULL, 0, (const uint8_t *)bytes + went, length - (size_t)went))
        return CHANNEL_GONE;
    return CHANNEL_OPEN;
}
