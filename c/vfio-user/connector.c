#define _GNU_SOURCE
#include "connector.h"

#include <errno.h>
#include <poll.h>
#include <string.h>
#include <sys/socket.h>
#include <unistd.h>

#include "budget.h"
#include "local_socket.h"
#include "log.h"

#define FIRST_MS 1000 /* time limit for the first attempt, before the server serves clients */

union room {
    struct cmsghdr aligned;
    char bytes[CMSG_SPACE(sizeof(int))];
};

/* ---- in the connector's process ---- */

/* Sends the server an answer: a file, or none (-1). */
static void answer(int line, int file)
{
    char byte = file >= 0;
    union room room = {.bytes = {0}};
    struct iovec part = {&byte, 1};
    struct msghdr message = {.msg_iov = &part, .msg_iovlen = 1};
    if (file >= 0) {
        message.msg_control = room.bytes;
        message.msg_controllen = sizeof room.bytes;
        *CMSG_FIRSTHDR(&message) = (struct cmsghdr){CMSG_LEN(sizeof(int)), SOL_SOCKET, SCM_RIGHTS};
        memcpy(CMSG_DATA(CMSG_FIRSTHDR(&message)), &file, sizeof file);
    }
    while (sendmsg(line, &message, MSG_NOSIGNAL) < 0 && errno == EINTR) {
    }
}

/* Tries to connect once for each request. */
static void call_streams(int line, int file, void *path)
{
    char byte;
    ssize_t got;
    (void)file;
    while ((got = read(line, &byte, 1)) == 1 || (got < 0 && errno == EINTR)) {
        if (got < 0)
            continue;
        int made = local_connect(path);
        answer(line, made);
        if (made >= 0)
            close(made);
    }
}

/* Connects the socket repeatedly until the line is closed. Sends an answer after the first attempt only. */
static void call_datagrams(int line, int file, void *peer)
{
    struct sockaddr_un name;
    struct pollfd end = {line, POLLIN, 0};
    bool is_first = true;
    local_name(&name, peer);
    do {
        connect(file, (const struct sockaddr *)&name, sizeof name);
        if (is_first)
            answer(line, -1);
        is_first = false;
    } while (poll(&end, 1, CONNECTOR_AGAIN_MS) <= 0);
}

/* ---- in the server ---- */

void connector_begin(struct connector *it)
{
    *it = (struct connector){.helper = {-1, -1}};
}

bool connector_start_stream(struct connector *it, const char *path, bool is_confined)
{
    const struct helper_job job = {.what = CONFINE_CALLER,
                                   .is_confined = is_confined,
                                   .file = -1,
                                   .work = call_streams,
                                   .given = (void *)(uintptr_t)path};
    connector_begin(it);
    return helper_start(&it->helper, &job);
}

bool connector_start_datagrams(struct connector *it, int file, const char *peer, bool is_confined)
{
    const struct helper_job job = {.what = CONFINE_CALLER,
                                   .is_confined = is_confined,
                                   .file = file,
                                   .work = call_datagrams,
                                   .given = (void *)(uintptr_t)peer};
    connector_begin(it);
    it->is_asked = helper_start(&it->helper, &job);
    return it->is_asked;
}

void connector_end(struct connector *it)
{
    helper_end(&it->helper, false);
}

static void lose(struct connector *it)
{
    log_line(LOG_WIRE, "the process that connects the wire has ended, so the wire won't reconnect");
    connector_end(it);
    it->is_asked = false;
}

int connector_patience(const struct connector *it)
{
    uint64_t since = (budget_time() - it->asked) / 1000;
    if (it->is_asked || it->helper.line < 0)
        return -1;
    return !it->asked || since >= CONNECTOR_AGAIN_MS ? 0 : (int)(CONNECTOR_AGAIN_MS - since);
}

void connector_ask(struct connector *it)
{
    const char byte = 1;
    if (connector_patience(it) != 0)
        return;
    it->asked = budget_time();
    it->is_asked = send(it->helper.line, &byte, 1, MSG_NOSIGNAL | MSG_DONTWAIT) == 1;
    if (!it->is_asked && errno != EAGAIN)
        lose(it);
}

int connector_file(const struct connector *it)
{
    return it->is_asked ? it->helper.line : -1;
}

int connector_take(struct connector *it)
{
    char byte;
    int file = -1;
    union room room;
    struct iovec part = {&byte, 1};
    struct msghdr message = {
        .msg_iov = &part, .msg_iovlen = 1, .msg_control = room.bytes, .msg_controllen = sizeof room.bytes};
    if (!it->is_asked)
        return -1;
    ssize_t got = recvmsg(it->helper.line, &message, MSG_DONTWAIT | MSG_CMSG_CLOEXEC);
    if (got < 0 && (errno == EAGAIN || errno == EINTR))
        return -1;
    it->is_asked = false;
    if (got != 1) {
        lose(it);
        return -1;
    }
    const struct cmsghdr *with = CMSG_FIRSTHDR(&message);
    if (with && with->cmsg_level == SOL_SOCKET && with->cmsg_type == SCM_RIGHTS)
        memcpy(&file, CMSG_DATA(with), sizeof file);
    return file;
}

int connector_wait(struct connector *it)
{
    struct pollfd answer_comes = {connector_file(it), POLLIN, 0};
    return poll(&answer_comes, 1, FIRST_MS) == 1 ? connector_take(it) : -1;
}
