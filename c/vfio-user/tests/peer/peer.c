#define _GNU_SOURCE
#include "peer.h"

#include <errno.h>
#include <poll.h>
#include <signal.h>
#include <stdio.h>
#include <stdlib.h>
#include <string.h>
#include <sys/prctl.h>
#include <sys/socket.h>
#include <sys/un.h>
#include <sys/wait.h>
#include <unistd.h>

#include "../../../tests/check.h"
#include "closer.h"
#include "ending.h"
#include "explain.h"
#include "kernel.h"
#include "log.h"
#include "notifier.h"
#include "options.h"
#include "server.h"
#include "tell.h"

#define CONNECT_TRIES 30000 /* tries of at least 10 ms each, because a busy machine may start the server late */

static pid_t server;
static char server_path[100];

static int serve(const char *const *words)
{
    static struct server it;
    char path[120];
    char *all[32] = {"server", path};
    int count = 2;
    snprintf(path, sizeof path, "--socket-path=%s", server_path);
    for (; *words; words++)
        all[count++] = (char *)(uintptr_t)*words;
    bool has_notifier = notifier_open() || !kernel_has_reads();
    if (!ending_open() || !has_notifier || !memory_map_guard() || !closer_start() || !explain_start() ||
        options_read(&it.options, count, all) != OPTIONS_GO || (it.options.record && !nic_record(it.options.record)) ||
        !server_open(&it))
        return 2;
    server_run(&it);
    if (!it.options.is_quiet)
        tell_counts(&it, stdout);
    server_close(&it);
    log_close();
    return 0;
}

const char *server_start(const char *const *words)
{
    snprintf(server_path, sizeof server_path, "/tmp/nic82599-test.%ld", (long)getpid());
    fflush(stdout);
    server = fork();
    CHECK(server >= 0);
    if (server == 0) {
        prctl(PR_SET_PDEATHSIG, SIGKILL);
        exit(serve(words));
    }
    return server_path;
}

void server_stop(void)
{
    int status = 0;
    kill(server, SIGTERM);
    CHECK(waitpid(server, &status, 0) == server);
    CHECK(WIFEXITED(status) && WEXITSTATUS(status) == 0);
}

int peer_stream(const char *path)
{
    struct sockaddr_un name = {.sun_family = AF_UNIX};
    snprintf(name.sun_path, sizeof name.sun_path, "%s", path);
    for (int i = 0; i < CONNECT_TRIES; i++) {
        int file = socket(AF_UNIX, SOCK_STREAM | SOCK_CLOEXEC, 0);
        if (connect(file, (const struct sockaddr *)&name, sizeof name) == 0)
            return file;
        close(file);
        usleep(10000);
    }
    CHECK(!"the server doesn't listen at its socket");
    return -1;
}

void peer_open(struct peer *it, const char *path)
{
    it->id = 0;
    it->file = peer_stream(path);
}

void peer_close(struct peer *it)
{
    close(it->file);
}

pid_t server_process(void)
{
    return server;
}

bool peer_try(struct peer *it, uint16_t command, uint32_t flags, const void *body, size_t length, const int *files,
              unsigned int count, uint32_t size)
{
    union {
        struct cmsghdr aligned;
        char room[CMSG_SPACE(32 * sizeof(int))];
    } control;
    struct vfu_header head = {it->id++, command, (uint32_t)(sizeof head + length), flags, 0};
    struct iovec parts[2] = {{&head, sizeof head}, {(void *)(uintptr_t)body, length}};
    struct msghdr message = {.msg_iov = parts, .msg_iovlen = length ? 2 : 1};
    ssize_t all = (ssize_t)head.size;
    if (size)
        head.size = size;
    if (count) {
        memset(&control, 0, sizeof control);
        message.msg_control = control.room;
        message.msg_controllen = CMSG_SPACE(count * sizeof(int));
        struct cmsghdr *c = CMSG_FIRSTHDR(&message);
        c->cmsg_level = SOL_SOCKET;
        c->cmsg_type = SCM_RIGHTS;
        c->cmsg_len = CMSG_LEN(count * sizeof(int));
        memcpy(CMSG_DATA(c), files, count * sizeof(int));
    }
    return sendmsg(it->file, &message, MSG_NOSIGNAL) == all;
}

uint16_t peer_send(struct peer *it, uint16_t command, uint32_t flags, const void *body, size_t length, const int *files,
                   unsigned int count)
{
    uint16_t id = it->id;
    CHECK(peer_try(it, command, flags, body, length, files, count, 0));
    return id;
}

static void take(struct peer *it, void *to, size_t length)
{
    uint8_t *at = to;
    while (length) {
        ssize_t got = recv(it->file, at, length, 0);
        CHECK(got > 0);
        at += got;
        length -= (size_t)got;
    }
}

uint32_t peer_reply(struct peer *it, uint16_t id, void *body, size_t room)
{
    static uint8_t bytes[VFU_MESSAGE_MOST];
    struct vfu_header head;
    take(it, &head, sizeof head);
    CHECK(head.id == id && (head.flags & VFU_TYPE) == VFU_REPLY);
    CHECK(head.size >= sizeof head && head.size <= VFU_MESSAGE_MOST);
    CHECK(!(head.flags & VFU_ERROR) == !head.error);
    take(it, bytes, head.size - sizeof head);
    if (room)
        memcpy(body, bytes, room < head.size - sizeof head ? room : head.size - sizeof head);
    return head.error;
}

uint32_t peer_ask(struct peer *it, uint16_t command, const void *body, size_t length, const int *files,
                  unsigned int count, void *reply, size_t room)
{
    return peer_reply(it, peer_send(it, command, 0, body, length, files, count), reply, room);
}

static uint32_t access_one(struct peer *it, uint16_t command, uint32_t region, uint32_t offset, uint32_t count,
                           uint32_t *word)
{
    struct {
        struct vfu_access access;
        uint32_t word;
    } body = {{offset, region, count}, *word}, reply = {0};
    size_t length = sizeof body.access + (command == VFU_REGION_WRITE ? count : 0);
    uint32_t error = peer_ask(it, command, &body, length, NULL, 0, &reply, sizeof reply);
    *word = reply.word;
    return error;
}

uint32_t peer_read(struct peer *it, uint32_t offset)
{
    uint32_t word = 0;
    CHECK(access_one(it, VFU_REGION_READ, 0, offset, 4, &word) == 0);
    return word;
}

void peer_write(struct peer *it, uint32_t offset, uint32_t word)
{
    struct {
        struct vfu_access access;
        uint32_t word;
    } body = {{offset, 0, 4}, word};
    peer_send(it, VFU_REGION_WRITE, VFU_NO_REPLY, &body, sizeof body.access + 4, NULL, 0);
}

uint32_t peer_config(struct peer *it, uint32_t offset, uint32_t count)
{
    uint32_t word = 0;
    CHECK(access_one(it, VFU_REGION_READ, VFU_CONFIG_REGION, offset, count, &word) == 0);
    return word;
}

void peer_set_config(struct peer *it, uint32_t offset, uint32_t count, uint32_t word)
{
    CHECK(access_one(it, VFU_REGION_WRITE, VFU_CONFIG_REGION, offset, count, &word) == 0);
}

uint32_t peer_map(struct peer *it, uint64_t address, uint64_t bytes, uint64_t offset, uint32_t flags, int file)
{
    struct vfu_dma_map map = {sizeof map, flags, offset, address, bytes};
    return peer_ask(it, VFU_DMA_MAP, &map, sizeof map, &file, file >= 0, NULL, 0);
}

uint32_t peer_unmap(struct peer *it, uint64_t address, uint64_t bytes)
{
    struct vfu_dma_unmap map = {sizeof map, 0, address, bytes};
    return peer_ask(it, VFU_DMA_UNMAP, &map, sizeof map, NULL, 0, NULL, 0);
}

uint32_t peer_version(struct peer *it)
{
    static const char text[] = "{\"capabilities\": {\"pgsizes\": 4096, \"max_msg_fds\": 16}}";
    struct {
        struct vfu_version version;
        char text[200];
    } body = {{0, 0}, ""}, reply = {{9, 9}, ""};
    memcpy(body.text, text, sizeof text);
    uint32_t error = peer_ask(it, VFU_VERSION, &body, sizeof body.version + sizeof text, NULL, 0, &reply, sizeof reply);
    CHECK(error || (reply.version.major == 0 && memchr(reply.text, 0, sizeof reply.text) != NULL));
    return error;
}

uint32_t peer_vectors(struct peer *it, uint32_t first, uint32_t count, const int *files, unsigned int file_count)
{
    struct vfu_irq_set set = {sizeof set, VFU_SET_EVENTFD | VFU_SET_TRIGGER, VFU_MSIX, first, count};
    return peer_ask(it, VFU_DEVICE_SET_IRQS, &set, sizeof set, files, file_count, NULL, 0);
}

/* ---- control socket and wire ---- */

void peer_send_request(int control, const char *words)
{
    CHECK(send(control, words, strlen(words), 0) == (ssize_t)strlen(words) && send(control, "\n", 1, 0) == 1);
}

const char *peer_answer(int control)
{
    static char answer[1u << 16];
    size_t length = 0;
    do {
        ssize_t got = recv(control, answer + length, sizeof answer - 1 - length, 0);
        CHECK(got > 0);
        length += (size_t)got;
        answer[length] = 0;
    } while (!strstr(answer, "ok\n") && !strstr(answer, "error: "));
    return answer;
}

const char *peer_request(int control, const char *words)
{
    peer_send_request(control, words);
    return peer_answer(control);
}

uint64_t peer_count(int control, const char *words)
{
    const char *at = strstr(peer_request(control, "counts"), words);
    CHECK(at != NULL);
    return strtoull(at + strlen(words), NULL, 10);
}

static void take_all(int file, uint8_t *to, size_t length)
{
    while (length) {
        ssize_t got = recv(file, to, length, 0);
        CHECK(got > 0);
        to += got;
        length -= (size_t)got;
    }
}

size_t peer_frame(int wire, uint8_t *frame, size_t room, int milliseconds)
{
    struct pollfd poll_for = {wire, POLLIN, 0};
    uint8_t head[4];
    if (poll(&poll_for, 1, milliseconds) != 1)
        return 0;
    take_all(wire, head, sizeof head);
    size_t length = (size_t)head[0] << 24 | (size_t)head[1] << 16 | (size_t)head[2] << 8 | head[3];
    CHECK(length <= room);
    take_all(wire, frame, length);
    return length;
}

static void put_all(int file, const uint8_t *bytes, size_t length)
{
    while (length) {
        ssize_t went = send(file, bytes, length, MSG_NOSIGNAL);
        CHECK(went > 0);
        bytes += went;
        length -= (size_t)went;
    }
}

bool peer_put_frame(int wire, const uint8_t *frame, size_t length)
{
    const uint8_t head[4] = {(uint8_t)(length >> 24), (uint8_t)(length >> 16), (uint8_t)(length >> 8), (uint8_t)length};
    struct pollfd poll_for = {wire, POLLOUT, 0};
    if (poll(&poll_for, 1, 0) != 1)
        return false;
    put_all(wire, head, sizeof head);
    put_all(wire, frame, length);
    return true;
}
