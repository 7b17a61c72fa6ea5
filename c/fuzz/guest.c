#define _GNU_SOURCE
#include "guest.h"

#include <pthread.h>
#include <stdio.h>
#include <string.h>
#include <sys/mman.h>
#include <sys/socket.h>
#include <sys/un.h>
#include <unistd.h>

#include "closer.h"
#include "ending.h"
#include "input.h"
#include "notifier.h"
#include "options.h"
#include "server.h"
#include "tests/peer/kernel.h"

static void *read_all(void *given)
{
    static uint8_t room[65536];
    const struct guest *it = given;
    while (recv(it->socket, room, sizeof room, 0) > 0)
        ;
    return NULL;
}

static void *serve(void *server)
{
    server_run(server);
    return NULL;
}

/* Returns a socket that listens at a name chosen by the kernel, outside the file system. */
static int listening(struct sockaddr_un *name, socklen_t *length)
{
    int file = socket(AF_UNIX, SOCK_STREAM | SOCK_CLOEXEC, 0);
    *name = (struct sockaddr_un){.sun_family = AF_UNIX};
    *length = sizeof *name;
    MUST(file >= 0 && bind(file, (const struct sockaddr *)name, sizeof name->sun_family) == 0);
    MUST(getsockname(file, (struct sockaddr *)name, length) == 0 && listen(file, 4) == 0);
    return file;
}

static void start(const char *const *words, struct sockaddr_un *name, socklen_t *length)
{
    static struct server server;
    char word[24], *all[16] = {(char *)"fuzz", word, (char *)"--quiet"};
    int count = 3;
    pthread_t thread;
    snprintf(word, sizeof word, "--fd=%d", listening(name, length));
    for (; *words; words++)
        all[count++] = (char *)(uintptr_t)*words;
    MUST(notifier_open() || !kernel_has_reads());
    MUST(ending_open() && memory_map_guard() && closer_start());
    MUST(options_read(&server.options, count, all) == OPTIONS_GO && server_open(&server));
    MUST(pthread_create(&thread, NULL, serve, &server) == 0);
}

/* The guest's memory is a file that all guests share: each finds it zeroed. */
static void make_memory(struct guest *it)
{
    static int file = -1;
    static uint8_t *memory;
    if (file < 0) {
        file = memfd_create("fuzz", MFD_CLOEXEC);
        MUST(file >= 0 && ftruncate(file, GUEST_BYTES) == 0);
        memory = mmap(NULL, GUEST_BYTES, PROT_READ | PROT_WRITE, MAP_SHARED, file, 0);
        MUST(memory != MAP_FAILED);
    }
    memset(memory, 0, GUEST_BYTES);
    it->memory_file = file;
    it->memory = memory;
}

void guest_run(const char *const *words, guest_acts *acts, void *given)
{
    static struct sockaddr_un name;
    static socklen_t length;
    struct guest guest = {0};
    pthread_t reader;
    if (!length)
        start(words, &name, &length);
    make_memory(&guest);
    guest.socket = socket(AF_UNIX, SOCK_STREAM | SOCK_CLOEXEC, 0);
    MUST(guest.socket >= 0 && connect(guest.socket, (const struct sockaddr *)&name, length) == 0);
    MUST(pthread_create(&reader, NULL, read_all, &guest) == 0);
    acts(&guest, given);
    shutdown(guest.socket, SHUT_WR);
    pthread_join(reader, NULL);
    close(guest.socket);
}

void guest_send(struct guest *it, uint16_t command, uint32_t flags, const void *body, size_t length, const int *files,
                unsigned int count)
{
    union {
        struct cmsghdr aligned;
        char room[CMSG_SPACE(GUEST_FILES * sizeof(int))];
    } control = {0};
    struct vfu_header head = {it->id++, command, (uint32_t)(sizeof head + length), flags, 0};
    struct iovec parts[] = {{&head, sizeof head}, {(void *)(uintptr_t)body, length}};
    struct msghdr message = {.msg_iov = parts, .msg_iovlen = 2};
    if (count) {
        message.msg_control = control.room;
        message.msg_controllen = CMSG_SPACE(count * sizeof(int));
        struct cmsghdr *c = CMSG_FIRSTHDR(&message);
        c->cmsg_level = SOL_SOCKET;
        c->cmsg_type = SCM_RIGHTS;
        c->cmsg_len = CMSG_LEN(count * sizeof(int));
        memcpy(CMSG_DATA(c), files, count * sizeof(int));
    }
    sendmsg(it->socket, &message, MSG_NOSIGNAL);
}

void guest_greet(struct guest *it)
{
    static const char version[] = "\0\0\0\0{}";
    struct vfu_dma_map map = {sizeof map, VFU_MAP_READ | VFU_MAP_WRITE, 0, 0, GUEST_BYTES};
    guest_send(it, VFU_VERSION, 0, version, sizeof version, NULL, 0);
    guest_send(it, VFU_DMA_MAP, 0, &map, sizeof map, &it->memory_file, 1);
}

void guest_write(struct guest *it, uint32_t offset, uint32_t word)
{
    struct {
        struct vfu_access access;
        uint32_t word;
    } write = {{offset, 0, sizeof word}, word};
    guest_send(it, VFU_REGION_WRITE, VFU_NO_REPLY, &write, sizeof write, NULL, 0);
}
