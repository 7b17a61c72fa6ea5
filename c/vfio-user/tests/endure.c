/* Clients that try to block the server, run against the program itself. Whatever one client does, another client must
   be answered, and the server must sleep when it has nothing to do and exit on request. endure PROGRAM FOLDER
   [TRIAL] */
#define _GNU_SOURCE
#include <arpa/inet.h>
#include <errno.h>
#include <fcntl.h>
#include <poll.h>
#include <signal.h>
#include <string.h>
#include <sys/eventfd.h>
#include <sys/mman.h>
#include <sys/prctl.h>
#include <sys/resource.h>
#include <sys/socket.h>
#include <sys/stat.h>
#include <sys/un.h>
#include <sys/wait.h>
#include <unistd.h>

#include "../../tests/check.h"
#include "budget.h"
#include "nic82599.h"
#include "peer/peer.h"
#include "peer/program.h"

#define RING 0x10000000u
#define BUFFERS 0x40000000u
#define SLOTS_MOST 32768u
#define MANY 5000u
#define SAID_AT_ONCE 32768u /* limit in bytes, enough for a few lines of each kind */
#define SAID_A_SECOND 2000u
#define WAIT_MS 300000

static const char *program, *socket_word, *path, *other_path, *not_tried = "";

static pid_t start(const char *more, const char *other)
{
    const char *words[] = {socket_word, "--functions=1", more, more ? other : NULL, NULL};
    return program_start(words, NULL, -1);
}

static void come(struct peer *it, const char *to)
{
    peer_open(it, to);
    CHECK(peer_version(it) == 0);
}

/* Checks that another client, on the virtual function's socket, is answered. */
static void another_is_answered(void)
{
    struct peer peer;
    come(&peer, other_path);
    CHECK(peer_config(&peer, 0, 4) == 0x10ED8086);
    peer_close(&peer);
}

/* Begins and ends each trial. */
static pid_t begin(struct peer *it, const char *more, const char *other)
{
    pid_t server = start(more, other);
    come(it, path);
    return server;
}

static void end(struct peer *it, pid_t server)
{
    another_is_answered();
    CHECK(program_rests(server));
    peer_close(it);
    CHECK(program_end(server) == 0);
}

static int memory(uint64_t bytes, uint8_t **at)
{
    int file = memfd_create("memory", MFD_CLOEXEC);
    CHECK(file >= 0 && ftruncate(file, (off_t)bytes) == 0);
    if (!at)
        return file;
    *at = mmap(NULL, bytes, PROT_READ | PROT_WRITE, MAP_SHARED, file, 0);
    CHECK(*at != MAP_FAILED);
    return file;
}

/* ---- eventfds ---- */

/* Lets a client pass an eventfd, and then clear the eventfd's flag and fill its counter. */
static void full_eventfd(void)
{
    struct peer peer;
    struct vfu_irq_set raise = {sizeof raise, VFU_SET_NONE | VFU_SET_TRIGGER, VFU_MSIX, 0, 1};
    uint64_t full = UINT64_MAX - 1;
    int event = eventfd(0, EFD_CLOEXEC);
    pid_t server = begin(&peer, NULL, NULL);
    CHECK(peer_vectors(&peer, 0, 1, &event, 1) == 0 && fcntl(event, F_SETFL, 0) == 0);
    CHECK(write(event, &full, sizeof full) == sizeof full);
    for (int i = 0; i < 2; i++)
        peer_send(&peer, VFU_DEVICE_SET_IRQS, VFU_NO_REPLY, &raise, sizeof raise, NULL, 0);
    end(&peer, server);
    close(event);
}

/* ---- memory ---- */

static void start_queue(struct peer *it)
{
    peer_write(it, NIC_CTRL, NIC_CTRL_RST);
    peer_write(it, NIC_TDBAL(0), RING);
    peer_write(it, NIC_TDLEN(0), SLOTS_MOST * 16);
    peer_write(it, NIC_DMATXCTL, NIC_DMATXCTL_TE);
    peer_write(it, NIC_TXDCTL(0), NIC_TXDCTL_ENABLE);
    while (!(peer_read(it, NIC_TXDCTL(0)) & NIC_TXDCTL_ENABLE)) {
    }
}

/* Lets a client truncate a file with more separate pages than a process may have mappings. */
static void cut_file(void)
{
    struct peer peer;
    uint8_t *ring;
    uint64_t bytes = UINT64_C(1) << 29, page = 8192;
    int ring_file = memory(SLOTS_MOST * 16, &ring), file = memory(bytes, NULL);
    pid_t server = begin(&peer, "--wire=none", NULL);
    CHECK(peer_map(&peer, RING, SLOTS_MOST * 16, 0, 3, ring_file) == 0);
    CHECK(peer_map(&peer, BUFFERS, bytes, 0, 3, file) == 0);
    for (uint32_t i = 0; i < SLOTS_MOST; i++) {
        const uint64_t frame[2] = {BUFFERS + page * i, NIC_TXD_DATA | NIC_TXD_DTALEN_IS(64) | NIC_TXD_EOP | NIC_TXD_RS};
        memcpy(ring + 16 * i, frame, sizeof frame);
    }
    for (uint32_t time = 0; time < 2; time++) {
        start_queue(&peer);
        CHECK(ftruncate(file, 0) == 0);
        peer_write(&peer, NIC_TDT(0), SLOTS_MOST - 1);
        while (peer_read(&peer, NIC_TDH(0)) != SLOTS_MOST - 1 && peer_read(&peer, NIC_TXDCTL(0)) & NIC_TXDCTL_ENABLE) {
        }
        page = page == 8192 ? 4096 : 8192;
    }
    CHECK(peer_unmap(&peer, RING, UINT64_C(1) << 32) == 0);
    end(&peer, server);
    munmap(ring, SLOTS_MOST * 16);
    close(ring_file);
    close(file);
}

/* Checks that a file on a disk is refused with EPERM, unless files are trusted. */
static void foreign_file(void)
{
    static const char *const more[] = {NULL, "--trust-files"};
    int file = open(program, O_RDONLY | O_CLOEXEC);
    if (fcntl(file, F_GET_SEALS) >= 0) {
        not_tried = "; not tried, since the program is in memory: foreign_file";
        close(file);
        return;
    }
    for (unsigned int i = 0; i < 2; i++) {
        struct peer peer;
        pid_t server = begin(&peer, more[i], NULL);
        CHECK(peer_map(&peer, BUFFERS, 4096, 0, VFU_MAP_READ, file) == (i ? 0 : EPERM));
        end(&peer, server);
    }
    close(file);
}

/* Maps more files than a client may have. Checks that a line says so, and that another client can still map its own
   files. */
static void many_files(void)
{
    struct peer peer, other;
    unsigned int count = 0;
    uint32_t error = 0;
    pid_t server = begin(&peer, NULL, NULL);
    come(&other, other_path);
    for (; error == 0 && count < 2000; count++) {
        int file = memory(4096, NULL);
        error = peer_map(&peer, BUFFERS + 4096 * count, 4096, 0, 3, file);
        close(file);
    }
    CHECK(error == EMFILE && count > 4 && count < 1000);
    int file = memory(4096, NULL);
    CHECK(peer_map(&other, BUFFERS, 4096, 0, 3, file) == 0);
    CHECK(peer_unmap(&peer, BUFFERS, 4096) == 0 && peer_map(&peer, BUFFERS, 4096, 0, 3, file) == 0);
    close(file);
    peer_close(&other);
    end(&peer, server);
}

/* ---- files that don't close ---- */

/* Returns a connection whose last close takes five minutes, because its other end accepts nothing. */
static int lingering(int *other)
{
    struct sockaddr_in name = {.sin_family = AF_INET, .sin_addr.s_addr = htonl(INADDR_LOOPBACK)};
    struct linger linger = {1, 300};
    static const uint8_t bytes[65536];
    socklen_t length = sizeof name;
    int listener = socket(AF_INET, SOCK_STREAM | SOCK_CLOEXEC, 0),
        file = socket(AF_INET, SOCK_STREAM | SOCK_CLOEXEC, 0);
    if (bind(listener, (const struct sockaddr *)&name, sizeof name) != 0 || listen(listener, 1) != 0 ||
        getsockname(listener, (struct sockaddr *)&name, &length) != 0 ||
        connect(file, (const struct sockaddr *)&name, sizeof name) != 0)
        return -1;
    *other = accept(listener, NULL, NULL);
    close(listener);
    CHECK(*other >= 0 && setsockopt(file, SOL_SOCKET, SO_LINGER, &linger, sizeof linger) == 0);
    while (send(file, bytes, sizeof bytes, MSG_DONTWAIT) > 0) {
    }
    return file;
}

/* Sends a message with such a connection as its file, and closes this process's copy before the server reads the
   message. Returns the connection's other end, or -1 without a network. */
static int send_lingering(struct peer *it, pid_t server)
{
    static const uint8_t bytes[8000];
    int other = -1, file = lingering(&other);
    if (file < 0) {
        not_tried = "; not tried, since there is no network: files that don't close";
        return -1;
    }
    program_stop(server);
    CHECK(peer_try(it, VFU_DEVICE_GET_INFO, VFU_NO_REPLY, bytes, sizeof bytes, &file, 1, 0));
    close(file);
    CHECK(kill(server, SIGCONT) == 0);
    return other;
}

static void file_that_does_not_close(void)
{
    struct peer peer;
    pid_t server = begin(&peer, NULL, NULL);
    int other = send_lingering(&peer, server);
    CHECK(peer_config(&peer, 0, 4) == 0x10F78086);
    end(&peer, server);
    close(other);
}

/* Sends the file on the socket of a client that the server rejects. */
static void second_client_with_a_file(void)
{
    struct peer peer, second;
    pid_t server = begin(&peer, NULL, NULL);
    program_stop(server);
    peer_open(&second, path);
    int other = send_lingering(&second, server);
    peer_close(&second);
    CHECK(kill(server, SIGCONT) == 0);
    CHECK(peer_config(&peer, 0, 4) == 0x10F78086);
    end(&peer, server);
    close(other);
}

/* Sends the file on the socket of a client that the server disconnects before reading the file. Meanwhile, other
   clients can connect and leave. */
static void file_that_nobody_took(void)
{
    struct peer peer, hostile;
    static const uint8_t bytes[8000];
    pid_t server = begin(&peer, NULL, NULL);
    come(&hostile, other_path);
    program_stop(server);
    for (unsigned int i = 0; i < 6; i++) /* the server reads 32 KB at a time; a size of 4 is invalid */
        CHECK(peer_try(&hostile, VFU_DEVICE_GET_INFO, VFU_NO_REPLY, bytes, sizeof bytes, NULL, 0, 4));
    int other = send_lingering(&hostile, server);
    peer_close(&hostile);
    CHECK(kill(server, SIGCONT) == 0);
    for (unsigned int i = 0; i < 40; i++) {
        peer_close(&peer);
        come(&peer, path);
        CHECK(peer_config(&peer, 0, 4) == 0x10F78086);
    }
    end(&peer, server);
    close(other);
}

/* Sends the file over the wire, where the server expects none. */
static void file_of_the_wire(void)
{
    static const char *const kinds[] = {"--wire=listen:", "--wire=dgram:"};
    struct sockaddr_un name = {.sun_family = AF_UNIX};
    strcpy(name.sun_path, program_path("", "wire"));
    for (unsigned int kind = 0; kind < 2; kind++) {
        struct peer peer, wire = {-1, 0};
        char word[300];
        snprintf(word, sizeof word, "%s%s%s", kinds[kind], name.sun_path, kind ? ",nobody" : "");
        pid_t server = begin(&peer, word, NULL);
        wire.file = socket(AF_UNIX, kind ? SOCK_DGRAM : SOCK_STREAM, 0);
        CHECK(connect(wire.file, (const struct sockaddr *)&name, sizeof name) == 0);
        another_is_answered();
        int other = send_lingering(&wire, server);
        CHECK(peer_config(&peer, 0, 4) == 0x10F78086);
        end(&peer, server);
        close(wire.file);
        close(other);
    }
}

/* ---- sockets ---- */

/* Lets a client stop sending without reading its replies, while another client waits at the socket. */
static void half_closed(void)
{
    struct peer peer, next;
    struct vfu_access access = {0, VFU_CONFIG_REGION, 4096};
    struct {
        struct vfu_header head;
        struct vfu_access access;
    } message = {{0, VFU_REGION_READ, sizeof message, 0, 0}, access};
    pid_t server = begin(&peer, NULL, NULL);
    while (send(peer.file, &message, sizeof message, MSG_DONTWAIT) == (ssize_t)sizeof message) {
    }
    CHECK(shutdown(peer.file, SHUT_WR) == 0);
    come(&next, path);
    CHECK(peer_config(&next, 0, 4) == 0x10F78086);
    peer_close(&next);
    end(&peer, server);
}

/* Returns the number that a process's next open file gets. */
static unsigned int next_file(pid_t process)
{
    char name[64], file[64];
    for (unsigned int i = 0;; i++) {
        snprintf(name, sizeof name, "/proc/%ld/fd/%u", (long)process, i);
        if (readlink(name, file, sizeof file) < 0)
            return i;
    }
}

/* Connects a client while the server has no free file descriptor. */
static void no_file_left(void)
{
    struct peer peer, next;
    struct rlimit before, few;
    struct pollfd answer;
    pid_t server = begin(&peer, NULL, NULL);
    CHECK(prlimit(server, RLIMIT_NOFILE, NULL, &before) == 0);
    few = (struct rlimit){next_file(server), before.rlim_max};
    CHECK(prlimit(server, RLIMIT_NOFILE, &few, NULL) == 0);
    peer_open(&next, path);
    CHECK(peer_config(&peer, 0, 4) == 0x10F78086 && program_rests(server));
    CHECK(prlimit(server, RLIMIT_NOFILE, &before, NULL) == 0);
    answer = (struct pollfd){next.file, POLLIN, 0};
    CHECK(poll(&answer, 1, WAIT_MS) == 1); /* the new client is rejected */
    peer_close(&next);
    end(&peer, server);
}

static void few_files(void)
{
    struct rlimit limit = {36, 36};
    CHECK(setrlimit(RLIMIT_NOFILE, &limit) == 0);
}

static void too_few_files(void)
{
    const char *words[] = {socket_word, "--functions=7", NULL};
    char said[256] = "";
    int ends[2];
    CHECK(pipe(ends) == 0);
    pid_t server = program_start(words, few_files, ends[1]);
    close(ends[1]);
    CHECK(program_status(server) == 2 && read(ends[0], said, sizeof said - 1) > 0 && strstr(said, "ulimit -n"));
    CHECK(access(path, F_OK) != 0);
    close(ends[0]);
}

/* ---- connections and outputs of the server ---- */

/* Connects the wire to a listener that has a full backlog and accepts no connection. */
static void full_listener(void)
{
    struct sockaddr_un name = {.sun_family = AF_UNIX};
    struct peer peer;
    const char *word = program_path("--wire=stream:", "full");
    int listener = socket(AF_UNIX, SOCK_STREAM | SOCK_CLOEXEC, 0), waiting[8];
    snprintf(name.sun_path, sizeof name.sun_path, "%s", program_path("", "full"));
    CHECK(bind(listener, (const struct sockaddr *)&name, sizeof name) == 0 && listen(listener, 0) == 0);
    for (unsigned int i = 0; i < 8; i++) {
        waiting[i] = socket(AF_UNIX, SOCK_STREAM | SOCK_CLOEXEC | SOCK_NONBLOCK, 0);
        if (connect(waiting[i], (const struct sockaddr *)&name, sizeof name) != 0)
            CHECK(errno == EAGAIN);
    }
    pid_t server = begin(&peer, word, NULL);
    end(&peer, server);
    for (unsigned int i = 0; i < 8; i++)
        close(waiting[i]);
    close(listener);
    unlink(name.sun_path);
}

/* Causes many faults, each of which prints a line. Standard error is a pipe that isn't read before the end. */
static void unread_errors(void)
{
    struct peer peer;
    uint8_t *ring;
    static char said[1u << 20];
    int ends[2], file = memory(SLOTS_MOST * 16, &ring);
    const char *words[] = {socket_word, "--functions=1", NULL};
    uint64_t began = budget_time();
    CHECK(pipe(ends) == 0);
    pid_t server = program_start(words, NULL, ends[1]);
    close(ends[1]);
    come(&peer, path);
    CHECK(peer_map(&peer, RING, SLOTS_MOST * 16, 0, 3, file) == 0);
    memset(ring, 0xFF, 64);
    for (unsigned int i = 0; i < MANY; i++) {
        peer_write(&peer, NIC_TDBAL(0), RING);
        peer_write(&peer, NIC_TDLEN(0), SLOTS_MOST * 16);
        peer_write(&peer, NIC_DMATXCTL, NIC_DMATXCTL_TE);
        peer_write(&peer, NIC_TXDCTL(0), NIC_TXDCTL_ENABLE);
        peer_write(&peer, NIC_TDT(0), 1);
    }
    CHECK(peer_config(&peer, 0, 4) == 0x10F78086);
    end(&peer, server);
    size_t length = 0;
    for (ssize_t got = 1; got > 0; length += got > 0 ? (size_t)got : 0)
        got = read(ends[0], said + length, sizeof said - 1 - length);
    CHECK(length < SAID_AT_ONCE + SAID_A_SECOND * ((budget_time() - began) / 1000000 + 1));
    CHECK(strstr(said, "a fault in sending") && strstr(said, "were left out"));
    close(ends[0]);
    munmap(ring, SLOTS_MOST * 16);
    close(file);
}

/* Checks that the server doesn't start if a FIFO has no reader, and that lines are lost if the reader doesn't read. */
static void fifos(void)
{
    static const char *const texts[] = {"--trace=", "--capture=", "--record=", "--strays="};
    const char *fifo = program_path("", "fifo");
    CHECK(mkfifo(fifo, 0600) == 0);
    for (unsigned int i = 0; i < 4; i++)
        CHECK(program_status(start(program_path(texts[i], "fifo"), NULL)) == 2);
    int reader = open(fifo, O_RDONLY | O_NONBLOCK | O_CLOEXEC);
    CHECK(reader >= 0 && program_status(start(program_path("--record=", "fifo"), NULL)) == 2);
    for (unsigned int i = 0; i < 2; i++) {
        struct peer peer;
        pid_t server = begin(&peer, program_path(texts[i], "fifo"), "--hairpin");
        for (unsigned int k = 0; k < 4 * MANY; k++)
            peer_write(&peer, NIC_EITR(1), k);
        CHECK(peer_config(&peer, 0, 4) == 0x10F78086);
        end(&peer, server);
    }
    close(reader);
    unlink(fifo);
}

static void short_files(void)
{
    struct rlimit limit = {4096, 4096};
    CHECK(setrlimit(RLIMIT_FSIZE, &limit) == 0);
}

/* Writes an output file that reaches the process's limit for file sizes. */
static void limited_file(void)
{
    struct peer peer;
    const char *words[] = {socket_word, "--functions=1", program_path("--trace=", "trace"), "--quiet", NULL};
    pid_t server = program_start(words, short_files, -1);
    come(&peer, path);
    for (unsigned int i = 0; i < MANY; i++)
        peer_write(&peer, NIC_EITR(1), i);
    end(&peer, server);
    unlink(program_path("", "trace"));
}

/* ---- signals ---- */

/* Starts a client that sends messages forever, in a separate process, and waits until it has begun. */
static pid_t flood(const char *to)
{
    struct peer peer;
    struct vfu_access access = {NIC_STATUS, 0, 4};
    char begun = 0;
    int ends[2];
    CHECK(pipe(ends) == 0);
    pid_t client = fork();
    CHECK(client >= 0);
    if (client) {
        close(ends[1]);
        CHECK(read(ends[0], &begun, 1) == 1);
        close(ends[0]);
        return client;
    }
    prctl(PR_SET_PDEATHSIG, SIGKILL);
    come(&peer, to);
    CHECK(write(ends[1], &begun, 1) == 1);
    while (peer_try(&peer, VFU_REGION_READ, VFU_NO_REPLY, &access, sizeof access, NULL, 0, 0)) {
    }
    _exit(0);
}

static void ends_under_load(void)
{
    const char *const paths[] = {path, other_path, program_path("", "card.shadow0")};
    pid_t server = start(NULL, NULL), clients[3];
    for (unsigned int i = 0; i < 3; i++)
        clients[i] = flood(paths[i]);
    usleep(300000);
    CHECK(program_end(server) == 0);
    for (unsigned int i = 0; i < 3; i++) {
        kill(clients[i], SIGKILL);
        CHECK(waitpid(clients[i], NULL, 0) == clients[i]);
    }
}

/* ---- rights ---- */

static void confined(void)
{
    struct peer peer;
    pid_t server = begin(&peer, NULL, NULL);
    CHECK(program_number(server, "NoNewPrivs", 10) == 1);
    CHECK(program_number(server, "CapEff", 16) == 0 && program_number(server, "CapPrm", 16) == 0);
    if (program_number(server, "Seccomp", 10) != 2)
        not_tried = "; not tried, since this kernel can't filter system calls: the filter";
    end(&peer, server);
    server = begin(&peer, "--unconfined", NULL);
    CHECK(program_number(server, "NoNewPrivs", 10) == program_number(getpid(), "NoNewPrivs", 10));
    end(&peer, server);
}

/* Checks that the names of the server's sockets are removed however the server exits. */
static void killed(void)
{
    struct peer peer;
    pid_t server = begin(&peer, NULL, NULL);
    kill(server, SIGKILL);
    CHECK(program_status(server) == -1);
    for (int i = 0; i < WAIT_MS && (access(path, F_OK) == 0 || access(other_path, F_OK) == 0); i++)
        usleep(1000);
    CHECK(access(path, F_OK) != 0 && access(other_path, F_OK) != 0);
    peer_close(&peer);
}

static const struct {
    const char *name;
    void (*run)(void);
} trials[] = {
    {"full_eventfd", full_eventfd},
    {"cut_file", cut_file},
    {"foreign_file", foreign_file},
    {"many_files", many_files},
    {"file_that_does_not_close", file_that_does_not_close},
    {"second_client_with_a_file", second_client_with_a_file},
    {"file_that_nobody_took", file_that_nobody_took},
    {"file_of_the_wire", file_of_the_wire},
    {"half_closed", half_closed},
    {"no_file_left", no_file_left},
    {"too_few_files", too_few_files},
    {"full_listener", full_listener},
    {"unread_errors", unread_errors},
    {"fifos", fifos},
    {"limited_file", limited_file},
    {"ends_under_load", ends_under_load},
    {"confined", confined},
    {"killed", killed},
};

int main(int count, char **words)
{
    CHECK(count >= 3);
    signal(SIGPIPE, SIG_IGN);
    program = words[1];
    program_is(program, words[2]);
    socket_word = program_path("--socket-path=", "card");
    path = program_path("", "card");
    other_path = program_path("", "card.vf0");
    for (size_t i = 0; i < sizeof trials / sizeof *trials; i++)
        if (count == 3 || strcmp(words[3], trials[i].name) == 0)
            trials[i].run();
    printf("endure: passed%s\n", not_tried);
    return 0;
}
