/* Checks that guests are answered during slow operations: closing a client's eventfd and connecting the wire, both of
   which block, and `why` for a large device. Runs against the program itself: holding PROGRAM FOLDER */
#define _GNU_SOURCE
#include <dirent.h>
#include <errno.h>
#include <fcntl.h>
#include <inttypes.h>
#include <linux/userfaultfd.h>
#include <poll.h>
#include <pthread.h>
#include <signal.h>
#include <stdlib.h>
#include <string.h>
#include <sys/epoll.h>
#include <sys/eventfd.h>
#include <sys/ioctl.h>
#include <sys/mman.h>
#include <sys/prctl.h>
#include <sys/socket.h>
#include <sys/syscall.h>
#include <sys/wait.h>
#include <unistd.h>

#include "../../tests/check.h"
#include "peer/peer.h"
#include "peer/program.h"

#define PAGE 4096u
#define NOT_TRIED 77 /* status of the client's process */

static const char *path, *other_path, *not_tried = "";

/* ---- an eventfd that takes long to close ---- */

/* Returns a page on which the first access, even by the kernel, blocks until this process exits; null if this process
   may not have such a page. */
static void *page_that_nobody_gives(void)
{
    int file = (int)syscall(SYS_userfaultfd, O_CLOEXEC);
    struct uffdio_api api = {.api = UFFD_API};
    void *page = mmap(NULL, PAGE, PROT_READ | PROT_WRITE, MAP_PRIVATE | MAP_ANONYMOUS, -1, 0);
    struct uffdio_register its = {.range = {(uintptr_t)page, PAGE}, .mode = UFFDIO_REGISTER_MODE_MISSING};
    CHECK(page != MAP_FAILED);
    return file >= 0 && ioctl(file, UFFDIO_API, &api) == 0 && ioctl(file, UFFDIO_REGISTER, &its) == 0 ? page : NULL;
}

struct holder {
    int epoll;
    void *page;
};

static void *hold(void *holder)
{
    const struct holder *it = holder;
    epoll_wait(it->epoll, it->page, 1, -1);
    return NULL;
}

/* A client's epoll watches its eventfd, and a thread has the kernel write that epoll's events to the page above. While
   this write is blocked, the last close of the eventfd waits. The client passes the eventfd as a vector, keeps no other
   copy, and writes a byte to `said`. */
static void give_and_hold(int said)
{
    static struct holder holder;
    struct epoll_event event = {.events = EPOLLIN};
    struct peer peer;
    pthread_t thread;
    int file = eventfd(1, EFD_CLOEXEC);
    prctl(PR_SET_PDEATHSIG, SIGKILL);
    holder = (struct holder){epoll_create1(EPOLL_CLOEXEC), page_that_nobody_gives()};
    if (!holder.page)
        _exit(NOT_TRIED);
    peer_open(&peer, path);
    CHECK(peer_version(&peer) == 0 && peer_vectors(&peer, 0, 1, &file, 1) == 0);
    CHECK(epoll_ctl(holder.epoll, EPOLL_CTL_ADD, file, &event) == 0);
    CHECK(pthread_create(&thread, NULL, hold, &holder) == 0);
    usleep(100000); /* time for the thread to start; if it hasn't started, nothing is blocked and nothing fails */
    close(file);
    peer_close(&peer);
    CHECK(write(said, "x", 1) == 1);
    pause();
}

/* Checks that one client is answered while another one's file blocks. The limit of a minute allows for slow
   machines. */
static void is_answered(const char *name, uint32_t identity)
{
    struct vfu_access access = {0, VFU_CONFIG_REGION, 4};
    struct {
        struct vfu_access access;
        uint32_t word;
    } reply;
    struct peer peer;
    peer_open(&peer, name);
    CHECK(peer_version(&peer) == 0);
    uint16_t id = peer_send(&peer, VFU_REGION_READ, 0, &access, sizeof access, NULL, 0);
    struct pollfd answer = {peer.file, POLLIN, 0};
    CHECK(poll(&answer, 1, 60000) == 1);
    CHECK(peer_reply(&peer, id, &reply, sizeof reply) == 0 && reply.word == identity);
    peer_close(&peer);
}

static pid_t start(const char *more)
{
    const char *words[] = {program_path("--socket-path=", "card"), "--functions=1", "--quiet", more, NULL};
    return program_start(words, NULL, -1);
}

static void eventfd_that_does_not_close(void)
{
    char byte;
    int ends[2], status = 0;
    pid_t server = start(NULL);
    CHECK(pipe(ends) == 0);
    pid_t client = fork();
    CHECK(client >= 0);
    if (client == 0)
        give_and_hold(ends[1]);
    close(ends[1]);
    bool is_held = read(ends[0], &byte, 1) == 1;
    close(ends[0]);
    if (!is_held)
        not_tried = "; not tried, since this process may not use userfaultfd: an eventfd that doesn't close";
    is_answered(other_path, 0x10ED8086);
    is_answered(path, 0x10F78086);
    kill(client, SIGKILL);
    CHECK(waitpid(client, &status, 0) == client);
    CHECK(is_held || (WIFEXITED(status) && WEXITSTATUS(status) == NOT_TRIED));
    CHECK(program_end(server) == 0);
}

/* ---- connecting the wire ---- */

/* Returns a process's parent; 0 if the process has exited. */
static pid_t parent_of(const char *process)
{
    char name[300], line[512];
    long parent = 0;
    snprintf(name, sizeof name, "/proc/%s/stat", process);
    FILE *file = fopen(name, "re");
    if (!file)
        return 0;
    const char *end = fgets(line, sizeof line, file) ? strrchr(line, ')') : NULL;
    if (!end || sscanf(end + 1, " %*c %ld", &parent) != 1)
        parent = 0;
    fclose(file);
    return (pid_t)parent;
}

/* Sends a signal to a process's children. Returns their number. */
static unsigned int signal_children(pid_t process, int number)
{
    const struct dirent *entry;
    unsigned int count = 0;
    DIR *all = opendir("/proc");
    CHECK(all);
    while ((entry = readdir(all)))
        if (*entry->d_name >= '1' && *entry->d_name <= '9' && parent_of(entry->d_name) == process)
            count += kill((pid_t)atol(entry->d_name), number) == 0;
    closedir(all);
    return count;
}

/* Stops the server's helper processes, which connect the wire and remove names, as if a name were in a file system that
   doesn't answer. */
static void connection_that_waits(const char *wire)
{
    pid_t server = start(program_path(wire, "other"));
    is_answered(path, 0x10F78086);
    CHECK(signal_children(server, SIGSTOP) == 2);
    for (unsigned int i = 0; i < 3; i++) {
        is_answered(path, 0x10F78086);
        is_answered(other_path, 0x10ED8086);
    }
    CHECK(program_rests(server));
    CHECK(signal_children(server, SIGCONT) == 2);
    CHECK(program_end(server) == 0);
    CHECK(signal_children(server, 0) == 0);
}

/* ---- `why` of a large device ---- */

#define RINGS 32u /* the maximum length */
#define SLOTS 32768u
#define SNAPSHOT_KB 8192 /* limit for a snapshot; the rings' memory is twice as large */
#define MEANWHILE 20u    /* answers expected in the meantime; if nothing blocks, there are thousands */

static bool has_answer(int control)
{
    struct pollfd answer = {control, POLLIN, 0};
    return poll(&answer, 1, 0) == 1;
}

/* Sets up a held card's rings, and hands over as many slots as possible. */
static void set_up_rings(struct peer *it)
{
    for (uint32_t queue = 0; queue < RINGS; queue++) {
        peer_write(it, NIC_TDBAL(queue), 0);
        peer_write(it, NIC_TDLEN(queue), SLOTS * NIC_DESC_BYTES);
        peer_write(it, NIC_TDT(queue), SLOTS - 1);
    }
    CHECK(peer_read(it, NIC_TDT(RINGS - 1)) == SLOTS - 1);
}

/* Checks that an answer has a line for each ring. */
static void tells_all(const char *answer)
{
    char line[32];
    for (uint32_t queue = 0; queue < RINGS; queue++) {
        snprintf(line, sizeof line, "tx %" PRIu32 ": ", queue);
        CHECK(strstr(answer, line));
    }
    CHECK(strcmp(answer + strlen(answer) - 3, "ok\n") == 0);
}

/* Checks that another client and other requests are answered while `why` is being answered. */
static void others_are_answered(int first, int second, struct peer *other)
{
    unsigned int answers = 0;
    peer_send_request(first, "why");
    while (!has_answer(first)) {
        peer_read(other, NIC_VFSTATUS);
        CHECK(strstr(peer_request(second, "counts"), "ok\n"));
        answers++;
    }
    CHECK(answers >= MEANWHILE);
    tells_all(peer_answer(first));
}

/* Checks that a client's requests sent after `why` are answered after `why`. */
static void are_in_order(int control)
{
    static char answers[1u << 16];
    char *second;
    size_t length = 0;
    peer_send_request(control, "why");
    peer_send_request(control, "nothing that there is");
    do {
        ssize_t got = recv(control, answers + length, sizeof answers - 1 - length, 0);
        CHECK(got > 0);
        length += (size_t)got;
        second = strstr(answers, "error: ");
    } while (!second);
    *second = 0;
    tells_all(answers);
}

static void why_of_large_rings(void)
{
    const char *control = program_path("", "control");
    pid_t server = start(program_path("--control=", "control"));
    int first = peer_stream(control), second = peer_stream(control), third = peer_stream(control);
    struct peer host, other;
    peer_open(&host, path);
    peer_open(&other, other_path);
    CHECK(peer_version(&host) == 0 && peer_version(&other) == 0);
    peer_request(first, "hold");
    set_up_rings(&host);
    long long before = program_number(server, "VmRSS", 10);
    CHECK(strstr(peer_request(first, "snapshot a"), "ok\n"));
    CHECK(program_number(server, "VmRSS", 10) - before < SNAPSHOT_KB);
    others_are_answered(first, second, &other);
    peer_send_request(first, "why"); /* three requests take turns; one client leaves without reading its answer */
    peer_send_request(second, "why");
    peer_send_request(third, "why");
    close(second);
    tells_all(peer_answer(third));
    tells_all(peer_answer(first));
    are_in_order(first);
    peer_send_request(first, "why"); /* the server exits before it answers */
    peer_read(&other, NIC_VFSTATUS);
    CHECK(program_end(server) == 0);
    close(first);
    close(third);
    peer_close(&host);
    peer_close(&other);
}

int main(int count, char **words)
{
    CHECK(count == 3);
    signal(SIGPIPE, SIG_IGN);
    program_is(words[1], words[2]);
    path = program_path("", "card");
    other_path = program_path("", "card.vf0");
    eventfd_that_does_not_close();
    connection_that_waits("--wire=stream:");
    connection_that_waits(program_path("--wire=dgram:", "own,"));
    why_of_large_rings();
    printf("holding: passed%s\n", not_tried);
    return 0;
}
