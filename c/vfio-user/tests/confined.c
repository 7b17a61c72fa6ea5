/* Tries what a confined process may and may not do, each in a separate process. Compiled without sanitizers. */
#define _GNU_SOURCE
#include "confine.h"

#include <fcntl.h>
#include <linux/seccomp.h>
#include <poll.h>
#include <signal.h>
#include <sys/eventfd.h>
#include <sys/mman.h>
#include <sys/prctl.h>
#include <sys/socket.h>
#include <sys/stat.h>
#include <sys/syscall.h>
#include <sys/wait.h>
#include <unistd.h>

#include "../../tests/check.h"
#include "closer.h"
#include "janitor.h"
#include "local_socket.h"
#include "memory_map.h"
#include "notifier.h"
#include "peer/kernel.h"

static char folder[] = "/tmp/nic82599-confined.XXXXXX";
static char file_path[64], socket_path[64], datagram_path[64];
static int ends[2], event, memory_file, datagrams;

/* ---- forbidden ---- */

static bool opens(void)
{
    return open("/dev/null", O_RDONLY) >= 0 || open(file_path, O_RDWR) >= 0;
}

static bool makes(void)
{
    return open("/tmp/nic82599-confined.new", O_CREAT | O_WRONLY, 0600) >= 0 ||
           mkdir("/tmp/nic82599-confined.d", 0700) == 0;
}

static bool removes(void)
{
    return unlink(file_path) == 0 || rename(file_path, socket_path) == 0;
}

static bool runs(void)
{
    char *const none[] = {NULL};
    return execve("/bin/true", none, none) == 0 || fork() >= 0;
}

static bool calls_out(void)
{
    return socket(AF_INET, SOCK_STREAM, 0) >= 0 || socket(AF_INET6, SOCK_DGRAM, 0) >= 0 ||
           socket(AF_NETLINK, SOCK_RAW, 0) >= 0;
}

static bool calls(void)
{
    return local_connect(socket_path) >= 0;
}

/* Sends to any named socket, with the wire's existing socket. */
static bool sends_elsewhere(void)
{
    struct sockaddr_un name;
    return local_name(&name, datagram_path) &&
           sendto(datagrams, "x", 1, MSG_DONTWAIT, (const struct sockaddr *)&name, sizeof name) == 1;
}

static bool makes_code(void)
{
    void *page = mmap(NULL, 4096, PROT_READ | PROT_WRITE, MAP_PRIVATE | MAP_ANONYMOUS, -1, 0);
    return mmap(NULL, 4096, PROT_READ | PROT_EXEC, MAP_PRIVATE | MAP_ANONYMOUS, -1, 0) != MAP_FAILED ||
           mprotect(page, 4096, PROT_READ | PROT_EXEC) == 0;
}

static bool harms_others(void)
{
    return kill(getppid(), 0) == 0 || fcntl(ends[0], F_SETOWN, getppid()) == 0 || setuid(0) == 0 ||
           prctl(PR_SET_DUMPABLE, 0) == 0;
}

/* ---- allowed ---- */

static bool serves(void)
{
    char byte = 1;
    struct pollfd ready = {ends[1], POLLIN, 0};
    return send(ends[0], &byte, 1, MSG_DONTWAIT) == 1 && poll(&ready, 1, 1000) == 1 &&
           recv(ends[1], &byte, 1, MSG_DONTWAIT) == 1;
}

static bool notifies(void)
{
    uint64_t count = 0;
    return notifier_takes(event) && notifier_send(event) && read(event, &count, sizeof count) == sizeof count &&
           count == 1;
}

/* Reads a client's signal, and doesn't wait for an eventfd without a signal. */
static bool is_notified(void)
{
    uint64_t one = 1;
    return notifier_take(event) == NOTIFIER_NOTHING && write(event, &one, sizeof one) == sizeof one &&
           notifier_take(event) == NOTIFIER_SIGNALLED && notifier_take(event) == NOTIFIER_NOTHING;
}

static bool maps(void)
{
    static struct memory_map map;
    const struct memory_range range = {.address = 0, .size = 4096, .is_readable = true, .is_writable = true};
    size_t length = 4096;
    memory_map_begin(&map, 0);
    if (memory_map_add(&map, &range, memory_file, 0) != 0)
        return false;
    uint8_t *at = memory_map_run(&map, 0, &length, true);
    CHECK(at && length == 4096);
    *at = 1;
    closer_close(fcntl(memory_file, F_DUPFD_CLOEXEC, 0), 0);
    closer_settle();
    memory_map_end(&map);
    return true;
}

static bool tidies(void)
{
    return unlink(file_path) == 0;
}

/* ---- trials ---- */

static const struct trial {
    const char *name;
    bool (*try)(void);
    enum confine_as what;
    bool may;
} trials[] = {
    {"opens", opens, CONFINE_SERVER, false},
    {"makes", makes, CONFINE_SERVER, false},
    {"removes", removes, CONFINE_SERVER, false},
    {"runs", runs, CONFINE_SERVER, false},
    {"calls out", calls_out, CONFINE_SERVER, false},
    {"calls out", calls_out, CONFINE_CALLER, false},
    {"opens", opens, CONFINE_CALLER, false},
    {"calls", calls, CONFINE_SERVER, false},
    {"calls", calls, CONFINE_CALLER, true},
    {"sends elsewhere", sends_elsewhere, CONFINE_SERVER, false},
    {"sends elsewhere", sends_elsewhere, CONFINE_CALLER, false},
    {"makes code", makes_code, CONFINE_SERVER, false},
    {"harms others", harms_others, CONFINE_SERVER, false},
    {"serves", serves, CONFINE_SERVER, true},
    {"notifies", notifies, CONFINE_SERVER, true},
    {"is notified", is_notified, CONFINE_SERVER, true},
    {"maps", maps, CONFINE_SERVER, true},
    {"opens", opens, CONFINE_JANITOR, false},
    {"runs", runs, CONFINE_JANITOR, false},
    {"calls", calls, CONFINE_JANITOR, false},
    {"tidies", tidies, CONFINE_JANITOR, true},
};

/* Returns whether this kernel and this process's environment can filter system calls (checked without the module), and
   whether there is a list for this processor. */
static bool is_filtered(void)
{
#if defined(__x86_64__) || defined(__aarch64__)
    const uint32_t answer = SECCOMP_RET_ERRNO;
    return syscall(SYS_seccomp, SECCOMP_GET_ACTION_AVAIL, 0, &answer) == 0;
#else
    return false;
#endif
}

/* Returns whether the trial has the expected result. The closer's threads are started only in trials of the server:
   helpers aren't allowed the system calls needed to wait for them. */
static bool try(const struct trial *trial)
{
    CHECK(notifier_open() || !kernel_has_reads());
    confine_files(trial->what);
    CHECK(trial->what != CONFINE_SERVER || closer_start());
    confine_calls(trial->what);
    return trial->try() == trial->may;
}

static void give_name(const char *path)
{
    struct local_given given = {.path = ""};
    struct stat about;
    CHECK(lstat(path, &about) == 0);
    snprintf(given.path, sizeof given.path, "%s", path);
    given.device = about.st_dev;
    given.inode = about.st_ino;
    given.made = about.st_mtim;
    janitor_adopt(&given);
}

/* Checks that the janitor removes only those names that belong to sockets, and nothing after the last name. */
static void janitor_keeps_others(void)
{
    struct sockaddr_un name;
    char path[64];
    int file = socket(AF_UNIX, SOCK_STREAM | SOCK_CLOEXEC, 0);
    snprintf(path, sizeof path, "%s/other", folder);
    CHECK(local_name(&name, path) && bind(file, (const struct sockaddr *)&name, sizeof name) == 0);
    CHECK(close(open(file_path, O_CREAT | O_WRONLY | O_CLOEXEC, 0600)) == 0);
    CHECK(janitor_start(false));
    give_name(file_path);
    janitor_seal();
    give_name(path);
    janitor_finish();
    CHECK(access(file_path, F_OK) == 0 && access(path, F_OK) == 0);
    CHECK(janitor_start(false));
    give_name(path);
    janitor_finish();
    CHECK(access(path, F_OK) != 0);
    close(file);
}

int main(void)
{
    int listener = -1, other = -1;
    bool has_filter = is_filtered(), has_reads = kernel_has_reads();
    CHECK(mkdtemp(folder) && socketpair(AF_UNIX, SOCK_STREAM, 0, ends) == 0);
    snprintf(file_path, sizeof file_path, "%s/file", folder);
    snprintf(socket_path, sizeof socket_path, "%s/socket", folder);
    snprintf(datagram_path, sizeof datagram_path, "%s/datagrams", folder);
    datagrams = socket(AF_UNIX, SOCK_DGRAM | SOCK_CLOEXEC, 0);
    event = eventfd(0, EFD_CLOEXEC);
    memory_file = memfd_create("memory", MFD_CLOEXEC);
    CHECK(ftruncate(memory_file, 4096) == 0 && !local_listen(&listener, socket_path, 4));
    CHECK(!local_bind(&other, SOCK_DGRAM, datagram_path) && sends_elsewhere());
    CHECK(close(open(file_path, O_CREAT | O_WRONLY | O_CLOEXEC, 0600)) == 0);
    for (size_t i = 0; i < sizeof trials / sizeof *trials; i++) {
        int status = 0;
        if ((!has_filter && !trials[i].may) || (!has_reads && trials[i].try == is_notified))
            continue;
        pid_t child = fork();
        CHECK(child >= 0);
        if (child == 0)
            _exit(try(&trials[i]) ? 0 : 1);
        CHECK(waitpid(child, &status, 0) == child && WIFEXITED(status));
        if (WEXITSTATUS(status))
            fprintf(stderr, "trial \"%s\", process of kind %d: %s\n", trials[i].name, trials[i].what,
                    trials[i].may ? "failed, but is allowed" : "succeeded, but is forbidden");
        CHECK(WEXITSTATUS(status) == 0);
    }
    janitor_keeps_others();
    unlink(file_path);
    local_forget_all();
    CHECK(rmdir(folder) == 0);
    printf("confined: passed%s%s\n",
           has_filter ? "" : "; not tried, since this kernel can't filter system calls: refused calls",
           has_reads ? "" : "; not tried, since this kernel has no asynchronous reads: reading an eventfd");
    return 0;
}
