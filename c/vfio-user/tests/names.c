/* Checks the names of sockets with the program itself. The program takes over only a dead socket of its user, its
   sockets are accessible only to that user, and a server that exits doesn't remove another server's name. names PROGRAM
   FOLDER */
#define _GNU_SOURCE
#include <fcntl.h>
#include <signal.h>
#include <string.h>
#include <sys/socket.h>
#include <sys/stat.h>
#include <sys/un.h>
#include <unistd.h>

#include "../../tests/check.h"
#include "local_socket.h"
#include "peer/peer.h"
#include "peer/program.h"

static const struct way {
    const char *option;
    int type; /* type of the server's socket */
} ways[] = {{"--socket-path=", SOCK_STREAM},
            {"--control=", SOCK_STREAM},
            {"--wire=listen:", SOCK_STREAM},
            {"--wire=dgram:", SOCK_DGRAM}};

#define WAIT_MS 300000
#define WAYS (sizeof ways / sizeof *ways)

static const char *path;

/* Starts a server with this option, which creates a socket at `path`. */
static pid_t start(const struct way *way, int errors)
{
    static char word[300];
    bool is_first = strcmp(way->option, "--socket-path=") == 0;
    const char *words[] = {word, "--quiet", is_first ? NULL : program_path("--socket-path=", "other"), NULL};
    snprintf(word, sizeof word, "%s%s%s", way->option, path, way->type == SOCK_DGRAM ? ",/nowhere" : "");
    return program_start(words, NULL, errors);
}

static struct sockaddr_un name_of(const char *text)
{
    struct sockaddr_un name = {.sun_family = AF_UNIX};
    snprintf(name.sun_path, sizeof name.sun_path, "%s", text);
    return name;
}

static int bound(int type)
{
    struct sockaddr_un name = name_of(path);
    int file = socket(AF_UNIX, type | SOCK_CLOEXEC, 0);
    CHECK(file >= 0 && bind(file, (const struct sockaddr *)&name, sizeof name) == 0);
    return file;
}

/* A server that can't start says why, and doesn't change the existing file. */
static void is_refused(const struct way *way, const char *why)
{
    char said[512] = "";
    struct stat before, after;
    int ends[2];
    CHECK(pipe(ends) == 0 && lstat(path, &before) == 0);
    pid_t server = start(way, ends[1]);
    close(ends[1]);
    CHECK(program_status(server) == 2 && read(ends[0], said, sizeof said - 1) > 0 && strstr(said, why));
    CHECK(lstat(path, &after) == 0 && before.st_ino == after.st_ino && before.st_dev == after.st_dev);
    close(ends[0]);
}

static void wait_for_name(void)
{
    for (int i = 0; i < WAIT_MS && access(path, F_OK) != 0; i++)
        usleep(1000);
    CHECK(access(path, F_OK) == 0);
}

/* Checks that the program keeps an existing file, folder or link. */
static void other_things(const struct way *way, bool is_long)
{
    int file = open(path, O_WRONLY | O_CREAT | O_EXCL | O_CLOEXEC, 0600);
    CHECK(file >= 0 && write(file, "precious", 8) == 8);
    close(file);
    is_refused(way, "isn't a socket already exists");
    CHECK(unlink(path) == 0);
    if (!is_long)
        return;
    CHECK(mkdir(path, 0700) == 0);
    is_refused(way, "isn't a socket already exists");
    CHECK(rmdir(path) == 0 && symlink("/nowhere", path) == 0);
    is_refused(way, "isn't a socket already exists");
    CHECK(unlink(path) == 0);
}

/* Checks that a socket is kept while a process has it open, even if no process listens on it, and that a dead socket is
   replaced. */
static void other_sockets(const struct way *way, bool is_long)
{
    const int types[] = {way->type, SOCK_DGRAM, SOCK_SEQPACKET};
    struct stat about;
    for (unsigned int i = 0; i < (is_long ? 3 : 1); i++) {
        int file = bound(types[i]);
        is_refused(way, "a server already uses this socket");
        close(file);
        CHECK(chmod(path, 0640) == 0);
        pid_t server = start(way, -1);
        for (int k = 0; k < WAIT_MS && (lstat(path, &about) != 0 || (about.st_mode & 0777) != 0600); k++)
            usleep(1000);
        CHECK((about.st_mode & 0777) == 0600);
        CHECK(program_end(server) == 0 && access(path, F_OK) != 0);
    }
}

/* The first server's socket has mode 0600, regardless of the umask. A second server is refused, and the first keeps
   running. */
static void two_servers(const struct way *way)
{
    struct stat about;
    mode_t mask = umask(0);
    pid_t first = start(way, -1);
    umask(mask);
    wait_for_name();
    CHECK(lstat(path, &about) == 0 && S_ISSOCK(about.st_mode) && (about.st_mode & 0777) == 0600);
    is_refused(way, "a server already uses this socket");
    CHECK(program_rests(first) && program_end(first) == 0 && access(path, F_OK) != 0);
}

/* On exit, a server doesn't remove a file that has replaced its socket under the same name. */
static void name_of_another(const struct way *way)
{
    pid_t server = start(way, -1);
    wait_for_name();
    CHECK(program_rests(server) && unlink(path) == 0);
    int file = bound(SOCK_STREAM);
    CHECK(program_end(server) == 0 && access(path, F_OK) == 0 && unlink(path) == 0);
    close(file);
}

/* Checking whether a socket is dead doesn't connect to it, so the first server's client isn't disturbed. */
static void is_no_client(void)
{
    char said[4096] = "";
    struct peer peer;
    int ends[2];
    CHECK(pipe(ends) == 0);
    pid_t server = start(&ways[0], ends[1]);
    close(ends[1]);
    peer_open(&peer, path);
    CHECK(peer_version(&peer) == 0);
    is_refused(&ways[0], "a server already uses this socket");
    CHECK(peer_config(&peer, 0, 4) == 0x10F78086);
    peer_close(&peer);
    CHECK(program_end(server) == 0);
    size_t length = 0;
    for (ssize_t got = 1; got > 0; length += got > 0 ? (size_t)got : 0)
        got = read(ends[0], said + length, sizeof said - 1 - length);
    const char *first = strstr(said, "a client connected");
    CHECK(first && !strstr(first + 1, "a client connected") && !strstr(said, "is rejected"));
    close(ends[0]);
}

/* Checks the module itself: it refuses names that are too long, and listeners rest when no file descriptor is left. */
static void module(void)
{
    char longer[200];
    int file = 5;
    memset(longer, 'x', sizeof longer);
    longer[sizeof longer - 1] = 0;
    CHECK(local_listen(&file, longer, 1) && file == -1 && local_connect(longer) < 0 && local_connect(path) < 0);
    CHECK(!local_listen(&file, path, 1) && file >= 0 && !local_rests() && local_accept(file) < 0 && !local_rests());
    int client = local_connect(path);
    CHECK(client >= 0);
    close(client);
    close(file);
    local_forget(path);
    CHECK(access(path, F_OK) != 0);
}

int main(int count, char **words)
{
    CHECK(count == 3);
    signal(SIGPIPE, SIG_IGN);
    program_is(words[1], words[2]);
    path = program_path("", "name");
    for (size_t i = 0; i < WAYS; i++) {
        other_things(&ways[i], i == 0);
        other_sockets(&ways[i], i == 0);
        two_servers(&ways[i]);
        name_of_another(&ways[i]);
    }
    is_no_client();
    module();
    printf("names: passed\n");
    return 0;
}
