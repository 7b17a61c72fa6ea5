#define _GNU_SOURCE
#include "local_socket.h"

#include <errno.h>
#include <fcntl.h>
#include <stdint.h>
#include <string.h>
#include <sys/file.h>
#include <sys/stat.h>
#include <time.h>
#include <unistd.h>

#include "janitor.h"
#include "log.h"

#define NAMES_MOST 32
#define LOCK_TRIES 100
#define LOCK_NANOSECONDS 10000000L /* time between two attempts */

static struct local_given names[NAMES_MOST];

bool local_name(struct sockaddr_un *name, const char *path)
{
    *name = (struct sockaddr_un){.sun_family = AF_UNIX};
    if (strlen(path) >= sizeof name->sun_path)
        return false;
    memcpy(name->sun_path, path, strlen(path));
    return true;
}

/* ---- existing names ---- */

/* Connecting with a type other than the socket's fails without the socket's owner noticing: with EPROTOTYPE if a
   process has the socket open, with ECONNREFUSED if none does. The attempt has no effect on a datagram socket. */
static bool is_dead(const struct sockaddr_un *name)
{
    int file = socket(AF_UNIX, SOCK_DGRAM | SOCK_CLOEXEC | SOCK_NONBLOCK, 0);
    bool is_refused =
        file >= 0 && connect(file, (const struct sockaddr *)name, sizeof *name) != 0 && errno == ECONNREFUSED;
    if (file >= 0)
        close(file);
    return is_refused;
}

/* Frees the name if no process uses it. Returns null, or why it can't. */
static const char *make_free(const struct sockaddr_un *name)
{
    struct stat about;
    if (lstat(name->sun_path, &about) != 0)
        return errno == ENOENT ? NULL : strerror(errno);
    if (!S_ISSOCK(about.st_mode))
        return "a file that isn't a socket already exists; choose another name, or remove it";
    if (about.st_uid != geteuid())
        return "another user's socket already exists; choose another name";
    if (!is_dead(name))
        return "a server already uses this socket; choose another name, or stop that server";
    return unlink(name->sun_path) == 0 ? NULL : strerror(errno);
}

/* ---- binding a name ---- */

bool local_adopt(const struct local_given *given)
{
    unsigned int i = 0;
    while (i < NAMES_MOST && names[i].path[0])
        i++;
    if (i < NAMES_MOST)
        names[i] = *given;
    return i < NAMES_MOST;
}

static const char *remember(const char *path)
{
    struct stat about;
    struct local_given given = {.path = ""};
    if (lstat(path, &about) != 0)
        return strerror(errno);
    strcpy(given.path, path);
    given.device = about.st_dev;
    given.inode = about.st_ino;
    given.made = about.st_mtim;
    if (!local_adopt(&given))
        return "this process has too many open sockets";
    janitor_adopt(&given);
    return NULL;
}

static const char *bind_free(int file, const struct sockaddr_un *name)
{
    const char *error = make_free(name);
    if (error)
        return error;
    mode_t mask = umask(0177);
    bool is_bound = bind(file, (const struct sockaddr *)name, sizeof *name) == 0;
    umask(mask);
    return is_bound ? remember(name->sun_path) : strerror(errno);
}

/* Opens the folder of a name and locks it against other servers that try the same name. If the lock isn't available, or
   another process keeps it, the name is checked without the lock. Returns -1 if the folder can't be opened. */
static int lock_folder(const char *path)
{
    char folder[LOCAL_PATH_MOST + 1] = ".";
    const char *slash = strrchr(path, '/');
    const struct timespec pause = {0, LOCK_NANOSECONDS};
    if (slash) {
        size_t length = slash == path ? 1 : (size_t)(slash - path);
        memcpy(folder, path, length);
        folder[length] = 0;
    }
    int file = open(folder, O_RDONLY | O_DIRECTORY | O_CLOEXEC);
    for (int i = 0; file >= 0 && i < LOCK_TRIES && flock(file, LOCK_EX | LOCK_NB) != 0 && errno == EWOULDBLOCK; i++)
        nanosleep(&pause, NULL);
    return file;
}

const char *local_bind(int *file, int type, const char *path)
{
    struct sockaddr_un name;
    *file = -1;
    if (!local_name(&name, path))
        return strerror(ENAMETOOLONG);
    int made = socket(AF_UNIX, type | SOCK_CLOEXEC | SOCK_NONBLOCK, 0);
    if (made < 0)
        return strerror(errno);
    int folder = lock_folder(path);
    const char *error = bind_free(made, &name);
    if (folder >= 0)
        close(folder);
    if (error)
        close(made);
    else
        *file = made;
    return error;
}

const char *local_listen(int *file, const char *path, int backlog)
{
    const char *error = local_bind(file, SOCK_STREAM, path);
    if (error || listen(*file, backlog) == 0)
        return error;
    error = strerror(errno);
    close(*file);
    *file = -1;
    local_forget(path);
    return error;
}

int local_connect(const char *path)
{
    struct sockaddr_un name;
    if (!local_name(&name, path))
        return -1;
    int file = socket(AF_UNIX, SOCK_STREAM | SOCK_CLOEXEC | SOCK_NONBLOCK, 0);
    if (file < 0 || connect(file, (const struct sockaddr *)&name, sizeof name) == 0)
        return file;
    close(file);
    return -1;
}

/* ---- accepting a connection ---- */

static uint64_t rests_until; /* time in milliseconds until which the listeners rest; 0: they don't */

static uint64_t now(void)
{
    struct timespec time;
    clock_gettime(CLOCK_MONOTONIC, &time);
    return (uint64_t)time.tv_sec * 1000 + (uint64_t)time.tv_nsec / 1000000;
}

int local_accept(int listener)
{
    int file = accept4(listener, NULL, NULL, SOCK_CLOEXEC | SOCK_NONBLOCK);
    if (file < 0 && (errno == EMFILE || errno == ENFILE || errno == ENOBUFS || errno == ENOMEM)) {
        log_line(LOG_SERVER, "a client is waiting, because this process can't open another file: %s", strerror(errno));
        rests_until = now() + LOCAL_REST_MS;
    }
    return file;
}

bool local_rests(void)
{
    if (rests_until && now() >= rests_until)
        rests_until = 0;
    return rests_until != 0;
}

/* ---- removing a name ---- */

static void forget(struct local_given *it)
{
    struct stat about;
    if (lstat(it->path, &about) == 0 && S_ISSOCK(about.st_mode) && about.st_dev == it->device &&
        about.st_ino == it->inode && about.st_mtim.tv_sec == it->made.tv_sec &&
        about.st_mtim.tv_nsec == it->made.tv_nsec)
        unlink(it->path);
    it->path[0] = 0;
}

void local_forget(const char *path)
{
    for (unsigned int i = 0; i < NAMES_MOST; i++)
        if (strcmp(names[i].path, path) == 0 && *path)
            forget(&names[i]);
}

void local_forget_all(void)
{
    for (unsigned int i = 0; i < NAMES_MOST; i++)
        if (names[i].path[0])
            forget(&names[i]);
}
