#define _GNU_SOURCE
#include "closer.h"

#include <fcntl.h>
#include <pthread.h>
#include <signal.h>
#include <stdlib.h>
#include <string.h>
#include <sys/socket.h>
#include <unistd.h>

#define FILES_AT_ONCE 253 /* the kernel's limit: with less room, the kernel would close some immediately */

struct waiting {
    int file;
    unsigned int owner;
};

/* Files waiting for one thread. */
struct queue {
    pthread_mutex_t lock;
    pthread_cond_t changed;
    struct waiting *files;
    unsigned int count, room;
    unsigned int of_owner[CLOSER_OWNERS]; /* including files being closed */
    bool is_closing;
    bool is_there; /* the queue's thread is running */
};

static struct queue own, foreign[CLOSER_OWNERS];
static bool has_threads;

/* ---- the threads ---- */

static struct waiting take(struct queue *it)
{
    it->is_closing = false;
    pthread_cond_broadcast(&it->changed);
    while (it->count == 0)
        pthread_cond_wait(&it->changed, &it->lock);
    it->is_closing = true;
    return it->files[--it->count];
}

static void *close_all(void *queue)
{
    struct queue *it = queue;
    pthread_mutex_lock(&it->lock);
    it->is_there = true;
    for (;;) {
        struct waiting one = take(it);
        pthread_mutex_unlock(&it->lock);
        close(one.file);
        pthread_mutex_lock(&it->lock);
        __atomic_sub_fetch(&it->of_owner[one.owner], 1, __ATOMIC_RELAXED);
    }
    return NULL;
}

/* Waits until a new thread runs, because starting it makes system calls that a confined process may not make. */
static void await(struct queue *it)
{
    pthread_mutex_lock(&it->lock);
    while (!it->is_there)
        pthread_cond_wait(&it->changed, &it->lock);
    pthread_mutex_unlock(&it->lock);
}

/* Starts a queue's thread, which blocks all signals: the process's first thread handles them. */
static bool start(struct queue *it)
{
    pthread_t thread;
    sigset_t all, before;
    if (pthread_mutex_init(&it->lock, NULL) != 0 || pthread_cond_init(&it->changed, NULL) != 0)
        return false;
    sigfillset(&all);
    pthread_sigmask(SIG_SETMASK, &all, &before);
    int error = pthread_create(&thread, NULL, close_all, it);
    pthread_sigmask(SIG_SETMASK, &before, NULL);
    if (error != 0)
        return false;
    await(it);
    return pthread_detach(thread) == 0;
}

bool closer_start(void)
{
    if (has_threads)
        return true;
    bool all = start(&own);
    for (unsigned int owner = 0; all && owner < CLOSER_OWNERS; owner++)
        all = start(&foreign[owner]);
    has_threads = all;
    return all;
}

/* ---- passing files to the threads ---- */

static bool make_room(struct queue *it)
{
    if (it->count < it->room)
        return true;
    unsigned int room = it->room ? 2 * it->room : 64;
    struct waiting *more = realloc(it->files, room * sizeof *more);
    if (!more)
        return false;
    it->files = more;
    it->room = room;
    return true;
}

static void give(struct queue *it, int file, unsigned int owner)
{
    if (!has_threads) {
        close(file);
        return;
    }
    pthread_mutex_lock(&it->lock);
    bool fits = make_room(it);
    if (fits) {
        it->files[it->count++] = (struct waiting){file, owner};
        __atomic_add_fetch(&it->of_owner[owner], 1, __ATOMIC_RELAXED);
        pthread_cond_broadcast(&it->changed);
    }
    pthread_mutex_unlock(&it->lock);
    if (!fits)
        close(file);
}

/* Only memory files have seals. The kernel itself answers this query, without asking a file system. */
bool closer_is_memory(int file)
{
    return fcntl(file, F_GET_SEALS) >= 0;
}

void closer_close(int file, unsigned int owner)
{
    if (closer_is_memory(file))
        give(&own, file, owner % CLOSER_OWNERS);
    else
        closer_close_foreign(file, owner);
}

void closer_close_foreign(int file, unsigned int owner)
{
    give(&foreign[owner % CLOSER_OWNERS], file, owner % CLOSER_OWNERS);
}

static void close_files(const struct cmsghdr *with, unsigned int owner)
{
    size_t count = (with->cmsg_len - CMSG_LEN(0)) / sizeof(int);
    for (size_t i = 0; i < count; i++) {
        int file;
        memcpy(&file, CMSG_DATA(with) + i * sizeof file, sizeof file);
        closer_close(file, owner);
    }
}

ssize_t closer_receive(int file, void *bytes, size_t room, int flags, unsigned int owner)
{
    union {
        struct cmsghdr aligned;
        char room[CMSG_SPACE(FILES_AT_ONCE * sizeof(int))];
    } control;
    struct iovec part = {bytes, room};
    struct msghdr head = {
        .msg_iov = &part, .msg_iovlen = 1, .msg_control = control.room, .msg_controllen = sizeof control.room};
    ssize_t got = recvmsg(file, &head, flags | MSG_CMSG_CLOEXEC);
    if (got < 0)
        return got;
    for (struct cmsghdr *c = CMSG_FIRSTHDR(&head); c; c = CMSG_NXTHDR(&head, c))
        if (c->cmsg_level == SOL_SOCKET && c->cmsg_type == SCM_RIGHTS)
            close_files(c, owner);
    return got;
}

bool closer_is_full(unsigned int owner)
{
    unsigned int of = owner % CLOSER_OWNERS;
    return __atomic_load_n(&foreign[of].of_owner[of], __ATOMIC_RELAXED) >= CLOSER_FOREIGN_MOST ||
           __atomic_load_n(&own.of_owner[of], __ATOMIC_RELAXED) >= CLOSER_OWN_MOST;
}

void closer_settle(void)
{
    if (!has_threads)
        return;
    pthread_mutex_lock(&own.lock);
    while (own.count || own.is_closing)
        pthread_cond_wait(&own.changed, &own.lock);
    pthread_mutex_unlock(&own.lock);
}
