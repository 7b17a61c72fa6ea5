#define _GNU_SOURCE
#include "notifier.h"

#include <errno.h>
#include <fcntl.h>
#include <linux/aio_abi.h>
#include <poll.h>
#include <stdint.h>
#include <stdio.h>
#include <string.h>
#include <sys/syscall.h>
#include <sys/uio.h>
#include <time.h>
#include <unistd.h>

#define READS 128       /* number of reads for whose results the kernel has room */
#define READS_A_REAP 64 /* results are discarded when this many have accumulated */

static aio_context_t reads; /* 0: none */
static int source = -1;     /* opened only for reading; nothing is read from it */
static unsigned int results;

bool notifier_open(void)
{
    if (reads)
        return true;
    source = open("/dev/null", O_RDONLY | O_CLOEXEC);
    if (source >= 0 && syscall(SYS_io_setup, READS, &reads) == 0)
        return true;
    reads = 0;
    return false;
}

/* Starts an access of zero bytes, which signals the file when the access completes. */
static long submit(int file, uint16_t operation)
{
    struct iocb access = {.aio_fildes = (uint32_t)source,
                          .aio_lio_opcode = operation,
                          .aio_flags = IOCB_FLAG_RESFD,
                          .aio_resfd = (uint32_t)file};
    struct iocb *accesses[] = {&access};
    return syscall(SYS_io_submit, reads, 1L, accesses);
}

static void reap(void)
{
    struct io_event ends[READS];
    struct timespec now = {0, 0};
    syscall(SYS_io_getevents, reads, 0L, (long)READS, ends, &now);
    results = 0;
}

/* Without asynchronous reads, compares the kernel's name for the file, which doesn't access the file itself. */
static bool is_named_eventfd(int file)
{
    char link[64], name[64];
    snprintf(link, sizeof link, "/proc/self/fd/%d", file);
    ssize_t length = readlink(link, name, sizeof name);
    return length == (ssize_t)strlen("anon_inode:[eventfd]") &&
           memcmp(name, "anon_inode:[eventfd]", (size_t)length) == 0;
}

bool notifier_reads_names(void)
{
    return !reads;
}

/* Asks the kernel, which checks this file first: EINVAL means that the file isn't an eventfd, EBADF that it is one but
   the source isn't open for writing. Neither error signals the file. */
bool notifier_takes(int file)
{
    if (reads)
        return submit(file, IOCB_CMD_PWRITE) < 0 && errno == EBADF && fcntl(file, F_GETFD) >= 0;
    return is_named_eventfd(file);
}

static bool write_one(int file)
{
    uint64_t one = 1;
    struct pollfd room = {file, POLLOUT, 0};
    if (poll(&room, 1, 0) != 1 || !(room.revents & POLLOUT))
        return true;
    return write(file, &one, sizeof one) == (ssize_t)sizeof one || errno == EAGAIN || errno == EINTR;
}

bool notifier_send(int file)
{
    if (!reads)
        return write_one(file);
    if (results == READS_A_REAP)
        reap();
    if (submit(file, IOCB_CMD_PREAD) != 1)
        return errno == EAGAIN;
    results++;
    return true;
}

enum notifier_taken notifier_take(int file)
{
    uint64_t count;
    struct iovec part = {&count, sizeof count};
    if (preadv2(file, &part, 1, -1, RWF_NOWAIT) == (ssize_t)sizeof count)
        return NOTIFIER_SIGNALLED;
    return errno == EAGAIN || errno == EINTR ? NOTIFIER_NOTHING : NOTIFIER_CANT;
}
