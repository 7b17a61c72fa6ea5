/* A library that dev/refusals preloads before the C library. It refuses one allocation, thread, read or write of the
   program, selected by its number, and reports its counts at exit.

   REFUSE_GROWTH, REFUSE_THREAD, FAIL_IO and SHORT_IO are numbers, counted from 1. With REFUSE_WITHIN, allocations count
   only after a `call` line on standard output, and before the line that follows it. The first REFUSE_SKIP allocations
   don't count, because they belong to the language's startup, before the program's own. With REFUSE_OWN, only
   allocations of a thread that wrote a `call` line count; others belong to the test runner. With LATE_THREADS, each
   thread is created but starts this many seconds later, as on a busy machine. At exit, one line goes to the file
   descriptor REFUSE_TELL: the numbers of allocations, threads, reads and writes; whether one was refused; how many
   blocks of memory weren't freed; and which allocation was the last before the first thread, because that one is for
   the thread itself. */
#define _GNU_SOURCE
#include <dlfcn.h>
#include <errno.h>
#include <pthread.h>
#include <stdatomic.h>
#include <stdio.h>
#include <stdlib.h>
#include <string.h>
#include <sys/syscall.h>
#include <unistd.h>

extern void *__libc_malloc(size_t), *__libc_calloc(size_t, size_t), *__libc_realloc(void *, size_t);
extern void __libc_free(void *);

static atomic_long growths, threads, transfers, refused, held;
static long of_thread;
static long refuse_growth, refuse_thread, fail_io, short_io, skipped, late_by;
static int within, own, tell = -1, ready;
static atomic_int counting;
static __thread int is_caller;

static long number(const char *name)
{
    const char *text = getenv(name);
    return text ? atol(text) : 0;
}

__attribute__((constructor)) static void begin(void)
{
    refuse_growth = number("REFUSE_GROWTH");
    refuse_thread = number("REFUSE_THREAD");
    fail_io = number("FAIL_IO");
    short_io = number("SHORT_IO");
    skipped = number("REFUSE_SKIP");
    late_by = number("LATE_THREADS");
    within = getenv("REFUSE_WITHIN") != NULL;
    own = getenv("REFUSE_OWN") != NULL;
    tell = getenv("REFUSE_TELL") ? (int)number("REFUSE_TELL") : -1;
    counting = !within;
    ready = 1;
}

__attribute__((destructor)) static void finish(void)
{
    char line[200];
    int length =
        snprintf(line, sizeof line, "growths %ld threads %ld transfers %ld refused %ld held %ld of_thread %ld\n",
                 growths, threads, transfers, refused, held, of_thread);
    counting = 0;
    if (tell >= 0)
        syscall(SYS_write, tell, line, length);
    tell = -1;
}

/* A program with threads exits through this call, which runs no exit handlers. */
__attribute__((noreturn)) void _exit(int status)
{
    finish();
    syscall(SYS_exit_group, status);
    __builtin_unreachable();
}

static int is_others(void)
{
    return own && !is_caller;
}

/* Whether this is the allocation to refuse. */
static int is_refused(void)
{
    if (!ready || !counting || is_others() || skipped-- > 0 || ++growths != refuse_growth)
        return 0;
    refused++;
    errno = ENOMEM;
    return 1;
}

void *malloc(size_t size)
{
    if (is_refused())
        return NULL;
    void *block = __libc_malloc(size);
    held += block != NULL;
    return block;
}

void *calloc(size_t count, size_t size)
{
    void *block = __libc_calloc(count, size);
    held += block != NULL;
    return block;
}

void *realloc(void *former, size_t size)
{
    if (is_refused())
        return NULL;
    void *block = __libc_realloc(former, size);
    held += former == NULL && block != NULL;
    return block;
}

void free(void *block)
{
    held -= block != NULL;
    __libc_free(block);
}

/* A thread that starts late. */
struct late {
    void *(*start)(void *);
    void *of;
};

static void *begin_late(void *at)
{
    struct late it = *(struct late *)at;
    __libc_free(at);
    sleep((unsigned)late_by);
    return it.start(it.of);
}

int pthread_create(pthread_t *thread, const pthread_attr_t *how, void *(*start)(void *), void *of)
{
    static int (*real)(pthread_t *, const pthread_attr_t *, void *(*)(void *), void *);
    if (!real)
        *(void **)&real = dlsym(RTLD_NEXT, "pthread_create");
    if (!threads)
        of_thread = growths;
    if (++threads == refuse_thread) {
        refused++;
        return EAGAIN;
    }
    struct late *late = late_by ? __libc_malloc(sizeof *late) : NULL;
    if (!late)
        return real(thread, how, start, of);
    *late = (struct late){start, of};
    return real(thread, how, begin_late, late);
}

/* Returns -1 if the transfer of this many bytes must fail, otherwise how many of them to transfer. */
static ssize_t asked(size_t count)
{
    long this = ++transfers;
    if (this == fail_io) {
        refused++;
        errno = EIO;
        return -1;
    }
    if (this == short_io && count > 1) {
        refused++;
        return 1;
    }
    return (ssize_t)count;
}

ssize_t read(int file, void *bytes, size_t count)
{
    static ssize_t (*real)(int, void *, size_t);
    if (!real)
        *(void **)&real = dlsym(RTLD_NEXT, "read");
    ssize_t some = asked(count);
    return some < 0 ? some : real(file, bytes, (size_t)some);
}

/* Starts counting allocations after a `call` line, and stops before the next line. */
static void look(const char *bytes, size_t count)
{
    static char line[8];
    static size_t length;
    for (size_t at = 0; at < count; at++) {
        if (bytes[at] != '\n') {
            if (length < sizeof line)
                line[length++] = bytes[at];
            counting = 0;
            continue;
        }
        counting = length == 4 && memcmp(line, "call", 4) == 0;
        is_caller |= counting;
        length = 0;
    }
}

ssize_t write(int file, const void *bytes, size_t count)
{
    static ssize_t (*real)(int, const void *, size_t);
    if (!real)
        *(void **)&real = dlsym(RTLD_NEXT, "write");
    if (within && file == 1)
        look(bytes, count);
    ssize_t some = asked(count);
    return some < 0 ? some : real(file, bytes, (size_t)some);
}
