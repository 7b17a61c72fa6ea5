#define _GNU_SOURCE
#include "confine.h"

#include <errno.h>
#include <fcntl.h>
#include <linux/audit.h>
#include <linux/capability.h>
#include <linux/filter.h>
#include <linux/seccomp.h>
#include <stddef.h>
#include <stdint.h>
#include <string.h>
#include <sys/mman.h>
#include <sys/prctl.h>
#include <sys/socket.h>
#include <sys/syscall.h>
#include <sys/uio.h>
#include <unistd.h>

#include "log.h"
#include "notifier.h"

/* ---- rights ---- */

static bool has_capabilities(void)
{
    struct __user_cap_header_struct head = {_LINUX_CAPABILITY_VERSION_3, 0};
    struct __user_cap_data_struct had[_LINUX_CAPABILITY_U32S_3] = {{0}};
    if (syscall(SYS_capget, &head, had) != 0)
        return true;
    return had[0].permitted || had[1].permitted || had[0].inheritable || had[1].inheritable;
}

static void drop_capabilities(void)
{
    struct __user_cap_header_struct head = {_LINUX_CAPABILITY_VERSION_3, 0};
    struct __user_cap_data_struct none[_LINUX_CAPABILITY_U32S_3] = {{0}};
    if (!has_capabilities())
        return;
    for (unsigned long one = 0; prctl(PR_CAPBSET_READ, one, 0, 0, 0) >= 0; one++)
        prctl(PR_CAPBSET_DROP, one, 0, 0, 0);
    prctl(PR_CAP_AMBIENT, PR_CAP_AMBIENT_CLEAR_ALL, 0, 0, 0);
    if (syscall(SYS_capset, &head, none) != 0)
        log_line(LOG_SERVER, "can't drop this process's capabilities: %s", strerror(errno));
}

/* Landlock's numbers, because the machine's headers may be older than its kernel. */
#define LANDLOCK_CREATE 444
#define LANDLOCK_RESTRICT 446
#define LANDLOCK_ASK_VERSION 1u

struct landlock_rights {
    uint64_t files, network, scopes;
};

/* Returns all rights that this version can deny. */
static struct landlock_rights rights_of(long version)
{
    unsigned int files = version >= 5 ? 16 : version >= 3 ? 15 : version >= 2 ? 14 : 13;
    return (struct landlock_rights){(UINT64_C(1) << files) - 1, version >= 4 ? 3 : 0, version >= 6 ? 3 : 0};
}

static void lock_files(void)
{
    long version = syscall(LANDLOCK_CREATE, NULL, 0, LANDLOCK_ASK_VERSION);
    struct landlock_rights rights = rights_of(version);
    size_t size = version >= 6 ? sizeof rights : version >= 4 ? 2 * sizeof rights.files : sizeof rights.files;
    int rules = version > 0 ? (int)syscall(LANDLOCK_CREATE, &rights, size, 0) : -1;
    if (rules < 0 || syscall(LANDLOCK_RESTRICT, rules, 0) != 0)
        log_line(LOG_SERVER, "this kernel has no Landlock (%s), so only the system call filter limits access to files",
                 strerror(errno));
    if (rules >= 0)
        close(rules);
}

/* ---- system calls ---- */

#define VALUES 6

/* An allowed call: with any arguments, or only if one argument has one of these values or none of these bits. */
struct rule {
    int call;
    enum { ANY, ONE_OF, NONE_OF } kind;
    unsigned int argument, count;
    uint32_t values[VALUES];
};

#define CALL(name)                                                                                                     \
    {                                                                                                                  \
        .call = SYS_##name                                                                                             \
    }

static const struct rule serving[] = {
#ifdef SYS_poll
    CALL(poll),
#endif
    CALL(ppoll),
    CALL(recvfrom),
    CALL(recvmsg),
    CALL(accept4),
    CALL(read),
    CALL(readv),
    CALL(write),
    CALL(writev),
    CALL(lseek),
    CALL(close),
    CALL(fstat),
    CALL(fstatfs),
    CALL(io_submit),
    CALL(io_getevents),
    CALL(futex),
    CALL(munmap),
    CALL(mremap),
    CALL(madvise),
    CALL(brk),
    CALL(clock_gettime),
    CALL(clock_nanosleep),
    CALL(getrandom),
    CALL(rt_sigreturn),
    CALL(rt_sigprocmask),
    CALL(rt_sigaction),
    CALL(restart_syscall),
    CALL(set_robust_list),
    CALL(getpid),
    CALL(gettid),
    CALL(wait4),
    CALL(exit),
    CALL(exit_group),
#ifdef SYS_rseq
    CALL(rseq),
#endif
    {SYS_preadv2, ONE_OF, 5, 1, {RWF_NOWAIT}},
    {SYS_sendto, ONE_OF, 5, 1, {0}}, /* the length of an address: 0, so only to the connected peer */
    {SYS_mmap, NONE_OF, 2, 1, {PROT_EXEC}},
    {SYS_mprotect, NONE_OF, 2, 1, {PROT_EXEC}},
    {SYS_newfstatat, ONE_OF, 3, 1, {AT_EMPTY_PATH}}, /* the C library's fstat */
    {SYS_fcntl, ONE_OF, 1, 5, {F_GETFD, F_SETFD, F_GETFL, F_DUPFD_CLOEXEC, F_GET_SEALS}},
};

static const struct rule calling[] = {
    {SYS_socket, ONE_OF, 0, 1, {AF_UNIX}},
    CALL(connect),
    CALL(read),
    CALL(sendmsg),
    CALL(close),
#ifdef SYS_poll
    CALL(poll),
#endif
    CALL(ppoll),
    CALL(exit_group),
    CALL(rt_sigreturn),
    CALL(restart_syscall),
};

static const struct rule looking[] = {
#ifdef SYS_readlink
    CALL(readlink),
#endif
    CALL(readlinkat),
};

static const struct rule tidying[] = {
    CALL(read),         CALL(close),      CALL(fstat), CALL(exit_group),
    CALL(rt_sigreturn), CALL(newfstatat), CALL(brk),   CALL(munmap),
#ifdef SYS_unlink
    CALL(unlink),
#endif
#ifdef SYS_lstat
    CALL(lstat),
#endif
    CALL(unlinkat),
};

#if defined(__x86_64__)
#define PROCESSOR AUDIT_ARCH_X86_64
#elif defined(__aarch64__)
#define PROCESSOR AUDIT_ARCH_AARCH64
#endif

#ifdef PROCESSOR

#define STEPS_MOST 256
#define WORD(at) BPF_STMT(BPF_LD | BPF_W | BPF_ABS, (at))
#define ANSWER(what) BPF_STMT(BPF_RET | BPF_K, (what))

struct program {
    struct sock_filter steps[STEPS_MOST];
    unsigned short count;
};

static void put(struct program *it, struct sock_filter step)
{
    if (it->count < STEPS_MOST)
        it->steps[it->count++] = step;
}

static void put_jump(struct program *it, uint16_t test, uint32_t value, uint8_t if_so, uint8_t if_not)
{
    put(it, (struct sock_filter)BPF_JUMP((uint16_t)(BPF_JMP | test | BPF_K), value, if_so, if_not));
}

/* Adds the rule for one system call. The number of the call to check is loaded before the rule, and stays loaded if the
   rule is for another call. */
static void put_rule(struct program *it, const struct rule *rule)
{
    uint8_t arguments = (uint8_t)(rule->kind == ANY ? 0 : 1 + rule->count + 1);
    put_jump(it, BPF_JEQ, (uint32_t)rule->call, 0, (uint8_t)(arguments + 1));
    if (rule->kind != ANY)
        put(it, (struct sock_filter)WORD((uint32_t)(offsetof(struct seccomp_data, args) + 8 * rule->argument)));
    for (uint8_t i = 0; rule->kind != ANY && i < rule->count; i++) {
        uint8_t left = (uint8_t)(rule->count - i - 1);
        if (rule->kind == ONE_OF)
            put_jump(it, BPF_JEQ, rule->values[i], (uint8_t)(left + 1), 0);
        else
            put_jump(it, BPF_JSET, rule->values[i], left, (uint8_t)(left ? 0 : 1));
    }
    if (rule->kind != ANY)
        put(it, (struct sock_filter)ANSWER(SECCOMP_RET_ERRNO | EPERM));
    put(it, (struct sock_filter)ANSWER(SECCOMP_RET_ALLOW));
}

static void put_rules(struct program *it, const struct rule *rules, size_t count)
{
    for (size_t i = 0; i < count; i++)
        put_rule(it, &rules[i]);
}

static void put_server(struct program *it)
{
    const struct rule own_signals = {SYS_tgkill, ONE_OF, 0, 1, {(uint32_t)getpid()}};
    put_rules(it, serving, sizeof serving / sizeof *serving);
    put_rules(it, looking, notifier_reads_names() ? sizeof looking / sizeof *looking : 0);
    put_rule(it, &own_signals);
}

static void make(struct program *it, enum confine_as what)
{
    it->count = 0;
    put(it, (struct sock_filter)WORD(offsetof(struct seccomp_data, arch)));
    put_jump(it, BPF_JEQ, PROCESSOR, 1, 0);
    put(it, (struct sock_filter)ANSWER(SECCOMP_RET_KILL_PROCESS));
    put(it, (struct sock_filter)WORD(offsetof(struct seccomp_data, nr)));
    switch (what) {
    case CONFINE_SERVER: put_server(it); break;
    case CONFINE_CALLER: put_rules(it, calling, sizeof calling / sizeof *calling); break;
    case CONFINE_JANITOR: put_rules(it, tidying, sizeof tidying / sizeof *tidying); break;
    }
    put(it, (struct sock_filter)ANSWER(SECCOMP_RET_ERRNO | EPERM));
}

/* Installs the system call filter in all threads. Returns false with errno set if it can't. */
static bool filter(enum confine_as what)
{
    struct program program;
    make(&program, what);
    struct sock_fprog whole = {program.count, program.steps};
    return program.count < STEPS_MOST &&
           syscall(SYS_seccomp, SECCOMP_SET_MODE_FILTER, SECCOMP_FILTER_FLAG_TSYNC, &whole) == 0;
}

#else

static bool filter(enum confine_as what)
{
    (void)what;
    errno = ENOSYS;
    return false;
}

#endif

/* ---- confinement ---- */

/* The address sanitizer's leak check makes calls that aren't listed, so a build with it keeps its rights. */
#ifdef __SANITIZE_ADDRESS__
#define KEEPS_RIGHTS true
#else
#define KEEPS_RIGHTS false
#endif

void confine_files(enum confine_as what)
{
    if (KEEPS_RIGHTS)
        return;
    if (prctl(PR_SET_NO_NEW_PRIVS, 1, 0, 0, 0) != 0)
        log_line(LOG_SERVER, "programs that this process starts may gain privileges: %s", strerror(errno));
    drop_capabilities();
    if (what != CONFINE_JANITOR)
        lock_files();
}

void confine_calls(enum confine_as what)
{
    if (!KEEPS_RIGHTS && !filter(what))
        log_line(LOG_SERVER, "can't filter system calls: %s", strerror(errno));
}
