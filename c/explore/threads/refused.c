/* Calls that aren't intercepted, but could wait forever or end more than a task. In a task, they are refused with a
   message that names them. Elsewhere they work as usual. */
#define _GNU_SOURCE
#include <poll.h>
#include <pthread.h>
#include <semaphore.h>
#include <signal.h>
#include <stdio.h>
#include <sys/epoll.h>
#include <sys/select.h>
#include <sys/sem.h>
#include <sys/socket.h>
#include <sys/syscall.h>
#include <sys/wait.h>
#include <unistd.h>

#include "form.h"

#define REFUSED(type, name, parameters, arguments)                                                                     \
    type __real_##name parameters;                                                                                     \
    type __wrap_##name parameters                                                                                      \
    {                                                                                                                  \
        nicxi_refuse(#name, HERE);                                                                                     \
        return __real_##name arguments;                                                                                \
    }

REFUSED(int, pthread_cancel, (pthread_t thread), (thread))
REFUSED(int, pthread_kill, (pthread_t thread, int number), (thread, number))
REFUSED(int, pthread_sigqueue, (pthread_t thread, int number, const union sigval value), (thread, number, value))
REFUSED(int, pthread_clockjoin_np, (pthread_t thread, void **result, clockid_t clock, const struct timespec *until),
        (thread, result, clock, until))
REFUSED(int, pthread_getcpuclockid, (pthread_t thread, clockid_t *clock), (thread, clock))
REFUSED(int, pthread_getattr_np, (pthread_t thread, pthread_attr_t *how), (thread, how))
REFUSED(int, pthread_mutex_consistent, (pthread_mutex_t * mutex), (mutex))
REFUSED(int, pthread_rwlock_clockrdlock, (pthread_rwlock_t * lock, clockid_t clock, const struct timespec *until),
        (lock, clock, until))
REFUSED(int, pthread_rwlock_clockwrlock, (pthread_rwlock_t * lock, clockid_t clock, const struct timespec *until),
        (lock, clock, until))
REFUSED(int, poll, (struct pollfd * files, nfds_t count, int time), (files, count, time))
REFUSED(int, ppoll, (struct pollfd * files, nfds_t count, const struct timespec *time, const sigset_t *mask),
        (files, count, time, mask))
REFUSED(int, select, (int count, fd_set *reads, fd_set *writes, fd_set *others, struct timeval *time),
        (count, reads, writes, others, time))
REFUSED(int, pselect,
        (int count, fd_set *reads, fd_set *writes, fd_set *others, const struct timespec *time, const sigset_t *mask),
        (count, reads, writes, others, time, mask))
REFUSED(int, epoll_wait, (int file, struct epoll_event *events, int count, int time), (file, events, count, time))
REFUSED(int, epoll_pwait, (int file, struct epoll_event *events, int count, int time, const sigset_t *mask),
        (file, events, count, time, mask))
REFUSED(int, sigwait, (const sigset_t *set, int *number), (set, number))
REFUSED(int, sigwaitinfo, (const sigset_t *set, siginfo_t *info), (set, info))
REFUSED(int, sigtimedwait, (const sigset_t *set, siginfo_t *info, const struct timespec *time), (set, info, time))
REFUSED(int, sigsuspend, (const sigset_t *mask), (mask))
REFUSED(int, pause, (void), ())
REFUSED(int, sem_close, (sem_t * semaphore), (semaphore))
REFUSED(int, semop, (int id, struct sembuf *operations, size_t count), (id, operations, count))
REFUSED(int, accept, (int file, struct sockaddr *address, socklen_t *length), (file, address, length))
REFUSED(ssize_t, recv, (int file, void *bytes, size_t length, int flags), (file, bytes, length, flags))
REFUSED(ssize_t, recvmsg, (int file, struct msghdr *message, int flags), (file, message, flags))
REFUSED(pid_t, fork, (void), ())
REFUSED(pid_t, wait, (int *status), (status))
REFUSED(pid_t, waitpid, (pid_t process, int *status, int options), (process, status, options))
REFUSED(int, system, (const char *command), (command))

sem_t *__real_sem_open(const char *name, int flags, mode_t mode, unsigned value);
sem_t *__wrap_sem_open(const char *name, int flags, mode_t mode, unsigned value);
sem_t *__wrap_sem_open(const char *name, int flags, mode_t mode, unsigned value)
{
    nicxi_refuse("sem_open", HERE);
    return __real_sem_open(name, flags, mode, value);
}

/* A system call by number may wait for a lock. */
long __real_syscall(long number, long a, long b, long c, long d, long e, long f);
long __wrap_syscall(long number, long a, long b, long c, long d, long e, long f);
long __wrap_syscall(long number, long a, long b, long c, long d, long e, long f)
{
    if (number == SYS_futex)
        nicxi_refuse("syscall(SYS_futex)", HERE);
    nicxi_is_outside = true;
    return __real_syscall(number, a, b, c, d, e, f);
}
