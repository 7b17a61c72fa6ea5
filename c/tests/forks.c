/* Checks whether a process can fork while its other threads create threads, and the child can then create a thread. A
   test in Rust needs this if it creates threads in a schedule's process. Exit status 0 if it can, 1 if the child hangs.
   Under QEMU's user emulation the child hangs, because one of the emulator's locks stays taken in it. */
#define _DEFAULT_SOURCE
#include <pthread.h>
#include <signal.h>
#include <stdbool.h>
#include <stdio.h>
#include <sys/wait.h>
#include <time.h>
#include <unistd.h>

enum { FORKS = 100, MAKERS = 2, MOST_SECONDS = 30 };

static void *nothing(void *unused)
{
    return unused;
}

static void make_a_thread(void)
{
    pthread_t thread;
    if (pthread_create(&thread, NULL, nothing, NULL) == 0)
        pthread_join(thread, NULL);
}

static void *make_threads(void *unused)
{
    for (;;)
        make_a_thread();
    return unused;
}

/* Whether a child exits within MOST_SECONDS. A child that doesn't is killed. */
static bool ends(pid_t child)
{
    time_t began = time(NULL);
    while (waitpid(child, NULL, WNOHANG) == 0) {
        if (time(NULL) - began > MOST_SECONDS) {
            kill(child, SIGKILL);
            waitpid(child, NULL, 0);
            return false;
        }
        usleep(1000);
    }
    return true;
}

int main(void)
{
    pthread_t makers[MAKERS];
    for (int k = 0; k < MAKERS; k++)
        if (pthread_create(&makers[k], NULL, make_threads, NULL) != 0)
            return 2;
    for (int k = 0; k < FORKS; k++) {
        pid_t child = fork();
        if (child < 0)
            return 2;
        if (child == 0) {
            make_a_thread();
            _exit(0);
        }
        if (!ends(child))
            _exit(1);
    }
    _exit(0);
}
