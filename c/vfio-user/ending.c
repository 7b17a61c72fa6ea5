#define _GNU_SOURCE
#include "ending.h"

#include <errno.h>
#include <signal.h>
#include <stdint.h>
#include <sys/eventfd.h>
#include <unistd.h>

static volatile sig_atomic_t is_asked;
static int event = -1;

static void on_signal(int number)
{
    int error = errno;
    uint64_t one = 1;
    if (is_asked) {
        signal(number, SIG_DFL);
        raise(number);
    }
    is_asked = 1;
    if (write(event, &one, sizeof one) < 0) {
        /* the flag is set, and a full counter is readable too */
    }
    errno = error;
}

bool ending_open(void)
{
    struct sigaction action = {.sa_handler = on_signal};
    sigset_t both;
    sigemptyset(&action.sa_mask);
    sigemptyset(&both);
    sigaddset(&both, SIGTERM);
    sigaddset(&both, SIGINT);
    event = eventfd(0, EFD_CLOEXEC | EFD_NONBLOCK);
    return event >= 0 && signal(SIGPIPE, SIG_IGN) != SIG_ERR && signal(SIGXFSZ, SIG_IGN) != SIG_ERR &&
           sigaction(SIGTERM, &action, NULL) == 0 && sigaction(SIGINT, &action, NULL) == 0 &&
           sigprocmask(SIG_UNBLOCK, &both, NULL) == 0;
}

bool ending_is_asked(void)
{
    return is_asked;
}

int ending_file(void)
{
    return event;
}
