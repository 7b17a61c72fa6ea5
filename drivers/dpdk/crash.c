#include "crash.h"

#include <execinfo.h>
#include <fcntl.h>
#include <signal.h>
#include <stddef.h>
#include <stdio.h>
#include <stdlib.h>
#include <unistd.h>

#define FRAMES 32
#define STACK 65536   /* bytes of the handler's own stack, because the driver's may be the one that overflowed */
#define SIGNALLED 128 /* added to the signal's number, as the shell does */

static int file = -1;

/* Exits instead of raising the signal again, because the shell would print a line about that. */
static void on_signal(int number)
{
    void *frames[FRAMES];
    backtrace_symbols_fd(frames, backtrace(frames, FRAMES), file);
    _exit(SIGNALLED + number);
}

static void catch (int number)
{
    struct sigaction action = {.sa_handler = on_signal, .sa_flags = SA_ONSTACK | (int)SA_RESETHAND};
    sigaction(number, &action, NULL);
}

void crash_begin(void)
{
    static char stack[STACK];
    const stack_t other = {.ss_sp = stack, .ss_size = sizeof stack};
    const char *name = getenv("CRASH_FILE");
    void *first[1];
    setvbuf(stdout, NULL, _IOLBF, BUFSIZ);
    file = name ? open(name, O_WRONLY | O_CREAT | O_TRUNC, 0600) : -1;
    if (file < 0)
        return;
    (void)backtrace(first, 1); /* loads the unwinder, which the handler can't do */
    catch (SIGTERM);
#ifndef __SANITIZE_ADDRESS__ /* the sanitizers print more */
    sigaltstack(&other, NULL);
    catch (SIGSEGV);
    catch (SIGBUS);
    catch (SIGFPE);
    catch (SIGILL);
    catch (SIGABRT);
#else
    (void)other;
#endif
}
