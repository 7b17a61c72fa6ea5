#define _GNU_SOURCE
#include "helper.h"

#include <errno.h>
#include <fcntl.h>
#include <signal.h>
#include <sys/prctl.h>
#include <sys/socket.h>
#include <sys/syscall.h>
#include <sys/wait.h>
#include <unistd.h>

#define LINE (STDERR_FILENO + 1) /* descriptor of the line in the new process; the file gets the next number */
#define FILE_KEPT (LINE + 1)
#define ABOVE (FILE_KEPT + 1)

static void close_from(int first)
{
    long most = sysconf(_SC_OPEN_MAX);
#ifdef SYS_close_range
    if (syscall(SYS_close_range, first, ~0u, 0) == 0)
        return;
#endif
    for (int file = first; file < most; file++)
        close(file);
}

/* Moves a file to this descriptor number, or closes the number if there is no file (-1). */
static void move(int file, int to)
{
    if (file < 0 || dup2(file, to) < 0)
        close(to);
}

/* Closes all files except the line and the job's file. */
static void close_others(int line, int file)
{
    int nowhere = open("/dev/null", O_RDWR);
    for (int standard = 0; standard <= STDERR_FILENO; standard++)
        move(nowhere, standard);
    line = fcntl(line, F_DUPFD, ABOVE);
    file = file < 0 ? -1 : fcntl(file, F_DUPFD, ABOVE);
    move(line, LINE);
    move(file, FILE_KEPT);
    close_from(ABOVE);
}

/* Ignores the signals that end the server: a helper exits when its line is closed. A helper without `stays` is killed
   when the server exits. */
static void take_signals(bool stays)
{
    static const int ignored[] = {SIGTERM, SIGINT, SIGHUP, SIGQUIT, SIGPIPE};
    for (unsigned int i = 0; i < sizeof ignored / sizeof *ignored; i++)
        signal(ignored[i], SIG_IGN);
    if (!stays)
        prctl(PR_SET_PDEATHSIG, SIGKILL);
}

static void run(const struct helper_job *job, int line)
{
    take_signals(job->stays);
    close_others(line, job->file);
    if (job->is_confined) {
        confine_files(job->what);
        confine_calls(job->what);
    }
    job->work(LINE, job->file < 0 ? -1 : FILE_KEPT, job->given);
    _exit(0);
}

bool helper_start(struct helper *it, const struct helper_job *job)
{
    int ends[2];
    *it = (struct helper){-1, -1};
    if (socketpair(AF_UNIX, SOCK_SEQPACKET | SOCK_CLOEXEC, 0, ends) != 0)
        return false;
    it->process = fork();
    if (it->process == 0)
        run(job, ends[0]);
    close(ends[0]);
    if (it->process < 0)
        close(ends[1]);
    else
        it->line = ends[1];
    return it->process >= 0;
}

void helper_end(struct helper *it, bool waits)
{
    int status;
    if (it->line >= 0)
        close(it->line);
    if (it->process >= 0)
        while (waitpid(it->process, &status, waits ? 0 : WNOHANG) < 0 && errno == EINTR) {
        }
    *it = (struct helper){-1, -1};
}
