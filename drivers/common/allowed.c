/* Checks what the machine or the container allows, for the runs of drivers that need it. common.sh compiles and calls
   this.

     allowed ptrace | personality | executable-memory | low-memory=MEBIBYTES ..

   Status 0 if everything named is allowed. If not, one line on standard output says what is refused and why, and the
   status is 2. The status is 3 for an unknown argument. */
#define _GNU_SOURCE
#include <errno.h>
#include <signal.h>
#include <stdbool.h>
#include <stdio.h>
#include <stdlib.h>
#include <string.h>
#include <sys/mman.h>
#include <sys/personality.h>
#include <sys/ptrace.h>
#include <sys/wait.h>
#include <unistd.h>

#define LOW 0x400000ul
#define TOP 128ul /* MiB: the end of the bench's memory */
#define PAGE 4096

static int tracee(void)
{
    if (ptrace(PTRACE_TRACEME, 0, NULL, NULL) != 0)
        return errno;
    raise(SIGSTOP);
    return 0;
}

/* Returns 0, or the errno value if a child can't be traced. */
static int try_ptrace(void)
{
    int status = 0;
    pid_t child = fork();
    if (child < 0)
        return errno;
    if (child == 0)
        _exit(tracee());
    if (waitpid(child, &status, 0) < 0)
        return errno;
    if (!WIFSTOPPED(status))
        return WIFEXITED(status) && WEXITSTATUS(status) ? WEXITSTATUS(status) : EPERM;
    int error = ptrace(PTRACE_SYSCALL, child, NULL, NULL) != 0 ? errno : 0;
    kill(child, SIGKILL);
    waitpid(child, &status, 0);
    return error;
}

static int try_personality(void)
{
    int now = personality(0xffffffff);
    if (now < 0 || personality((unsigned long)now | ADDR_NO_RANDOMIZE) < 0)
        return errno;
    personality((unsigned long)now);
    return 0;
}

/* Maps memory as User-Mode Linux does: a file in $TMPDIR or else /dev/shm, shared, with read, write and execute
   rights. */
static int try_executable_memory(void)
{
    char name[512];
    const char *folder = getenv("TMPDIR");
    snprintf(name, sizeof name, "%s/allowed-XXXXXX", folder && *folder ? folder : "/dev/shm");
    int file = mkstemp(name);
    if (file < 0)
        return errno;
    unlink(name);
    void *at = ftruncate(file, PAGE) == 0 ? mmap(NULL, PAGE, PROT_READ | PROT_WRITE | PROT_EXEC, MAP_SHARED, file, 0)
                                          : MAP_FAILED;
    int error = at == MAP_FAILED ? errno : 0;
    close(file);
    return error;
}

static int try_low_memory(unsigned long mebibytes)
{
    size_t length = mebibytes << 20;
    void *at = mmap((void *)LOW, length, PROT_NONE, MAP_PRIVATE | MAP_ANONYMOUS | MAP_FIXED_NOREPLACE, -1, 0);
    if (at == MAP_FAILED)
        return errno;
    munmap(at, length);
    return at == (void *)LOW ? 0 : ENOMEM;
}

static const char *what_of(const char *word, int *error)
{
    unsigned long mebibytes;
    char rest;
    if (strcmp(word, "ptrace") == 0)
        return *error = try_ptrace(), "ptrace of a child";
    if (strcmp(word, "personality") == 0)
        return *error = try_personality(), "personality with fixed addresses";
    if (strcmp(word, "executable-memory") == 0)
        return *error = try_executable_memory(), "executable shared memory";
    if (sscanf(word, "low-memory=%lu%c", &mebibytes, &rest) == 1 && mebibytes > 0 && mebibytes < TOP)
        return *error = try_low_memory(mebibytes), "memory at addresses from 0x400000";
    return NULL;
}

int main(int count, char **words)
{
    for (int i = 1; i < count; i++) {
        int error = 0;
        const char *what = what_of(words[i], &error);
        if (!what) {
            fprintf(stderr, "allowed: unknown argument: %s\n", words[i]);
            return 3;
        }
        if (error) {
            printf("%s, which is refused here: %s\n", what, strerror(error));
            return 2;
        }
    }
    return 0;
}
