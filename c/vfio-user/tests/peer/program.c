#define _GNU_SOURCE
#include "program.h"

#include <fcntl.h>
#include <signal.h>
#include <stdint.h>
#include <stdio.h>
#include <stdlib.h>
#include <string.h>
#include <sys/prctl.h>
#include <sys/wait.h>
#include <unistd.h>

#include "../../../tests/check.h"

#define MINUTES_MS 600000 /* number of checks at least; each takes a millisecond, longer on a busy machine */
#define RESTS 20          /* number of consecutive checks in which the program sleeps */
#define PATHS 32
#define PATH_BYTES 200

static const char *program, *folder;

void program_is(const char *path, const char *of)
{
    program = path;
    folder = of;
}

const char *program_path(const char *text, const char *name)
{
    static char paths[PATHS][PATH_BYTES];
    static unsigned int count;
    for (unsigned int i = 0; i < count; i++)
        if (strncmp(paths[i], text, strlen(text)) == 0 &&
            strcmp(paths[i] + strlen(text) + strlen(folder) + 1, name) == 0)
            return paths[i];
    CHECK(count < PATHS);
    snprintf(paths[count], PATH_BYTES, "%s%s/%s", text, folder, name);
    return paths[count++];
}

pid_t program_start(const char *const *words, void (*before)(void), int errors)
{
    const char *all[32] = {program};
    for (unsigned int i = 0; words[i] && i < 30; i++)
        all[i + 1] = words[i];
    fflush(stdout);
    pid_t child = fork();
    CHECK(child >= 0);
    if (child)
        return child;
    int nowhere = open("/dev/null", O_RDWR);
    prctl(PR_SET_PDEATHSIG, SIGKILL);
    if (dup2(nowhere, 0) < 0 || dup2(nowhere, 1) < 0 || dup2(errors < 0 ? nowhere : errors, 2) < 0)
        _exit(100);
    for (int file = 3; file < 64; file++)
        close(file);
    if (before)
        before();
    execv(program, (char *const *)(uintptr_t)all);
    _exit(101);
}

int program_status(pid_t process)
{
    int status = 0;
    for (int i = 0; i < MINUTES_MS; i++) {
        if (waitpid(process, &status, WNOHANG) == process)
            return WIFEXITED(status) ? WEXITSTATUS(status) : -1;
        usleep(1000);
    }
    kill(process, SIGKILL);
    waitpid(process, &status, 0);
    CHECK(!"the program doesn't exit");
    return -1;
}

int program_end(pid_t process)
{
    CHECK(kill(process, SIGTERM) == 0);
    return program_status(process);
}

/* Returns the letter in /proc for a process's state. */
static char state_of(pid_t process)
{
    char name[64], text[512] = "";
    snprintf(name, sizeof name, "/proc/%ld/stat", (long)process);
    FILE *file = fopen(name, "r");
    size_t length = file ? fread(text, 1, sizeof text - 1, file) : 0;
    const char *end = length ? strrchr(text, ')') : NULL;
    if (file)
        fclose(file);
    return end && end[1] ? end[2] : 0;
}

void program_stop(pid_t process)
{
    CHECK(kill(process, SIGSTOP) == 0);
    for (int i = 0; i < MINUTES_MS && state_of(process) != 'T'; i++)
        usleep(1000);
    CHECK(state_of(process) == 'T');
}

bool program_rests(pid_t process)
{
    unsigned int rests = 0;
    for (int i = 0; i < MINUTES_MS && rests < RESTS; i++) {
        rests = state_of(process) == 'S' ? rests + 1 : 0;
        usleep(1000);
    }
    return rests == RESTS;
}

long long program_number(pid_t process, const char *name, int base)
{
    char path[64], line[256];
    long long number = -1;
    snprintf(path, sizeof path, "/proc/%ld/status", (long)process);
    FILE *file = fopen(path, "r");
    while (file && fgets(line, sizeof line, file))
        if (strncmp(line, name, strlen(name)) == 0 && line[strlen(name)] == ':')
            number = strtoll(line + strlen(name) + 1, NULL, base);
    if (file)
        fclose(file);
    return number;
}
