#define _GNU_SOURCE
#include "ask.h"

#include <errno.h>
#include <stdbool.h>
#include <stdio.h>
#include <string.h>
#include <sys/socket.h>
#include <sys/un.h>
#include <unistd.h>

#define LINE_MOST 1024

enum answer { DONE, REFUSED, GONE };

/* Returns the socket as a stream, or null with errno set. */
static FILE *open_control(const char *path)
{
    struct sockaddr_un name = {.sun_family = AF_UNIX};
    if (strlen(path) >= sizeof name.sun_path) {
        errno = ENAMETOOLONG;
        return NULL;
    }
    memcpy(name.sun_path, path, strlen(path));
    int file = socket(AF_UNIX, SOCK_STREAM | SOCK_CLOEXEC, 0);
    if (file >= 0 && connect(file, (const struct sockaddr *)&name, sizeof name) == 0)
        return fdopen(file, "r+");
    int error = errno;
    if (file >= 0)
        close(file);
    errno = error;
    return NULL;
}

/* Sends one request and prints the lines of the answer, except "ok". */
static enum answer ask_one(FILE *control, const char *request)
{
    char line[LINE_MOST];
    if (fprintf(control, "%s\n", request) < 0 || fflush(control) != 0)
        return GONE;
    while (fgets(line, sizeof line, control)) {
        if (strcmp(line, "ok\n") == 0)
            return DONE;
        fputs(line, stdout);
        fflush(stdout);
        if (strncmp(line, "error: ", strlen("error: ")) == 0)
            return REFUSED;
    }
    return GONE;
}

static enum answer ask_lines(FILE *control)
{
    char line[LINE_MOST];
    enum answer worst = DONE;
    while (worst != GONE && fgets(line, sizeof line, stdin)) {
        line[strcspn(line, "\n")] = 0;
        enum answer one = ask_one(control, line);
        worst = one > worst ? one : worst;
    }
    return worst;
}

int ask(const char *path, int count, char **requests)
{
    enum answer worst = DONE;
    FILE *control = open_control(path);
    if (!control) {
        fprintf(stderr, "no server at %s: %s\n", path, strerror(errno));
        return 2;
    }
    if (count == 0)
        worst = ask_lines(control);
    for (int i = 0; i < count && worst != GONE; i++) {
        enum answer one = ask_one(control, requests[i]);
        worst = one > worst ? one : worst;
    }
    if (worst == GONE)
        fprintf(stderr, "the server at %s disconnected before it answered\n", path);
    fclose(control);
    return worst;
}
