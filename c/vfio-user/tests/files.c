/* Tests the program itself, with a socket passed as a file. The program must exit with the status that its manual page
   specifies. files PROGRAM */
#define _GNU_SOURCE
#include <fcntl.h>
#include <signal.h>
#include <stdlib.h>
#include <string.h>
#include <sys/mman.h>
#include <sys/prctl.h>
#include <sys/socket.h>
#include <sys/un.h>
#include <sys/wait.h>
#include <unistd.h>

#include "../../tests/check.h"
#include "peer/peer.h"

#define FILE_NUMBER 9 /* file number of the socket in the program */
#define WORD "--fd=9"

static const char *program;

/* Starts the program with these arguments and the file. Its output is discarded. */
static pid_t start(const char *const *words, int file)
{
    pid_t child = fork();
    CHECK(child >= 0);
    if (child)
        return child;
    int nowhere = open("/dev/null", O_RDWR);
    prctl(PR_SET_PDEATHSIG, SIGKILL);
    if (dup2(nowhere, 0) < 0 || dup2(nowhere, 1) < 0 || dup2(nowhere, 2) < 0 ||
        (file >= 0 && dup2(file, FILE_NUMBER) < 0))
        _exit(100);
    execv(program, (char *const *)(uintptr_t)words);
    _exit(101);
}

static int status_of(pid_t child)
{
    int status = 0;
    CHECK(waitpid(child, &status, 0) == child && WIFEXITED(status));
    return WEXITSTATUS(status);
}

static void looks_like_the_card(struct peer *it)
{
    CHECK(peer_version(it) == 0 && peer_config(it, 0, 4) == 0x10F78086);
}

/* Passes a client's socket: the program must exit when the client has disconnected. */
static void connected(void)
{
    static const char *const words[] = {"server", WORD, NULL};
    int ends[2];
    CHECK(socketpair(AF_UNIX, SOCK_STREAM | SOCK_CLOEXEC, 0, ends) == 0);
    pid_t child = start(words, ends[1]);
    struct peer peer = {.file = ends[0]};
    close(ends[1]);
    looks_like_the_card(&peer);
    peer_close(&peer);
    CHECK(status_of(child) == 0);
}

/* Passes a listening socket: clients can connect and leave until SIGTERM. The socket's name must remain, because
   another process created it. */
static void listening(void)
{
    static const char *const words[] = {"server", WORD, "--quiet", NULL};
    struct sockaddr_un name = {.sun_family = AF_UNIX};
    struct peer peer;
    snprintf(name.sun_path, sizeof name.sun_path, "/tmp/nic82599-test.%ld.file", (long)getpid());
    int listener = socket(AF_UNIX, SOCK_STREAM | SOCK_CLOEXEC, 0);
    CHECK(bind(listener, (struct sockaddr *)&name, sizeof name) == 0 && listen(listener, 4) == 0);
    pid_t child = start(words, listener);
    close(listener);
    for (int time = 0; time < 3; time++) {
        peer_open(&peer, name.sun_path);
        looks_like_the_card(&peer);
        peer_close(&peer);
    }
    kill(child, SIGTERM);
    CHECK(status_of(child) == 0 && access(name.sun_path, F_OK) == 0 && unlink(name.sun_path) == 0);
}

/* Sends requests from the command line, with and without a running server. */
static void asked(void)
{
    char socket_word[64], control_word[128], ask_word[128];
    const char *server_words[] = {"server", WORD, control_word, "--quiet", NULL};
    const char *good[] = {"server", ask_word, "hold", "due", "go", NULL};
    const char *bad[] = {"server", ask_word, "hold", "hold on", "go", NULL};
    const char *none[] = {"server", ask_word, NULL}; /* standard input is empty */
    int ends[2];
    snprintf(socket_word, sizeof socket_word, "/tmp/nic82599-test.%ld.control", (long)getpid());
    snprintf(control_word, sizeof control_word, "--control=%s", socket_word);
    snprintf(ask_word, sizeof ask_word, "--ask=%s", socket_word);
    CHECK(socketpair(AF_UNIX, SOCK_STREAM | SOCK_CLOEXEC, 0, ends) == 0);
    pid_t child = start(server_words, ends[1]);
    struct peer peer = {.file = ends[0]};
    close(ends[1]);
    looks_like_the_card(&peer);
    CHECK(status_of(start(good, -1)) == 0 && status_of(start(bad, -1)) == 1 && status_of(start(none, -1)) == 0);
    peer_close(&peer);
    CHECK(status_of(child) == 0 && status_of(start(good, -1)) == 2);
}

static void other_words(void)
{
    static const struct {
        const char *words[4];
        bool has_file;
        int status;
    } cases[] = {
        {{"server", WORD}, true, 2},
        {{"server", WORD}, false, 2},
        {{"server", "--fd=x"}, false, 3},
        {{"server", "--fd=-1"}, false, 3},
        {{"server", WORD, WORD "9"}, true, 2},
        {{"server"}, false, 3},
        {{"server", "--version"}, false, 0},
        {{"server", "--help"}, false, 0},
        {{"server", "help"}, false, 3},
        {{"server", WORD, "--functions=1"}, true, 3},
        {{"server", WORD, "--socket-path=x"}, true, 3},
    };
    int file = memfd_create("no socket", MFD_CLOEXEC);
    for (size_t i = 0; i < sizeof cases / sizeof *cases; i++) {
        int status = status_of(start(cases[i].words, cases[i].has_file ? file : -1));
        if (status != cases[i].status)
            fprintf(stderr, "case %zu: status %d\n", i, status);
        CHECK(status == cases[i].status);
    }
    close(file);
}

int main(int count, char **words)
{
    CHECK(count == 2);
    program = words[1];
    connected();
    listening();
    asked();
    other_words();
    printf("files: passed\n");
    return 0;
}
