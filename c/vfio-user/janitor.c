#define _GNU_SOURCE
#include "janitor.h"

#include <errno.h>
#include <string.h>
#include <sys/socket.h>
#include <unistd.h>

#include "helper.h"
#include "local_socket.h"
#include "log.h"

static struct helper helper = {-1, -1};

/* Receives names until an empty one arrives, and then waits until the server has exited. */
static void tidy(int line, int file, void *given)
{
    struct local_given name;
    bool takes_names = true;
    ssize_t got;
    (void)file;
    (void)given;
    do {
        got = read(line, &name, sizeof name);
        takes_names = takes_names && got == (ssize_t)sizeof name && name.path[0];
        if (takes_names)
            local_adopt(&name);
    } while (got > 0 || (got < 0 && errno == EINTR));
    local_forget_all();
}

bool janitor_start(bool is_confined)
{
    const struct helper_job job = {
        .what = CONFINE_JANITOR, .is_confined = is_confined, .stays = true, .file = -1, .work = tidy};
    return helper_start(&helper, &job);
}

/* Sends the name in one message, so it arrives whole. */
void janitor_adopt(const struct local_given *given)
{
    if (helper.line >= 0 && send(helper.line, given, sizeof *given, MSG_NOSIGNAL) != (ssize_t)sizeof *given)
        log_line(LOG_SERVER, "%s may remain after the server exits: %s", given->path, strerror(errno));
}

void janitor_seal(void)
{
    const struct local_given last = {.path = ""};
    janitor_adopt(&last);
}

void janitor_finish(void)
{
    helper_end(&helper, true);
}
