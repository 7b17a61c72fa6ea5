/* nic82599-vfio-user: an Intel 82599 for any program that speaks vfio-user, such as QEMU's device vfio-user-pci. */
#define _GNU_SOURCE
#include <errno.h>
#include <stdio.h>
#include <stdlib.h>
#include <string.h>
#include <sys/stat.h>
#include <unistd.h>

#include "absent.h"
#include "ask.h"
#include "closer.h"
#include "confine.h"
#include "ending.h"
#include "explain.h"
#include "janitor.h"
#include "local_socket.h"
#include "log.h"
#include "notifier.h"
#include "server.h"
#include "strays.h"
#include "tell.h"

#define LAST_WORDS_MS 1000 /* time limit for writing the output on exit */

/* Output of the server while it serves or when it exits; opened before the server gives up its rights. */
struct written {
    struct output counts, strays;
};

/* ---- files ---- */

/* Returns false after a report if the recording's file isn't regular: the library writes recordings, and would wait for
   a FIFO's reader. */
static bool may_record(const char *name)
{
    struct stat about;
    if (!name || stat(name, &about) != 0 || S_ISREG(about.st_mode) || strcmp(name, "/dev/null") == 0)
        return true;
    log_line(LOG_SERVER, "can't record to %s: it isn't a regular file and could block the server", name);
    return false;
}

static bool create(struct output *it, const char *name)
{
    if (output_create(it, name))
        return true;
    log_line(LOG_SERVER, "can't write %s: %s", name,
             errno == ENXIO ? "no process reads this FIFO; start its reader first" : strerror(errno));
    return false;
}

static bool open_trace(struct server *server)
{
    if (!create(&server->trace, server->options.trace))
        return false;
    server->options.card.trace = output_stream(&server->trace);
    return server->options.card.trace != NULL;
}

static bool open_files(struct server *server, struct written *written)
{
    const struct options *options = &server->options;
    server->trace.file = written->strays.file = -1;
    output_begin(&written->counts, STDOUT_FILENO);
    if (!may_record(options->record) || !may_record(getenv("NIC82599_RECORD")))
        return false;
    if (options->record && !nic_record(options->record)) {
        log_line(LOG_SERVER, "can't write %s", options->record);
        return false;
    }
    return (!options->trace || open_trace(server)) && (!options->strays || create(&written->strays, options->strays));
}

/* ---- begin and end ---- */

static bool get_ready(const struct options *options)
{
    log_open();
    if (!janitor_start(!options->is_unconfined)) {
        log_line(LOG_SERVER, "can't start the process that removes the sockets: %s", strerror(errno));
        return false;
    }
    if (!ending_open() || !memory_map_guard()) {
        log_line(LOG_SERVER, "can't set up signals: %s", strerror(errno));
        return false;
    }
    if (!notifier_open())
        log_line(LOG_SERVER,
                 "this kernel has no asynchronous reads, so a client can block the server with its eventfd");
    return true;
}

/* After this, the process opens no file. */
static bool settle(const struct options *options)
{
    janitor_seal();
    if (!options->is_unconfined)
        confine_files(CONFINE_SERVER);
    if (!closer_start() || (options->control && !explain_start())) {
        log_line(LOG_SERVER, "can't start a thread: %s", strerror(errno));
        return false;
    }
    if (!options->is_unconfined)
        confine_calls(CONFINE_SERVER);
    return true;
}

/* Writes what `tell` prints to an output. */
static void tell_to(struct output *it, struct server *server, void (*tell)(const struct server *, FILE *))
{
    FILE *stream = output_stream(it);
    if (stream) {
        tell(server, stream);
        fclose(stream);
    }
}

static void tell_strays(const struct server *server, FILE *to)
{
    strays_write(server->card.bus, to, absent_name);
}

/* Writes the last output, and closes everything. Returns false if the file for --strays couldn't be written. */
static bool end(struct server *server, struct written *written)
{
    if (!server->options.is_quiet)
        tell_to(&written->counts, server, tell_counts);
    output_end(&written->counts, LAST_WORDS_MS);
    if (server->options.strays)
        tell_to(&written->strays, server, tell_strays);
    output_end(&written->strays, LAST_WORDS_MS);
    server_close(server);
    if (server->options.card.trace)
        fclose(server->options.card.trace);
    output_end(&server->trace, LAST_WORDS_MS);
    bool is_written = !written->strays.error;
    if (!is_written)
        log_line(LOG_SERVER, "can't write %s: %s", server->options.strays, strerror(written->strays.error));
    log_close();
    janitor_finish();
    return is_written;
}

/* Starts the server. If it can't, says why, removes the sockets and returns false. */
static bool start(struct server *server, struct written *written)
{
    if (open_files(server, written) && server_open(server) && settle(&server->options))
        return true;
    local_forget_all();
    log_close();
    return false;
}

#define ASK "--ask="

int main(int count, char **words)
{
    static struct server server;
    static struct written written;
    if (count > 1 && strncmp(words[1], ASK, strlen(ASK)) == 0)
        return ask(words[1] + strlen(ASK), count - 2, words + 2);
    switch (options_read(&server.options, count, words)) {
    case OPTIONS_END: return 0;
    case OPTIONS_WRONG: return 3;
    default: break;
    }
    if (!get_ready(&server.options) || !start(&server, &written))
        return 2;
    server_run(&server);
    return end(&server, &written) ? 0 : 1;
}
