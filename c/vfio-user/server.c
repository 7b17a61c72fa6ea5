#define _GNU_SOURCE
#include "server.h"

#include <errno.h>
#include <poll.h>
#include <stdio.h>
#include <string.h>
#include <sys/socket.h>

#include "ending.h"
#include "local_socket.h"
#include "log.h"
#include "resources.h"

#define FRAMES_MOST 64 /* number of frames that may arrive before others have their turn */
#define LATE_MS 1      /* time between two runs of delayed steps */

/* The files to poll, by their owners. */
struct events {
    struct pollfd ending, functions[SERVER_FUNCTIONS][FUNCTION_POLLS], wire[WIRE_POLLS], control[CONTROL_POLLS];
};

static void from_card(void *to, unsigned int sender, const uint8_t *frame, size_t length)
{
    struct server *it = to;
    traffic_take(&it->traffic, frame, length);
    wire_send(&it->wire, sender, frame, length);
}

/* ---- open ---- */

static struct function *add_function(struct server *it, enum function_kind kind, unsigned int number)
{
    static const char *const endings[] = {"", ".vf", ".shadow"};
    unsigned int socket = it->function_count++;
    struct function *function = &it->functions[socket];
    *function = (struct function){.kind = kind,
                                  .number = number,
                                  .socket = socket,
                                  .device = it->options.device,
                                  .virtual_functions = it->options.card.functions,
                                  .card = &it->card};
    const char *path = it->options.socket_path ? it->options.socket_path : "the socket";
    if (kind == FUNCTION_PHYSICAL)
        snprintf(function->path, sizeof function->path, "%s", path);
    else
        snprintf(function->path, sizeof function->path, "%s%s%u", path, endings[kind], number - 1);
    function_begin(function);
    return function;
}

static bool listen_at(struct function *function)
{
    const char *error = function_listen(function);
    if (error)
        log_line(LOG_SERVER, "can't create the socket %s: %s", function->path, error);
    return !error;
}

/* Uses a given socket, either a listening socket or a client's. */
static bool take_file(struct function *function, int file)
{
    int listens = 0;
    socklen_t length = sizeof listens;
    if (getsockopt(file, SOL_SOCKET, SO_ACCEPTCONN, &listens, &length) != 0) {
        log_line(LOG_SERVER, "--fd=%d isn't a socket: %s", file, strerror(errno));
        return false;
    }
    if (listens)
        function->listener = file;
    else
        session_open(&function->session, file);
    return true;
}

static bool open_functions(struct server *it)
{
    struct function *physical = add_function(it, FUNCTION_PHYSICAL, BUS_PHYSICAL);
    if (it->options.file >= 0)
        return take_file(physical, it->options.file);
    if (!listen_at(physical))
        return false;
    for (unsigned int v = 1; v <= it->options.card.functions; v++)
        if (!listen_at(add_function(it, FUNCTION_VIRTUAL, v)) || !listen_at(add_function(it, FUNCTION_SHADOW, v)))
            return false;
    return true;
}

/* Each function has a socket, and each virtual function has a second socket for its shadow. */
static bool share_resources(const struct options *options)
{
    unsigned int clients = 1 + 2 * options->card.functions;
    unsigned int vectors = VECTORS_MOST + LINE_FILES + (clients - 1) * FUNCTION_VIRTUAL_VECTORS;
    return resources_share(clients, vectors, options->client_memory, options->trusts_files);
}

bool server_open(struct server *it)
{
    if (!share_resources(&it->options))
        return false;
    if (!wire_open(&it->wire, &it->options.wire)) /* early: its helper process is a copy of this one */
        return false;
    if (!card_open(&it->card, &it->options.card)) {
        log_line(LOG_SERVER, "out of memory");
        return false;
    }
    const char *error = control_open(&it->control, it->options.control);
    if (error) {
        log_line(LOG_SERVER, "can't create the socket %s: %s", it->options.control, error);
        return false;
    }
    wire_gather(&it->wire);
    traffic_begin(&it->traffic, it->options.card.mac);
    card_send_to(&it->card, from_card, it);
    return open_functions(it);
}

void server_close(struct server *it)
{
    for (unsigned int i = 0; i < it->function_count; i++)
        function_end(&it->functions[i]);
    control_close(&it->control);
    traffic_end(&it->traffic);
    wire_close(&it->wire);
    snapshots_clear(&it->snapshots);
    card_close(&it->card);
}

/* ---- run ---- */

/* Frames from a file wait until the card can receive. */
static bool plays(const struct server *it)
{
    return it->wire.played && bus_peek(it->card.bus, NIC_RXCTRL) & NIC_RXCTRL_RXEN && card_has_room(&it->card);
}

/* Passes frames from the wire to the card while the card has room, and runs the card's steps. Returns whether the card
   needs another turn soon. */
static bool pass_frames(struct server *it)
{
    uint64_t began = budget_time();
    bool left = card_pump(&it->card);
    for (unsigned int i = 0; i < FRAMES_MOST && card_takes_frame(&it->card); i++) {
        if (i && budget_is_late(began))
            break;
        size_t length = wire_next(&it->wire, plays(it));
        const struct frame *made = length ? NULL : traffic_next(&it->traffic);
        if (!length && !made)
            break;
        if (made)
            card_arrive(&it->card, made->bytes, made->length);
        else
            card_arrive(&it->card, it->wire.frame, length);
        left = card_pump(&it->card);
    }
    return left;
}

static void fill(const struct server *it, struct events *events)
{
    events->ending = (struct pollfd){.fd = ending_file(), .events = POLLIN};
    for (unsigned int i = 0; i < SERVER_FUNCTIONS; i++)
        for (unsigned int k = 0; k < FUNCTION_POLLS; k++)
            events->functions[i][k] = (struct pollfd){.fd = -1};
    for (unsigned int i = 0; i < it->function_count; i++)
        function_polls(&it->functions[i], events->functions[i]);
    wire_polls(&it->wire, events->wire, card_has_room(&it->card));
    control_polls(&it->control, events->control);
}

/* Waits up to this many milliseconds for events (-1: forever). Passes only existing files to the kernel, which accepts
   at most as many entries as the process may have files. */
static void wait_for(struct events *events, int milliseconds)
{
    struct pollfd *all = &events->ending, polls[sizeof *events / sizeof(struct pollfd)];
    unsigned int places[sizeof *events / sizeof(struct pollfd)];
    nfds_t count = 0;
    for (unsigned int i = 0; i < sizeof *events / sizeof(struct pollfd); i++) {
        all[i].revents = 0;
        if (all[i].fd < 0)
            continue;
        places[count] = i;
        polls[count++] = all[i];
    }
    int ready = poll(polls, count, milliseconds);
    if (ready < 0 && errno != EINTR) {
        log_line(LOG_SERVER, "waiting for events failed: %s", strerror(errno));
        poll(NULL, 0, LATE_MS);
    }
    for (nfds_t i = 0; ready > 0 && i < count; i++)
        all[places[i]].revents = polls[i].revents;
}

static void serve_functions(struct server *it, const struct events *events)
{
    for (unsigned int i = 0; i < it->function_count; i++) {
        struct function *function = &it->functions[i];
        short ready = events->functions[i][1].revents;
        /* the current client first: it may have disconnected, and the next one may be waiting */
        if (session_is_open(&function->session) && (ready || function_has_more(function)))
            function_serve(function, ready);
        if (events->functions[i][2].revents)
            function_unmask(function);
        if (events->functions[i][0].revents & POLLIN)
            function_accept(function);
    }
}

/* Unmaps part of each client's removed memory. Returns whether some remains. */
static bool give_back(struct server *it)
{
    bool left = false;
    for (unsigned int i = 0; i < it->function_count; i++)
        left |= session_give_back(&it->functions[i].session);
    return left;
}

/* Returns whether some work waits only for the next turn, not for an event. */
static bool has_more(const struct server *it)
{
    if (card_has_room(&it->card) && (wire_has_more(&it->wire, plays(it)) || traffic_has_more(&it->traffic)))
        return true;
    for (unsigned int i = 0; i < it->function_count; i++)
        if (function_has_more(&it->functions[i]))
            return true;
    return card_is_busy(&it->card) || traffic_is_busy(&it->traffic) || control_has_more(&it->control);
}

/* Returns whether a client waits for files to be closed. */
static bool is_closing(const struct server *it)
{
    for (unsigned int i = 0; i < it->function_count; i++)
        if (function_is_busy(&it->functions[i]))
            return true;
    return false;
}

static int sooner(int milliseconds, int other)
{
    return milliseconds < 0 || milliseconds > other ? other : milliseconds;
}

/* Returns the milliseconds to wait for events; -1: forever. */
static int patience(const struct server *it, bool is_late)
{
    int wait = wire_patience(&it->wire);
    if (is_late || is_closing(it))
        wait = sooner(wait, LATE_MS);
    if (local_rests())
        wait = sooner(wait, LOCAL_REST_MS);
    if (log_is_waiting())
        wait = sooner(wait, LOG_WAIT_MS);
    return wait;
}

static bool has_ended(const struct server *it)
{
    const struct function *physical = &it->functions[0];
    return physical->listener < 0 && !session_is_open(&physical->session);
}

/* Takes the link down when the wire's other end disconnects, like an unplugged cable, and up when it is back. Returns
   whether the link changed, so that steps may be due. */
static bool follow_wire(struct server *it)
{
    bool is_gone = wire_is_gone(&it->wire);
    if (is_gone == it->is_wire_gone)
        return false;
    it->is_wire_gone = is_gone;
    log_line(LOG_WIRE,
             is_gone ? "%s: the wire's other end is gone, so the card's link is down"
                     : "%s: the wire's other end is back, so the card's link is up",
             it->options.wire.path);
    card_link(&it->card, !is_gone);
    return true;
}

void server_run(struct server *it)
{
    card_begin_turn(&it->card);
    bool is_late = pass_frames(it);
    while (!ending_is_asked() && !has_ended(it)) {
        struct events events;
        bool gives_back = give_back(it);
        int wait = patience(it, is_late); /* before fill: a file closed between the two doesn't wake the loop */
        fill(it, &events);
        wait_for(&events, gives_back || has_more(it) ? 0 : wait);
        card_begin_turn(&it->card);
        serve_functions(it, &events);
        wire_serve(&it->wire, events.wire);
        control_serve(&it->control, events.control, it);
        traffic_prepare(&it->traffic, BUDGET_EXPECTED);
        is_late = pass_frames(it);
        wire_flush(&it->wire);
        is_late |= follow_wire(it);
        log_tick();
    }
}
