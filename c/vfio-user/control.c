#define _GNU_SOURCE
#include "control.h"

#include <errno.h>
#include <inttypes.h>
#include <stdlib.h>
#include <string.h>
#include <sys/socket.h>
#include <unistd.h>

#include "explain.h"
#include "local_socket.h"
#include "server.h"
#include "tell.h"

#define KEPT_MOST (4u << 20)

static const char short_of_memory[] = "out of memory";

/* ---- requests: each returns an error, or null for "ok" ---- */

/* A request: the server, and the arguments after the request's name. */
struct request {
    struct server *server;
    const char *rest;
    FILE *to;
    bool watches; /* the client requested places at which to hold the device */
};

static const char *tell(struct request *it)
{
    tell_counts(it->server, it->to);
    return NULL;
}

static const char *link_up_or_down(struct request *it)
{
    bool up = strcmp(it->rest, "up") == 0;
    if (!up && strcmp(it->rest, "down") != 0)
        return "expected link up or link down";
    wire_cut(&it->server->wire, !up);
    it->server->is_wire_gone = false; /* the link is as requested */
    fprintf(it->to, "%s\n", nic_status_name(card_link(&it->server->card, up)));
    return NULL;
}

static bool two_numbers(const char *text, unsigned int *first, unsigned int *second)
{
    int end = 0;
    return sscanf(text, "%7u %5u%n", first, second, &end) == 2 && text[end] == 0;
}

static const char *frames(struct request *it)
{
    unsigned int count, most;
    if (!two_numbers(it->rest, &count, &most) || count > TRAFFIC_MOST || most < FRAME_MIN || most > FRAME_JUMBO)
        return "frames COUNT MOST: at most 1000000 frames of 60 to 9014 bytes";
    traffic_send(&it->server->traffic, count, (uint16_t)most);
    return NULL;
}

static const char *expect(struct request *it)
{
    unsigned int count, most, mac[6];
    int end = 0, after = 0;
    uint8_t from[6];
    memcpy(from, it->server->options.card.mac, sizeof from);
    if (sscanf(it->rest, "%7u %5u%n %2x:%2x:%2x:%2x:%2x:%2x%n", &count, &most, &end, &mac[0], &mac[1], &mac[2], &mac[3],
               &mac[4], &mac[5], &after) == 8)
        for (int i = 0; i < 6; i++)
            from[i] = (uint8_t)mac[i];
    if (!end || it->rest[after ? after : end] || count > TRAFFIC_MOST || most < FRAME_MIN || most > FRAME_JUMBO)
        return "expect COUNT MOST [FROM]: at most 1000000 frames of 60 to 9014 bytes, from MAC address FROM";
    return traffic_expect(&it->server->traffic, count, (uint16_t)most, from) ? NULL : short_of_memory;
}

static const char *turn(struct request *it)
{
    struct traffic *traffic = &it->server->traffic;
    int end = 0;
    if (sscanf(it->rest, "%7u %7u%n", &traffic->turn_in, &traffic->turn_out, &end) != 2 || it->rest[end])
        return "turn IN OUT: the number of a frame to the card, and of a frame from the card; 0 for none";
    traffic->taken = 0;
    return NULL;
}

static const char *came(struct request *it)
{
    const struct numbered *expected = &it->server->traffic.expected;
    fprintf(it->to, "%u of %u, twice %u, wrong %u\n", expected->good, expected->count, expected->twice,
            expected->wrong);
    if (!numbered_is_ready(expected))
        fprintf(it->to, "%u of %u expected frames have been generated so far\n", expected->made, expected->count);
    return NULL;
}

static void tell_places(const struct watch *it, FILE *to)
{
    for (unsigned int i = 0; i < it->count; i++)
        fprintf(to, "at %s, %" PRIu64 " times\n", it->places[i].text, it->places[i].times);
}

static const char *hold_at(struct request *it, const char *place)
{
    struct card *card = &it->server->card;
    if (!*place)
        tell_places(&card->watch, it->to);
    else if (strcmp(place, "off") == 0)
        watch_clear(&card->watch);
    else
        it->watches = true;
    return it->watches ? watch_add(&card->watch, place, card->options.functions) : NULL;
}

static const char *hold(struct request *it)
{
    if (strcmp(it->rest, "at") == 0 || strncmp(it->rest, "at ", 3) == 0)
        return hold_at(it, it->rest + (it->rest[2] ? 3 : 2));
    if (*it->rest)
        return "expected hold, hold at PLACE, hold at off, or hold at";
    card_hold(&it->server->card);
    return NULL;
}

static const char *seed(struct request *it)
{
    uint64_t number;
    int end = 0;
    if (strcmp(it->rest, "off") == 0) {
        card_seed(&it->server->card, NULL);
        return NULL;
    }
    if (!strchr("0123456789", *it->rest) || sscanf(it->rest, "%20" SCNu64 "%n", &number, &end) != 1 || it->rest[end])
        return "expected seed N or seed off";
    card_seed(&it->server->card, &number);
    return NULL;
}

static const char *snapshot(struct request *it)
{
    struct snapshots *snapshots = &it->server->snapshots;
    for (unsigned int i = 0; !*it->rest && i < snapshots->count; i++)
        fprintf(it->to, "%s\n", snapshots->all[i].name);
    return *it->rest ? snapshots_take(snapshots, &it->server->card, it->rest) : NULL;
}

static const char *restore(struct request *it)
{
    return snapshots_restore(&it->server->snapshots, &it->server->card, it->rest);
}

static const char *go(struct request *it)
{
    card_go(&it->server->card);
    return NULL;
}

static const char *due(struct request *it)
{
    card_tell_due(&it->server->card, it->to);
    return NULL;
}

static const char *why(struct request *it)
{
    const char *text = explain_now(&it->server->card);
    if (text)
        fputs(text, it->to);
    return text ? NULL : short_of_memory;
}

static bool one_queue(const char *text, unsigned int *queue)
{
    int end = 0;
    return sscanf(text, "%3u%n", queue, &end) == 1 && text[end] == 0 && *queue < BUS_QUEUES;
}

/* Prints how many descriptors a request's steps processed, and whether more remain. */
static void tell_steps(struct request *it, uint64_t steps)
{
    fprintf(it->to, "%" PRIu64 " descriptors%s\n", steps,
            card_has_left_some(&it->server->card) ? "; more remain: repeat the request" : "");
}

static const char *transmit(struct request *it)
{
    unsigned int queue;
    uint64_t before = bus_counts(it->server->card.bus)->transmit_steps;
    if (!one_queue(it->rest, &queue))
        return "tx QUEUE: a queue is a number from 0 to 127";
    card_transmit(&it->server->card, (uint16_t)queue);
    tell_steps(it, bus_counts(it->server->card.bus)->transmit_steps - before);
    return NULL;
}

static const char *receive(struct request *it)
{
    tell_steps(it, card_receive(&it->server->card));
    return NULL;
}

static const char *interrupt(struct request *it)
{
    fprintf(it->to, "%u messages\n", card_messages(&it->server->card));
    return NULL;
}

static const char *queue_step(struct request *it)
{
    unsigned int queue;
    bool is_transmit = strncmp(it->rest, "tx ", 3) == 0;
    if ((!is_transmit && strncmp(it->rest, "rx ", 3) != 0) || !one_queue(it->rest + 3, &queue))
        return "expected qstep rx QUEUE or qstep tx QUEUE";
    fprintf(it->to, "%s\n", card_enable(&it->server->card, is_transmit, (uint16_t)queue) ? "done" : "idle");
    it->server->card.stepper.has_changed = true;
    return NULL;
}

static const char *eeprom(struct request *it)
{
    fprintf(it->to, "%s\n", bus_eeprom(it->server->card.bus) ? "done" : "idle");
    return NULL;
}

static const char *peek(struct request *it)
{
    unsigned int address;
    uint32_t word = 0;
    int end = 0;
    if (sscanf(it->rest, "%5x%n", &address, &end) != 1 || it->rest[end] ||
        nic_peek32(bus_device(it->server->card.bus), address, &word) != NIC_DONE)
        return "peek ADDRESS: no register at this address";
    fprintf(it->to, "%08" PRIx32 "\n", word);
    return NULL;
}

static const char *help(struct request *it);

static const struct {
    const char *name;
    const char *(*answer)(struct request *it);
    const char *text;
} requests[] = {
    {"counts", tell, "prints counts of all traffic so far"},
    {"link", link_up_or_down, "link up, link down: plugs or unplugs the cable"},
    {"frames", frames, "frames COUNT MOST: sends COUNT numbered frames of 60 to MOST bytes to the card"},
    {"expect", expect, "expect COUNT MOST [FROM]: from now on, compares the card's frames with these numbered frames"},
    {"turn", turn, "turn IN OUT: corrupts a byte in frame IN to the card and in frame OUT from it, to test comparing"},
    {"came", came, "prints how many of the expected frames have arrived"},
    {"hold", hold,
     "holds the device, which then runs only requested steps; hold at PLACE: holds it at an access; "
     "hold at off: clears these places"},
    {"go", go, "ends the hold: the device runs its steps by itself again"},
    {"seed", seed,
     "seed N: from now on, each step runs immediately or late, at random with this seed; seed off: immediately"},
    {"snapshot", snapshot, "snapshot NAME: saves the device's state; without a name: lists the snapshots"},
    {"restore", restore, "restore NAME: restores the device's state, but not the guest's"},
    {"due", due, "lists the steps that are due"},
    {"why", why, "reports why pending work doesn't proceed"},
    {"tx", transmit, "tx QUEUE: runs all of the queue's transmit steps, about 8 MB at a time"},
    {"rx", receive, "runs receive steps until none is due"},
    {"int", interrupt, "sends all messages that are due"},
    {"qstep", queue_step, "qstep rx QUEUE, qstep tx QUEUE: turns the queue on or off as its driver requested"},
    {"eestep", eeprom, "completes an EEPROM read"},
    {"peek", peek, "peek ADDRESS: prints a register's value, without the side effects of a read"},
    {"help", help, "prints this list"},
};

static const char *help(struct request *it)
{
    for (size_t i = 0; i < sizeof requests / sizeof *requests; i++)
        fprintf(it->to, "%-8s %s\n", requests[i].name, requests[i].text);
    return NULL;
}

bool control_obey(struct server *server, const char *line, FILE *to)
{
    size_t name = strcspn(line, " ");
    struct request request = {server, line[name] ? line + name + 1 : "", to, false};
    const char *error = "unknown request; help lists the requests";
    for (size_t i = 0; i < sizeof requests / sizeof *requests; i++)
        if (strlen(requests[i].name) == name && strncmp(line, requests[i].name, name) == 0)
            error = requests[i].answer(&request);
    if (error)
        fprintf(to, "error: %s\n", error);
    else
        fprintf(to, "ok\n");
    return request.watches;
}

/* ---- clients ---- */

static void drop(struct control_client *it)
{
    if (it->file >= 0)
        close(it->file);
    buffer_clear(&it->out);
    it->file = -1;
    it->length = it->in_at = it->in_end = 0;
    it->is_long = it->watches = false;
    it->why = CONTROL_NO_WHY;
}

static void flush(struct control_client *it)
{
    while (buffer_waiting(&it->out)) {
        ssize_t went = send(it->file, buffer_front(&it->out), buffer_waiting(&it->out), MSG_NOSIGNAL | MSG_DONTWAIT);
        if (went < 0 && (errno == EAGAIN || errno == EWOULDBLOCK || errno == EINTR))
            return;
        if (went < 0) {
            drop(it);
            return;
        }
        buffer_take(&it->out, (size_t)went);
    }
}

static void say(struct control_client *it, const char *text, size_t length)
{
    if (buffer_waiting(&it->out) + length <= KEPT_MOST && buffer_put(&it->out, NULL, 0, text, length))
        flush(it);
    else
        drop(it);
}

/* Returns whether the explaining thread will answer the request. */
static bool is_for_thread(const struct control_client *it, const struct server *server)
{
    return !it->is_long && strcmp(it->line, "why") == 0 && explain_file() >= 0 && !server->card.options.is_recorded;
}

/* Sends the answer to `why`, or an error if `text` is null because memory ran out. */
static void say_answer(struct control_client *it, const char *text)
{
    static const char last[] = "ok\n";
    char error[64];
    int length = snprintf(error, sizeof error, "error: %s\n", short_of_memory);
    if (!text)
        say(it, error, (size_t)length);
    else if (*text)
        say(it, text, strlen(text));
    if (text && it->file >= 0)
        say(it, last, strlen(last));
}

static void obey(struct control_client *it, struct server *server)
{
    char *text = NULL;
    size_t length = 0;
    if (is_for_thread(it, server)) {
        it->why = CONTROL_WANTS_WHY;
        return;
    }
    FILE *to = open_memstream(&text, &length);
    if (!to)
        return;
    if (it->is_long)
        fprintf(to, "error: a request is at most %d bytes long\n", CONTROL_LINE - 1);
    else if (control_obey(server, it->line, to))
        it->watches = true;
    fclose(to);
    say(it, text, length);
    free(text);
}

/* Passes the thread's answer to the waiting client. If that client has disconnected, discards the answer. */
static void pass_answer(struct control *it)
{
    const char *text = explain_text();
    for (unsigned int i = 0; i < CONTROL_CLIENTS; i++) {
        struct control_client *client = &it->clients[i];
        if (client->why != CONTROL_AWAITS_WHY)
            continue;
        client->why = CONTROL_NO_WHY;
        say_answer(client, text);
    }
    explain_end();
}

/* Starts the next client's `why` on the card's current state. */
static void ask_why(struct control *it, struct server *server)
{
    for (unsigned int i = 0; i < CONTROL_CLIENTS && explain_is_free(); i++) {
        struct control_client *client = &it->clients[(it->next_why + i) % CONTROL_CLIENTS];
        if (client->why != CONTROL_WANTS_WHY)
            continue;
        it->next_why = (it->next_why + i + 1) % CONTROL_CLIENTS;
        bool is_asked = explain_ask(&server->card);
        client->why = is_asked ? CONTROL_AWAITS_WHY : CONTROL_NO_WHY;
        if (!is_asked)
            say_answer(client, NULL);
        return;
    }
}

/* Reports that the device is held at a requested access. No other line is sent without a request. */
static void tell_held(struct control *it, struct watch *watch)
{
    char text[WATCH_TEXT + 32];
    int length = snprintf(text, sizeof text, watch->met->is_write ? "held at %s %08" PRIx32 "\n" : "held at %s\n",
                          watch->met->text, watch->word);
    watch->met = NULL;
    for (unsigned int i = 0; i < CONTROL_CLIENTS; i++)
        if (it->clients[i].file >= 0 && it->clients[i].watches)
            say(&it->clients[i], text, (size_t)length);
}

/* Executes a client's next request if all of it has been received. */
static void take(struct control_client *it, struct server *server)
{
    while (it->in_at < it->in_end) {
        char byte = it->in[it->in_at++];
        if (byte != '\n') {
            it->is_long |= it->length == CONTROL_LINE - 1;
            if (!it->is_long)
                it->line[it->length++] = byte;
            continue;
        }
        it->line[it->length] = 0;
        if (it->length && it->line[it->length - 1] == '\r')
            it->line[it->length - 1] = 0;
        obey(it, server);
        it->length = 0;
        it->is_long = false;
        return;
    }
}

static void receive_requests(struct control_client *it)
{
    ssize_t got = recv(it->file, it->in, sizeof it->in, MSG_DONTWAIT);
    it->in_at = 0;
    it->in_end = got > 0 ? (size_t)got : 0;
    if (got == 0 || (got < 0 && errno != EAGAIN && errno != EWOULDBLOCK && errno != EINTR))
        drop(it);
}

/* Receives more requests only after all received ones are executed and their answers sent. */
static void serve_client(struct control_client *it, short events, struct server *server)
{
    if (events & POLLOUT)
        flush(it);
    if (it->why && events & (POLLHUP | POLLERR))
        drop(it);
    if (it->file < 0 || it->why || buffer_waiting(&it->out))
        return;
    if (it->in_at == it->in_end && events & (POLLIN | POLLHUP | POLLERR))
        receive_requests(it);
    take(it, server);
}

static void accept_client(struct control *it)
{
    int file = local_accept(it->listener);
    for (unsigned int i = 0; i < CONTROL_CLIENTS; i++)
        if (file >= 0 && it->clients[i].file < 0) {
            it->clients[i].file = file;
            return;
        }
    if (file >= 0)
        close(file);
}

static bool has_requests(const struct control_client *it)
{
    return it->file >= 0 && !it->why && it->in_at < it->in_end && buffer_waiting(&it->out) == 0;
}

bool control_has_more(const struct control *it)
{
    for (unsigned int i = 0; i < CONTROL_CLIENTS; i++)
        if (has_requests(&it->clients[i]) || (it->clients[i].why == CONTROL_WANTS_WHY && explain_is_free()))
            return true;
    return false;
}

void control_polls(const struct control *it, struct pollfd *polls)
{
    polls[0] = (struct pollfd){.fd = local_rests() ? -1 : it->listener, .events = POLLIN};
    for (unsigned int i = 0; i < CONTROL_CLIENTS; i++) {
        const struct control_client *client = &it->clients[i];
        short out = buffer_waiting(&client->out) ? POLLOUT : 0, in = client->why ? 0 : POLLIN;
        polls[1 + i] = (struct pollfd){.fd = client->file, .events = (short)(out ? out : in)};
    }
    polls[1 + CONTROL_CLIENTS] = (struct pollfd){.fd = explain_file(), .events = POLLIN};
}

void control_serve(struct control *it, const struct pollfd *polls, struct server *server)
{
    if (server->card.watch.met)
        tell_held(it, &server->card.watch);
    if (explain_is_ready())
        pass_answer(it);
    for (unsigned int i = 0; i < CONTROL_CLIENTS; i++)
        if (it->clients[i].file >= 0 && (polls[1 + i].revents || has_requests(&it->clients[i])))
            serve_client(&it->clients[i], polls[1 + i].revents, server);
    ask_why(it, server);
    if (polls[0].revents & POLLIN)
        accept_client(it);
}

/* ---- opening and closing ---- */

const char *control_open(struct control *it, const char *path)
{
    *it = (struct control){.path = path, .listener = -1};
    for (unsigned int i = 0; i < CONTROL_CLIENTS; i++)
        it->clients[i].file = -1;
    return path ? local_listen(&it->listener, path, CONTROL_CLIENTS) : NULL;
}

void control_close(struct control *it)
{
    for (unsigned int i = 0; i < CONTROL_CLIENTS; i++)
        drop(&it->clients[i]);
    if (it->listener >= 0) {
        close(it->listener);
        local_forget(it->path);
    }
}
