/* A socket at which a person or a program requests device steps and inspects the device. A request is a line. Its
   answer ends with an "ok" line, or with "error: " and the reason. docs/guests.md lists the requests. */
#ifndef VFU_CONTROL_H
#define VFU_CONTROL_H

#include <poll.h>
#include <stdbool.h>
#include <stdio.h>

#include "buffer.h"

#define CONTROL_CLIENTS 4
#define CONTROL_LINE 256 /* bytes of a request */
#define CONTROL_IN 4096  /* received bytes not yet processed */
#define CONTROL_POLLS (2 + CONTROL_CLIENTS)

struct server;

/* A client's `why`: waiting for its turn, or for the answer. */
enum control_why { CONTROL_NO_WHY, CONTROL_WANTS_WHY, CONTROL_AWAITS_WHY };

struct control_client {
    int file; /* -1: no client */
    enum control_why why;
    char in[CONTROL_IN];
    size_t in_at, in_end;
    char line[CONTROL_LINE];
    size_t length;
    bool is_long; /* the line is too long, and is skipped */
    bool watches; /* the client requested places at which to hold the device, and gets a line at each hold */
    struct buffer out;
};

struct control {
    const char *path;
    int listener; /* -1: there is no socket */
    struct control_client clients[CONTROL_CLIENTS];
    unsigned int next_why; /* the client whose `why` comes next */
};

/* Listens at a path, unless it is null. Returns null, or why it can't. */
const char *control_open(struct control *it, const char *path);
void control_close(struct control *it);
void control_polls(const struct control *it, struct pollfd *polls);
/* Executes one request from each client, except from a client with an unanswered `why`. */
void control_serve(struct control *it, const struct pollfd *polls, struct server *server);
/* Returns whether received requests are waiting. */
bool control_has_more(const struct control *it);

/* Executes the request in a line and writes the answer to `to`, even for `why`. Returns whether the request asks for a
   line when the device is held. */
bool control_obey(struct server *server, const char *line, FILE *to);

#endif
