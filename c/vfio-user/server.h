/* The whole server: the card, its functions with their sockets, the wire, and the loop that serves them. */
#ifndef VFU_SERVER_H
#define VFU_SERVER_H

#include <stdbool.h>

#include "card.h"
#include "control.h"
#include "function.h"
#include "options.h"
#include "snapshots.h"
#include "traffic.h"
#include "wire.h"

#define SERVER_FUNCTIONS (1 + 2 * CARD_FUNCTIONS_MOST)

struct server {
    struct options options;
    struct card card;
    struct wire wire;
    struct control control;
    struct traffic traffic;
    struct snapshots snapshots;
    struct output trace;
    struct function functions[SERVER_FUNCTIONS];
    unsigned int function_count;
    bool is_wire_gone; /* the link is down because the wire's other end has disconnected */
};

/* Opens the card, its sockets and all files. Returns false after a line on standard error that says what couldn't be
   opened. */
bool server_open(struct server *it);
/* Serves until an end is requested (ending.h), or the client of --fd has disconnected. */
void server_run(struct server *it);
void server_close(struct server *it);

#endif
