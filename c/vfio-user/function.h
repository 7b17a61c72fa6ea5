/* One function of the card as a client sees it: its configuration space, its registers, its interrupts. A virtual
   function has two sockets. One socket presents it as a separate device to another guest. The other, the shadow,
   presents it to the guest with the physical function, visible only through SR-IOV. */
#ifndef VFU_FUNCTION_H
#define VFU_FUNCTION_H

#include <poll.h>
#include <stdbool.h>
#include <stdint.h>

#include "pci_config.h"
#include "session.h"

#define FUNCTION_TABLE_BYTES 0x4000u
#define FUNCTION_POLLS 3
#define FUNCTION_VIRTUAL_VECTORS 3
#define FUNCTION_PATH_MOST 108 /* bytes of a socket's name, with its zero byte */

struct card;

enum function_kind { FUNCTION_PHYSICAL, FUNCTION_VIRTUAL, FUNCTION_SHADOW };

struct function_counts {
    uint64_t config_reads, config_writes, odd_accesses, lost_messages;
};

struct function {
    enum function_kind kind;
    unsigned int number; /* on the bus: 0 for the physical function, v + 1 for virtual function v */
    unsigned int socket; /* among all sockets, counted from 0 */
    uint64_t client;     /* number of clients that have left; also the current client's serial number */
    uint16_t device;
    unsigned int virtual_functions; /* number of virtual functions; set for the physical function */
    struct card *card;
    struct pci_config config;
    bool shows_sriov;
    uint8_t table[FUNCTION_TABLE_BYTES];
    struct session session;
    int listener;    /* -1: none */
    bool is_leaving; /* the client sends no more: the server serves its remaining messages, and the next client waits */
    char path[FUNCTION_PATH_MOST];
    struct function_counts counts;
};

/* Initializes a function of a card. The path must already be set, because reports contain it. */
void function_begin(struct function *it);
/* Listens at its path. Returns null, or why it can't. */
const char *function_listen(struct function *it);
/* Lists the files to poll: its listener, its client, and the eventfd with which the client unmasks the line. */
void function_polls(const struct function *it, struct pollfd polls[FUNCTION_POLLS]);
/* Returns whether received messages are waiting and can be served now. */
bool function_has_more(const struct function *it);
/* Returns whether the function's client is waiting for work that the server does in several turns. */
bool function_is_busy(const struct function *it);
/* Accepts the client that waits at the socket, or rejects it if there is a client already. */
void function_accept(struct function *it);
/* Serves the function's client. `events` is what poll reported for the client's socket. */
void function_serve(struct function *it, short events);
/* Checks whether the client has unmasked the line through its eventfd. */
void function_unmask(struct function *it);
/* Whether its client can receive messages. */
enum function_ready {
    FUNCTION_ABSENT, /* there is no client */
    FUNCTION_DEAF,   /* the client's MSI-X is off: messages are lost */
    FUNCTION_WAITS,  /* messages of this vector wait until it is set up */
    FUNCTION_TAKES
};

enum function_ready function_ready(const struct function *it, unsigned int vector);
/* Sends the function's client a message from the device. */
void function_message(struct function *it, unsigned int vector);
/* Returns whether its client is notified of causes through the line or MSI: there is a client, and its MSI-X is off.
   Virtual functions have neither. */
bool function_has_line(const struct function *it);
/* Signals these pending enabled causes. Returns whether the client was notified. */
bool function_line(struct function *it, uint32_t causes);
/* Notes the pending enabled causes after a register access, which may have cleared some. */
void function_line_after_access(struct function *it, uint32_t causes);
/* Disconnects its client and closes its socket. */
void function_end(struct function *it);

#endif
