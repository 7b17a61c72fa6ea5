/* Starts DPDK on the bench. Also contains the port functions that every run needs. */
#ifndef DPDK_H
#define DPDK_H

#include <rte_ethdev.h>
#include <rte_mbuf.h>
#include <stdbool.h>
#include <stdint.h>

#include "bus.h"
#include "rss.h"

#define SLOTS 128 /* default number of descriptors in a ring */
#define BURST 32

struct dpdk_options {
    struct bus_options bus; /* its MAC address is ignored: card_mac is used instead */
    const char *name;       /* the program's name */
    unsigned int mebibytes; /* size of DPDK's memory */
    unsigned int packets;   /* packets in the pool: a power of two minus one */
    uint16_t buffer;        /* data bytes of a packet */
    bool scalar, loud;      /* no vector functions in the driver; print everything that DPDK logs */
    bool has_null_driver;
    unsigned int lcores; /* lcores in addition to the main one */
    const char *strays;  /* the file for strays; null for none */
};

extern struct rte_mempool *pool;
extern const uint8_t rss_key[RSS_KEY_BYTES];
extern const uint8_t card_mac[6], peer_mac[6];

/* Starts DPDK, opens the bus with its windows, lends DPDK's memory to the device, and creates a pool of packets.
   Returns false, and reports a problem, if one of these actions fails. */
bool dpdk_start(const struct dpdk_options *options);
/* Ends the run: saves strays, closes the bus, reports problems and cleans up DPDK. Returns the run's status. */
int dpdk_end(const struct dpdk_options *options);

/* Parses an argument that every program takes: --scalar, --loud, or --turn or --strays with a value. Returns false for
   any other argument. */
bool dpdk_word(const char *word, struct dpdk_options *options);
bool dpdk_pair(const char *word, const char *next, struct dpdk_options *options);

/* Enters a phase and prints its name. */
void begin(unsigned int phase, const char *name);

/* Returns whether a call failed; if so, reports a problem. */
bool failed(const char *what, int status);

/* Configures a port with `queues` queues each way. Returns 0, or the error of the failed call, whose name is stored in
   `what`. */
int port_configure(uint16_t port, const struct rte_eth_conf *configuration, unsigned int queues, unsigned int slots,
                   const char **what);

/* Requests RSS for every frame type that the driver supports, with rss_key. */
void ask_for_rss(struct rte_eth_conf *configuration);

/* Receives and frees all packets waiting in a queue, and returns their number. `look`, unless null, is called with each
   packet first. */
typedef void look_at(const struct rte_mbuf *packet, uint16_t queue, void *argument);
unsigned int take_packets(uint16_t port, uint16_t queue, look_at *look, void *argument);

/* Returns the name of the driver's function that a port uses. The driver's static vector functions for sending have no
   name outside the driver. */
const char *receives_by(uint16_t port);
const char *sends_by(uint16_t port);

#endif
