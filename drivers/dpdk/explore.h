/* DPDK's own receive, transmit and mailbox code, as scenarios for the explorer (nic82599_explore.h). */
#ifndef EXPLORE_H
#define EXPLORE_H

#include <ethdev_driver.h>
#include <rte_mbuf.h>
#include <stdbool.h>
#include <stddef.h>
#include <stdint.h>

#include "nic82599_explore.h"

/* A bug planted in a run to show that the run reports it. TURN changes a byte in transit to or from the driver. ORDER
   delays the last store before a tail write until after that write. */
enum plant { NOTHING_PLANTED, TURN, ORDER };
extern enum plant planted;

/* ---- points: one for each access to a ring by the driver ---- */

/* Removes all rings from the list. */
void points_begin(void);
/* Registers a ring: the descriptors at address `at` in the process have bus address `bus`. */
void points_ring(volatile void *at, uint64_t bus, size_t length);
/* Makes the last store visible. Call it before each explorer call and after each driver call. */
void points_flush(void);

/* ---- state: saved at the end of bring-up, restored at the start of each schedule ---- */

void state_begin(void);
/* Registers memory to save. Returns false if memory runs out. */
bool state_keep(void *at, size_t length);
void state_back(void);

/* ---- the port: a DPDK Ethernet device without a bus ---- */

struct ixgbe_adapter;
extern struct rte_eth_dev *port;
extern struct rte_mempool *packets;

enum { DATA_ROOM = 1024, BUS_BUFFERS = 0x2000, BUS_RING = 0x0800, MOST_FUNCTIONS = 2 };

/* Starts DPDK, once in a process. Returns null, or why it failed. */
const char *layer_start(void);
/* Creates a pool of `count` packets, with bus addresses that start at BUS_BUFFERS. Call it once. Returns null, or why
   it failed. */
const char *layer_pool(unsigned int count);
/* Creates the port in its state before any setup, with the driver's own functions for an 82599. Returns null, or why it
   failed. */
const char *layer_port(unsigned int virtual_functions);
/* Begins or ends bring-up, during which each register read first runs the device's steps. */
void seam_bring_up(bool begins);

/* ---- the runs ---- */

/* Each returns the scenario of this name, or null. */
const nicx_scenario *rings_scenario(const char *name);
const nicx_scenario *mailbox_scenario(const char *name);

#endif
