/* Compares the hash that DPDK's driver reports with three others: DPDK's rte_softrss, the library's nic_hash, and the
   one in drivers/common. Also sets the redirection table. */
#ifndef HASHES_H
#define HASHES_H

#include <rte_mbuf.h>

#include "frames.h"
#include "rss.h"

enum hash { HASH_NONE, HASH_RIGHT, HASH_WRONG };

/* NONE: the frame should have no hash, and has none. WRONG: the hash is wrong; this module prints why, and the caller
   reports a problem. */
enum hash hash_compare(const struct rte_mbuf *packet, const struct frame *frame, const struct rss *rss);

/* Sets a redirection table over `queues` queues that differs from the driver's own. Fills `rss` with the settings that
   the run then expects: rss_key, this table, and all frame types. Returns 0, or 1 if the driver refuses the table. */
uint16_t choose_queues(uint16_t port, unsigned int queues, struct rss *rss);

#endif
