/* The ports of a run with virtual functions: port 0 is the physical function's, and port v + 1 is virtual function
   v's. */
#ifndef PORTS_H
#define PORTS_H

#include <rte_ether.h>
#include <stdbool.h>
#include <stdint.h>

#include "dpdk.h"

#define HOST 0u
#define PORT_QUEUES 4 /* maximum */

/* The phases of a run, for counts and strays. */
enum phase {
    IN_PROBE,
    IN_START,
    IN_TRAFFIC,
    IN_COUNTERS,
    IN_REQUESTS,
    IN_HOST,
    IN_STOP,
    IN_CLOSE,
    IN_VF_PROBE,
    IN_VF_START,
    IN_VF_STOP,
    IN_VF_CLOSE
};
extern const char *const phase_names[];

/* A run's parameters. */
struct setting {
    unsigned int max_vfs;   /* limit on virtual functions */
    unsigned int functions; /* virtual functions to probe */
    unsigned int queues;    /* the physical function's queues, each way */
    unsigned int vf_queues; /* each function's */
    unsigned int slots;     /* slots in each ring */
    unsigned int frames;    /* frames per pass, each way, on each port */
    bool has_rss;           /* the host's */
    bool has_vectors;       /* request interrupts for queues */
};
extern struct setting setting;

struct port {
    uint16_t number; /* DPDK's port number */
    struct rte_ether_addr mac;
    bool is_there, is_configured, is_started;
};
extern struct port ports[BUS_FUNCTIONS];
extern struct rss rss; /* what the run configured */

/* Returns "host", "VF0" and so on. */
const char *port_name(unsigned int which);
unsigned int port_queues(unsigned int which);
/* Returns the device's queue for a port's queue. */
uint16_t device_queue(unsigned int which, uint16_t queue);

/* Each of these functions prints its action, and returns false and reports a problem if the action fails. A port that
   exists isn't probed again. */
bool port_probe(unsigned int which);
bool port_start(unsigned int which); /* configures the port first if needed */
bool port_stop(unsigned int which);
bool port_remove(unsigned int which);

/* Like port_probe, but reports no problem. Returns 0, or the driver's error. */
int port_try_probe(unsigned int which);

/* Probes a virtual function before the physical function is started. The VF driver gives up unless the shim answers its
   accesses. */
void port_probe_early(unsigned int which);

/* Receives the frames waiting in a port's queues, as take_packets does, if the port is started. Returns their
   number. */
unsigned int port_take(unsigned int which, look_at *look, void *argument);
unsigned int port_drain(unsigned int which); /* port_take without `look` */

#endif
