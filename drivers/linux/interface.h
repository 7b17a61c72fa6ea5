/* Network interfaces of the guest, configured by ioctl as `ip` and `ethtool` do, without another program. A call that
   fails reports a problem, unless its comment says otherwise. */
#ifndef LINUX_INTERFACE_H
#define LINUX_INTERFACE_H

#include <net/if.h>
#include <stdbool.h>
#include <stdint.h>

struct interface {
    char name[IFNAMSIZ];
    unsigned int function; /* 0: physical function; v + 1: virtual function v */
    uint8_t mac[6];
};

/* Call this first. */
void interface_begin(void);

/* Compares two values, and counts the comparison. */
bool equal(const char *what, uint64_t reported, uint64_t counted);
unsigned int compared(void);

/* Finds a function's interface by the driver's name and the function's slot on the bus. Returns false, without
   reporting a problem, if it has none. */
bool interface_find(struct interface *it, const char *driver, unsigned int function);

void interface_set_up(const struct interface *it, bool up);
bool interface_has_link(const struct interface *it);
/* Waits up to 20 seconds until the link has the requested state, and then until the kernel has noticed it. */
bool interface_wait_link(const struct interface *it, bool wanted);
void interface_set_mac(struct interface *it, const uint8_t mac[6]);
void interface_set_mtu(const struct interface *it, unsigned int mtu);
void interface_set_queues(const struct interface *it, unsigned int queues);
void interface_set_key(const struct interface *it);
/* Fills the redirection table with `queues` queues in turn. */
void interface_redirect(const struct interface *it, unsigned int queues);
/* Disables checksum and segmentation offloads, and offloads that change the order of frames. */
void interface_turn_offloads_off(const struct interface *it);
/* Returns a statistic by its name in `ethtool -S`. */
uint64_t interface_statistic(const struct interface *it, const char *name);
/* The kernel's count of interrupts from the interface's vectors. */
uint64_t interface_interrupts(const struct interface *it);

/* Runs the driver's test (`ethtool -t`). Stores the results, at most `most`, in the order of their names. Returns their
   number. */
#define TEST_NAME 32
struct test_result {
    char name[TEST_NAME];
    uint64_t value;
};
unsigned int interface_test(const struct interface *it, struct test_result *results, unsigned int most);

/* Sets an interface's IP address, and the peer's on the same network, for UDP through the kernel's stack. A null
   address removes the interface's address. */
void interface_set_address(const struct interface *it, const char *address, const char *peer, const uint8_t mac[6]);

/* Opens a socket for an interface's raw frames. Returns -1, and reports a problem, if it can't. */
int interface_socket(const struct interface *it);

/* Writes text to a file of /sys or /proc. Returns 0 or the error. */
int put_text(const char *path, const char *text);

#endif
