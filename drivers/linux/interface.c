#define _GNU_SOURCE
#include "interface.h"

#include <arpa/inet.h>
#include <errno.h>
#include <fcntl.h>
#include <linux/ethtool.h>
#include <linux/if_packet.h>
#include <linux/sockios.h>
#include <net/ethernet.h>
#include <net/if_arp.h>
#include <stdio.h>
#include <stdlib.h>
#include <string.h>
#include <sys/ioctl.h>
#include <sys/socket.h>
#include <unistd.h>

#include "verdict.h"

#define LINK_TENTHS 200
#define TENTH 100000        /* microseconds */
#define LINK_NOTICE 1500000 /* the kernel checks links once a second */
#define SOCKET_BYTES (16 << 20)
#define KEY_BYTES 40
#define TABLE_MOST 512

static int control;
static unsigned int compared_count;

void interface_begin(void)
{
    control = socket(AF_INET, SOCK_DGRAM, 0);
}

bool equal(const char *what, uint64_t reported, uint64_t counted)
{
    compared_count++;
    return same(what, reported, counted);
}

unsigned int compared(void)
{
    return compared_count;
}

static void tell_failure(const struct interface *it, const char *what, int error)
{
    compared_count++;
    if (error)
        problem("%s: %s: %s", it->name, what, strerror(error));
}

/* Performs an ioctl. Returns 0 or the error. */
static int call(const struct interface *it, unsigned long number, struct ifreq *request)
{
    strcpy(request->ifr_name, it->name);
    return ioctl(control, number, request) < 0 ? errno : 0;
}

static int ethtool(const struct interface *it, void *data)
{
    struct ifreq request = {.ifr_data = data};
    return call(it, SIOCETHTOOL, &request);
}

/* ---- lookup ---- */

static bool is_it(struct interface *it, const char *name, const char *driver, const char *bus)
{
    struct ethtool_drvinfo info = {.cmd = ETHTOOL_GDRVINFO};
    strcpy(it->name, name);
    return ethtool(it, &info) == 0 && strcmp(info.driver, driver) == 0 && strcmp(info.bus_info, bus) == 0;
}

bool interface_find(struct interface *it, const char *driver, unsigned int function)
{
    char bus[16];
    bool is_found = false;
    struct ifreq request = {0};
    struct if_nameindex *all = if_nameindex();
    snprintf(bus, sizeof bus, "0000:00:%02x.0", function);
    it->function = function;
    for (struct if_nameindex *at = all; at && at->if_index && !is_found; at++)
        is_found = is_it(it, at->if_name, driver, bus);
    if_freenameindex(all);
    if (!is_found || call(it, SIOCGIFHWADDR, &request))
        return false;
    memcpy(it->mac, request.ifr_hwaddr.sa_data, sizeof it->mac);
    return true;
}

/* ---- up and down ---- */

void interface_set_up(const struct interface *it, bool up)
{
    struct ifreq request = {0};
    int error = call(it, SIOCGIFFLAGS, &request);
    request.ifr_flags = (short)(up ? request.ifr_flags | IFF_UP : request.ifr_flags & ~IFF_UP);
    if (!error)
        error = call(it, SIOCSIFFLAGS, &request);
    tell_failure(it, up ? "bringing it up" : "bringing it down", error);
}

bool interface_has_link(const struct interface *it)
{
    struct ethtool_value link = {.cmd = ETHTOOL_GLINK};
    return ethtool(it, &link) == 0 && link.data;
}

bool interface_wait_link(const struct interface *it, bool wanted)
{
    compared_count++;
    for (unsigned int tenth = 0; tenth < LINK_TENTHS; tenth++) {
        if (interface_has_link(it) == wanted) {
            usleep(LINK_NOTICE);
            return true;
        }
        usleep(TENTH);
    }
    problem("%s: its link isn't %s after 20 s", it->name, wanted ? "up" : "down");
    return false;
}

/* ---- settings ---- */

void interface_set_mac(struct interface *it, const uint8_t mac[6])
{
    struct ifreq request = {.ifr_hwaddr.sa_family = ARPHRD_ETHER};
    memcpy(request.ifr_hwaddr.sa_data, mac, 6);
    tell_failure(it, "setting its MAC address", call(it, SIOCSIFHWADDR, &request));
    memcpy(it->mac, mac, 6);
}

void interface_set_mtu(const struct interface *it, unsigned int mtu)
{
    struct ifreq request = {.ifr_mtu = (int)mtu};
    tell_failure(it, "setting its MTU", call(it, SIOCSIFMTU, &request));
}

void interface_set_queues(const struct interface *it, unsigned int queues)
{
    struct ethtool_channels channels = {.cmd = ETHTOOL_GCHANNELS};
    int error = ethtool(it, &channels);
    channels.cmd = ETHTOOL_SCHANNELS;
    channels.combined_count = queues;
    if (!error)
        error = ethtool(it, &channels);
    channels.cmd = ETHTOOL_GCHANNELS;
    if (!error)
        error = ethtool(it, &channels);
    tell_failure(it, "setting its number of queues", error);
    equal("queues that the driver supports, and queues requested", channels.combined_count, queues);
}

void interface_set_key(const struct interface *it)
{
    struct {
        struct ethtool_rxfh head;
        uint8_t key[KEY_BYTES];
    } key = {.head = {.cmd = ETHTOOL_SRSSH, .indir_size = ETH_RXFH_INDIR_NO_CHANGE, .key_size = KEY_BYTES}};
    for (unsigned int i = 0; i < KEY_BYTES; i++)
        key.key[i] = (uint8_t)(0x6d + 0x35 * i + (i * i >> 1));
    tell_failure(it, "setting its RSS key", ethtool(it, &key));
}

void interface_redirect(const struct interface *it, unsigned int queues)
{
    struct {
        struct ethtool_rxfh_indir head;
        uint32_t entries[TABLE_MOST];
    } table = {.head = {.cmd = ETHTOOL_GRXFHINDIR}};
    int error = ethtool(it, &table); /* this request returns only the size */
    for (uint32_t i = 0; i < table.head.size && i < TABLE_MOST; i++)
        table.entries[i] = i % queues;
    table.head.cmd = ETHTOOL_SRXFHINDIR;
    if (!error)
        error = ethtool(it, &table);
    tell_failure(it, "setting its redirection table", error);
}

void interface_turn_offloads_off(const struct interface *it)
{
    static const struct {
        uint32_t set;
        const char *what;
    } all[] = {
        {ETHTOOL_STSO, "turning tso off"},   {ETHTOOL_SGSO, "turning gso off"},   {ETHTOOL_SSG, "turning sg off"},
        {ETHTOOL_STXCSUM, "turning tx off"}, {ETHTOOL_SRXCSUM, "turning rx off"}, {ETHTOOL_SGRO, "turning gro off"},
    };
    for (unsigned int i = 0; i < sizeof all / sizeof *all; i++) {
        struct ethtool_value off = {.cmd = all[i].set};
        tell_failure(it, all[i].what, ethtool(it, &off));
    }
    struct ethtool_value flags = {.cmd = ETHTOOL_GFLAGS};
    ethtool(it, &flags);
    flags.cmd = ETHTOOL_SFLAGS;
    flags.data &= ~(uint32_t)(ETH_FLAG_LRO | ETH_FLAG_NTUPLE);
    tell_failure(it, "turning LRO off", ethtool(it, &flags));
}

/* ---- reports ---- */

static unsigned int set_size(const struct interface *it, unsigned int set)
{
    struct {
        struct ethtool_sset_info head;
        uint32_t size;
    } info = {.head = {.cmd = ETHTOOL_GSSET_INFO, .sset_mask = UINT64_C(1) << set}};
    return ethtool(it, &info) == 0 && info.head.sset_mask ? info.size : 0;
}

/* Returns the names of a set, ETH_GSTRING_LEN bytes each. The caller frees them. */
static struct ethtool_gstrings *set_names(const struct interface *it, unsigned int set, unsigned int size)
{
    struct ethtool_gstrings *names = calloc(1, sizeof *names + (size_t)size * ETH_GSTRING_LEN);
    *names = (struct ethtool_gstrings){.cmd = ETHTOOL_GSTRINGS, .string_set = set, .len = size};
    tell_failure(it, "reading its statistics' names", ethtool(it, names));
    return names;
}

uint64_t interface_statistic(const struct interface *it, const char *name)
{
    unsigned int size = set_size(it, ETH_SS_STATS);
    struct ethtool_gstrings *names = set_names(it, ETH_SS_STATS, size);
    struct ethtool_stats *values = calloc(1, sizeof *values + (size_t)size * sizeof *values->data);
    uint64_t value = UINT64_MAX;
    *values = (struct ethtool_stats){.cmd = ETHTOOL_GSTATS, .n_stats = size};
    tell_failure(it, "reading its statistics", ethtool(it, values));
    for (unsigned int i = 0; i < size; i++)
        if (strncmp((const char *)names->data + (size_t)i * ETH_GSTRING_LEN, name, ETH_GSTRING_LEN) == 0)
            value = values->data[i];
    free(names);
    free(values);
    return value;
}

uint64_t interface_interrupts(const struct interface *it)
{
    char line[512];
    uint64_t all = 0;
    FILE *file = fopen("/proc/interrupts", "r");
    while (file && fgets(line, sizeof line, file)) {
        const char *name = strstr(line, it->name), *count = strchr(line, ':');
        if (name && count && (name[strlen(it->name)] == '-' || name[strlen(it->name)] == '\n'))
            all += strtoull(count + 1, NULL, 10);
    }
    if (file)
        fclose(file);
    return all;
}

unsigned int interface_test(const struct interface *it, struct test_result *results, unsigned int most)
{
    unsigned int size = set_size(it, ETH_SS_TEST);
    struct ethtool_gstrings *names = set_names(it, ETH_SS_TEST, size);
    struct ethtool_test *test = calloc(1, sizeof *test + (size_t)size * sizeof *test->data);
    *test = (struct ethtool_test){.cmd = ETHTOOL_TEST, .len = size, .flags = ETH_TEST_FL_OFFLINE};
    tell_failure(it, "running its self-test", ethtool(it, test));
    for (unsigned int i = 0; i < size && i < most; i++) {
        snprintf(results[i].name, TEST_NAME, "%.31s", (const char *)names->data + (size_t)i * ETH_GSTRING_LEN);
        results[i].value = test->data[i];
    }
    free(names);
    free(test);
    return size < most ? size : most;
}

/* ---- addresses and sockets ---- */

static void put_address(struct sockaddr *to, const char *text)
{
    struct sockaddr_in address = {.sin_family = AF_INET};
    inet_aton(text, &address.sin_addr);
    memcpy(to, &address, sizeof address);
}

void interface_set_address(const struct interface *it, const char *address, const char *peer, const uint8_t mac[6])
{
    struct ifreq request = {0};
    struct arpreq neighbour = {.arp_flags = ATF_PERM | ATF_COM};
    put_address(&request.ifr_addr, address ? address : "0.0.0.0");
    tell_failure(it, "setting its IP address", call(it, SIOCSIFADDR, &request));
    if (!address)
        return;
    put_address(&request.ifr_netmask, "255.255.255.0");
    tell_failure(it, "setting its netmask", call(it, SIOCSIFNETMASK, &request));
    put_address(&neighbour.arp_pa, peer);
    neighbour.arp_ha.sa_family = ARPHRD_ETHER;
    memcpy(neighbour.arp_ha.sa_data, mac, 6);
    strcpy(neighbour.arp_dev, it->name);
    tell_failure(it, "adding its neighbour", ioctl(control, SIOCSARP, &neighbour) < 0 ? errno : 0);
}

int interface_socket(const struct interface *it)
{
    int bytes = SOCKET_BYTES, yes = 1, file = socket(AF_PACKET, SOCK_RAW, htons(ETH_P_ALL));
    struct sockaddr_ll at = {
        .sll_family = AF_PACKET, .sll_protocol = htons(ETH_P_ALL), .sll_ifindex = (int)if_nametoindex(it->name)};
    if (file < 0 || bind(file, (struct sockaddr *)&at, sizeof at) != 0 ||
        setsockopt(file, SOL_SOCKET, SO_RCVBUFFORCE, &bytes, sizeof bytes) != 0 ||
        setsockopt(file, SOL_SOCKET, SO_SNDBUFFORCE, &bytes, sizeof bytes) != 0 ||
        setsockopt(file, SOL_PACKET, PACKET_IGNORE_OUTGOING, &yes, sizeof yes) != 0) {
        problem("%s: no socket for frames: %s", it->name, strerror(errno));
        return -1;
    }
    return file;
}

int put_text(const char *path, const char *text)
{
    int error = 0, file = open(path, O_WRONLY);
    if (file < 0)
        return errno;
    if (write(file, text, strlen(text)) < 0)
        error = errno;
    close(file);
    return error;
}
