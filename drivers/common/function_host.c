#include "function_host.h"

#include <string.h>

#include "run.h"
#include "verdict.h"

enum { WORDS = 16, TRIES = 10, POOLS_OF_TWO = 3, ONE_QUEUE_A_POOL = 8, FUNCTIONS_A_REGISTER = 16 };
enum { RESET = 1, SET_MAC, SET_MULTICAST, SET_VLAN, SET_LPE, SET_MACVLAN, API = 8, GET_QUEUES = 9, SET_XCAST = 12 };
enum { API_1_0 = 0, API_1_1 = 2 };

#define ACKNOWLEDGED 0x80000000u
#define REFUSED 0x40000000u
#define CLEAR_TO_SEND 0x20000000u
#define NUMBER 0x0000FFFFu
#define CONTROL 0x00000100u /* control message from the PF's driver */

static struct {
    unsigned int vf;
    uint8_t mac[6];
} host;

static uint32_t get(uint32_t address)
{
    return bus_read(run_bus, BUS_PHYSICAL, address);
}

static void put(uint32_t address, uint32_t word)
{
    bus_write(run_bus, BUS_PHYSICAL, address, word);
}

/* Sets receive address v + 1, for virtual function v. Only the virtual function's pool accepts it. */
static void set_address(const uint8_t mac[6])
{
    unsigned int entry = host.vf + 1, pair = 2 * entry;
    put(NIC_RAL(entry), mac[0] | mac[1] << 8 | mac[2] << 16 | (uint32_t)mac[3] << 24);
    put(NIC_RAH(entry), NIC_RAH_AV | mac[4] | mac[5] << 8);
    put(NIC_MPSAR(pair), host.vf < 32 ? 1u << host.vf : 0);
    put(NIC_MPSAR(pair + 1), host.vf < 32 ? 0 : 1u << (host.vf - 32));
}

void function_host_begin(unsigned int vf, const uint8_t mac[6])
{
    host.vf = vf;
    memcpy(host.mac, mac, sizeof host.mac);
    put(NIC_CTRL, NIC_CTRL_RST);
    put(NIC_GCR_EXT, NIC_GCR_EXT_VT_MODE_IS(POOLS_OF_TWO));
    put(NIC_VT_CTL, NIC_VT_CTL_VT_ENA | NIC_VT_CTL_DEF_PL_IS(vf) | NIC_VT_CTL_RPL_EN);
    put(NIC_MRQC, ONE_QUEUE_A_POOL);
    put(NIC_FCTRL, NIC_FCTRL_BAM);
    for (unsigned int half = 0; half < 2; half++) {
        put(NIC_VFRE(half), UINT32_MAX);
        put(NIC_VFTE(half), UINT32_MAX);
    }
    put(NIC_DMATXCTL, NIC_DMATXCTL_TE);
    put(NIC_RXCTRL, NIC_RXCTRL_RXEN);
    put(NIC_CTRL_EXT, NIC_CTRL_EXT_PFRSTD);
}

/* ---- requests: each replaces the message with its reply and returns the reply's length in words ---- */

static unsigned int reset(uint32_t message[WORDS])
{
    set_address(host.mac);
    message[0] = RESET | ACKNOWLEDGED | CLEAR_TO_SEND;
    message[1] = host.mac[0] | host.mac[1] << 8 | host.mac[2] << 16 | (uint32_t)host.mac[3] << 24;
    message[2] = host.mac[4] | host.mac[5] << 8;
    message[3] = 0; /* multicast filter type */
    return 4;
}

static unsigned int set_mac(uint32_t message[WORDS])
{
    uint8_t mac[6];
    for (unsigned int i = 0; i < sizeof mac; i++)
        mac[i] = (uint8_t)(message[1 + i / 4] >> 8 * (i % 4));
    set_address(mac);
    message[0] |= ACKNOWLEDGED;
    return 1;
}

static unsigned int get_queues(uint32_t message[WORDS])
{
    message[0] |= ACKNOWLEDGED;
    message[1] = message[2] = 1; /* transmit and receive queues */
    message[3] = message[4] = 0; /* no forced VLAN; default queue 0 */
    return 5;
}

static unsigned int answer_of(uint32_t message[WORDS])
{
    bool is_api = message[1] == API_1_0 || message[1] == API_1_1;
    message[0] |= CLEAR_TO_SEND;
    switch (message[0] & NUMBER) {
    case RESET: return reset(message);
    case SET_MAC: return set_mac(message);
    case GET_QUEUES: return get_queues(message);
    case API: message[0] |= is_api ? ACKNOWLEDGED : REFUSED; return 1;
    case SET_MULTICAST:
    case SET_VLAN:
    case SET_LPE:
    case SET_MACVLAN:
    case SET_XCAST: message[0] |= ACKNOWLEDGED; return 1;
    default: message[0] |= REFUSED; return 1;
    }
}

/* Sends a message. Returns false if the virtual function holds the mailbox. */
static bool send(const uint32_t *message, unsigned int words)
{
    unsigned int tries = 0;
    do
        put(NIC_PFMAILBOX(host.vf), NIC_PFMAILBOX_PFU);
    while (!(get(NIC_PFMAILBOX(host.vf)) & NIC_PFMAILBOX_PFU) && ++tries < TRIES);
    if (tries == TRIES)
        return false;
    for (unsigned int i = 0; i < words; i++)
        put(NIC_PFMBMEM(WORDS * host.vf + i), message[i]);
    put(NIC_PFMAILBOX(host.vf), NIC_PFMAILBOX_STS);
    return true;
}

void function_host_written(void *of, const struct bus_access *access)
{
    (void)of;
    uint32_t bank = host.vf / FUNCTIONS_A_REGISTER, request = 1u << host.vf % FUNCTIONS_A_REGISTER;
    if (access->function != host.vf + 1 || access->offset != NIC_VFMAILBOX)
        return;
    uint32_t causes = get(NIC_PFMBICR(bank)) & (request | request << 16);
    if (!causes)
        return;
    put(NIC_PFMBICR(bank), causes);
    if (!(causes & request))
        return;
    uint32_t message[WORDS];
    for (unsigned int i = 0; i < WORDS; i++)
        message[i] = get(NIC_PFMBMEM(WORDS * host.vf + i));
    put(NIC_PFMAILBOX(host.vf), NIC_PFMAILBOX_ACK);
    unsigned int words = answer_of(message);
    if (!send(message, words))
        problem("virtual function %u still holds its mailbox, so its request isn't answered", host.vf);
}

bool function_host_ping(void)
{
    const uint32_t message = CONTROL | CLEAR_TO_SEND;
    return send(&message, 1);
}
