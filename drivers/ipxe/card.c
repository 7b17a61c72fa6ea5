#include "card.h"

#include <errno.h>
#include <stdio.h>
#include <string.h>

#include "efi.h"
#include "function_host.h"
#include "legacy.h"
#include "run.h"
#include "trap.h"
#include "window.h"

#define NAP 500 /* microseconds that pass at HLT */
#define WAITING 64

static const char *const phases[] = {"probe", "open", "traffic", "close", "reopen", "again", "end", NULL};
static const uint8_t own_mac[6] = {0x02, 0, 0, 0, 0x82, 0x99}, function_mac[6] = {0x02, 0, 0, 0, 0x82, 0xED};

static struct card_setting setting;
static FILE *trace;

unsigned int card_function(void)
{
    return setting.is_virtual ? 1 : BUS_PHYSICAL;
}

void card_link(bool is_up)
{
    nic_link(bus_device(run_bus), is_up);
    if (setting.is_virtual)
        function_host_ping();
}

static void nap(void)
{
    events_pass(NAP);
}

static bool fails(const char *what)
{
    fprintf(stderr, "card: %s: %s\n", what, errno ? strerror(errno) : "the system reported no error");
    return false;
}

static bool open_bus(void)
{
    struct bus_options options = {
        .fifo = WAITING,
        .functions = setting.is_virtual,
        .phases = phases,
        .acts_at_writes = true, /* iPXE doesn't poll RXDCTL or TXDCTL */
        .turn_in = setting.turn_in,
        .turn_out = setting.turn_out,
        .trace = trace,
        .calls = {.writing = legacy_writing,
                  .read = legacy_read,
                  .filled = legacy_filled,
                  .written = setting.is_virtual ? function_host_written : NULL},
    };
    memcpy(options.mac, own_mac, sizeof own_mac);
    return run_open(&options, false);
}

bool card_open(const struct card_setting *given)
{
    static const struct trap_hooks privileged = {.halt = nap, .has_ports = true};
    setting = *given;
    errno = 0;
    if (setting.trace && !(trace = fopen(setting.trace, "w")))
        return fails(setting.trace);
    legacy_begin();
    if (!open_bus() || !window_open(setting.is_virtual))
        return fails("can't open the bench or its windows");
    if (!low_open())
        return fails("can't reserve the shared memory at its address");
    if (!trap_open(&privileged))
        return fails("can't handle the process's signals");
    if (setting.is_virtual)
        function_host_begin(0, function_mac);
    pci_open(card_function());
    return true;
}

void card_close(void)
{
    trap_close();
    window_close();
    run_close();
    low_close();
    legacy_end();
    if (trace)
        fclose(trace);
}
