/* The guest's only program. It brings up the drivers' interfaces, passes and compares frames, reports its verdict to
   the card's process, and turns the machine off. Its options are words on the kernel's command line, which it gets as
   environment variables:

     frames=N queues=N functions=N parts=PART,PART..

   The parts, in the order in which they run: offloads (datagrams while the driver's offloads are on), filters, mtu,
   stack, link, test, again, bind. Also: under (takes the physical function down and brings it back up while its virtual
   functions are up), reta (leaves the redirection table as the PF's driver fills it), log (prints the kernel's log). */
#define _GNU_SOURCE
#include <errno.h>
#include <stdio.h>
#include <stdlib.h>
#include <string.h>
#include <sys/klog.h>
#include <sys/mount.h>
#include <sys/reboot.h>
#include <sys/stat.h>
#include <time.h>
#include <unistd.h>

#include "frames.h"
#include "interface.h"
#include "pass.h"
#include "verdict.h"

#define BUS_NAME "0000:00:00.0"
#define DRIVER "/sys/bus/pci/drivers/ixgbe/"
#define FUNCTION_COUNT "/sys/bus/pci/devices/" BUS_NAME "/sriov_numvfs"
#define JUMBO_MTU 9000
#define PLAIN_MTU 1500
#define FEW 10 /* frames that show that an interface still works */
#define DATAGRAMS 200
#define OFFLOADED 5       /* datagrams sent with an offload */
#define FUNCTION_QUEUES 2 /* ixgbevf's limit, because its function has three vectors */
#define UNDER_SECONDS 5
#define LOG_BYTES (1 << 18)
#define READ_LOG 3 /* syslog's action */
#define TESTS 8

static const struct {
    const char *name;
    unsigned int bit;
} parts[] = {{"filters", 1}, {"mtu", 2},     {"stack", 4},      {"link", 8},   {"test", 16}, {"again", 32},
             {"bind", 64},   {"under", 128}, {"offloads", 256}, {"reta", 512}, {"log", 1024}};
enum {
    FILTERS = 1,
    MTU = 2,
    STACK = 4,
    LINK = 8,
    TEST = 16,
    AGAIN = 32,
    BIND = 64,
    UNDER = 128,
    OFFLOADS = 256,
    RETA = 512,
    LOG = 1024
};

static unsigned int frames, queues, functions, wanted;

/* Expected driver errors in the kernel's log, and how often each occurs. */
enum { HANG, RESET, REGISTER, ERRORS };
static struct {
    const char *says;
    unsigned int known, came;
} errors[ERRORS] = {[HANG] = {.says = "Detected Tx Unit Hang"},
                    [RESET] = {.says = "Reset adapter"},
                    [REGISTER] = {.says = "pattern test reg"}};

/* ---- arguments ---- */

static unsigned int number_of(const char *name, unsigned int otherwise)
{
    const char *word = getenv(name);
    unsigned int number = otherwise;
    if (word && !read_number(word, 0, 10000000, &number))
        problem("%s=%s isn't a number", name, word);
    return number;
}

static void read_parts(void)
{
    char all[256];
    snprintf(all, sizeof all, "%s", getenv("parts") ? getenv("parts") : "");
    for (char *rest = NULL, *word = strtok_r(all, ",", &rest); word; word = strtok_r(NULL, ",", &rest)) {
        unsigned int bit = 0;
        for (unsigned int i = 0; i < sizeof parts / sizeof *parts; i++)
            bit |= strcmp(word, parts[i].name) == 0 ? parts[i].bit : 0;
        if (!bit)
            problem("unknown part: %s", word);
        wanted |= bit;
    }
}

/* ---- the physical function ---- */

static void make_ready(const struct interface *it)
{
    interface_set_queues(it, queues);
    interface_turn_offloads_off(it);
    interface_set_key(it);
}

static void bring_up(const struct interface *it)
{
    order(ORDER_PHASE, PHASE_UP);
    interface_set_up(it, true);
    interface_wait_link(it, true);
}

static void other_mtu(const struct interface *it)
{
    order(ORDER_PHASE, PHASE_MTU);
    interface_set_mtu(it, JUMBO_MTU);
    interface_wait_link(it, true);
    pass(it, frames, FRAME_JUMBO, queues);
    interface_set_mtu(it, PLAIN_MTU);
    interface_wait_link(it, true);
}

static void link_down_and_up(const struct interface *it)
{
    order(ORDER_PHASE, PHASE_LINK);
    for (uint32_t up = 0; up < 2; up++) {
        order(ORDER_LINK, up);
        if (interface_wait_link(it, up))
            printf("guest: %s: the driver sees the link %s\n", it->name, up ? "up" : "down");
    }
    pass(it, FEW, FRAME_MAX, queues);
}

/* drivers/README.md lists the expected results of the driver's self-test on the bench. */
static void driver_test(const struct interface *it)
{
    static const struct {
        const char *begins;
        bool passes;
    } known[] = {{"Register", false}, {"Eeprom", true}, {"Interrupt", true}, {"Loopback", false}, {"Link", true}};
    struct test_result results[TESTS];
    order(ORDER_PHASE, PHASE_TEST);
    errors[REGISTER].known = 1;
    unsigned int count = interface_test(it, results, TESTS);
    equal("tests that the driver reports, and known tests", count, sizeof known / sizeof *known);
    for (unsigned int i = 0; i < count && i < sizeof known / sizeof *known; i++) {
        bool is_known = strncmp(results[i].name, known[i].begins, strlen(known[i].begins)) == 0;
        printf("guest: %s: %-24s %s\n", it->name, results[i].name, results[i].value ? "fails" : "passes");
        equal(results[i].name, is_known && (results[i].value == 0) == known[i].passes, 1);
    }
    interface_wait_link(it, true);
    pass(it, FEW, FRAME_MAX, queues);
}

static void down_and_up(const struct interface *it)
{
    order(ORDER_PHASE, PHASE_AGAIN);
    interface_set_up(it, false);
    interface_set_up(it, true);
    interface_wait_link(it, true);
    pass(it, FEW, FRAME_MAX, queues);
}

/* Sends datagrams with the driver's offloads on. docs/CARD.md lists the expected results. */
static void with_offloads(const struct interface *it)
{
    bring_up(it);
    order(ORDER_PHASE, PHASE_OFFLOADS);
    pass_offloaded(it, OFFLOADED);
    errors[HANG].known = errors[RESET].known = OFFLOADED;
    interface_set_up(it, false);
}

static void whole_of_one(const struct interface *it)
{
    bring_up(it);
    order(ORDER_PHASE, PHASE_TRAFFIC);
    pass(it, frames, FRAME_MAX, queues);
    if (wanted & FILTERS) {
        order(ORDER_PHASE, PHASE_FILTERS);
        pass_filters(it);
    }
    if (wanted & MTU)
        other_mtu(it);
    if (wanted & STACK) {
        order(ORDER_PHASE, PHASE_STACK);
        pass_datagrams(it, DATAGRAMS);
    }
    if (wanted & LINK)
        link_down_and_up(it);
    if (wanted & TEST)
        driver_test(it);
    if (wanted & AGAIN)
        down_and_up(it);
}

/* ---- virtual functions ---- */

static void set_functions(unsigned int count)
{
    char text[16];
    snprintf(text, sizeof text, "%u", count);
    int error = put_text(FUNCTION_COUNT, text);
    if (error)
        problem("can't set the number of virtual functions to %u: %s", count, strerror(error));
}

static bool find_function(struct interface *it, unsigned int vf)
{
    bool is_found = interface_find(it, "ixgbevf", vf + 1);
    if (!is_found)
        problem("virtual function %u has no interface", vf);
    return is_found;
}

static unsigned int function_queues(void)
{
    return queues < FUNCTION_QUEUES ? queues : FUNCTION_QUEUES;
}

/* Spreads the redirection table over as many queues as a virtual function has, unless `reta` is given. The PF's driver
   spreads it over four, regardless of how many they have. */
static void redirect(const struct interface *host)
{
    if (!(wanted & RETA))
        interface_redirect(host, function_queues());
}

static void start_function(unsigned int vf)
{
    uint8_t mac[6] = CARD_MAC;
    struct interface it;
    if (!find_function(&it, vf))
        return;
    mac[4] = 0x83;
    mac[5] = (uint8_t)(vf + 1);
    interface_set_mac(&it, mac);
    interface_turn_offloads_off(&it);
    interface_set_up(&it, true);
    interface_wait_link(&it, true);
}

static void pass_functions(void)
{
    struct interface it;
    for (unsigned int vf = 0; vf < functions; vf++)
        if (find_function(&it, vf))
            pass(&it, frames, FRAME_MAX, function_queues());
    if (wanted & STACK && find_function(&it, 0))
        pass_datagrams(&it, DATAGRAMS);
}

static void down_under_functions(const struct interface *host)
{
    struct interface it;
    order(ORDER_PHASE, PHASE_UNDER);
    interface_set_up(host, false);
    sleep(UNDER_SECONDS);
    for (unsigned int vf = 0; vf < functions; vf++)
        if (find_function(&it, vf))
            equal("the link of a virtual function whose host is down", interface_has_link(&it), false);
    interface_set_up(host, true);
    interface_wait_link(host, true);
    redirect(host);
    for (unsigned int vf = 0; vf < functions; vf++)
        if (find_function(&it, vf))
            interface_wait_link(&it, true);
    pass_functions();
}

static void with_functions(const struct interface *host)
{
    order(ORDER_PHASE, PHASE_VFS);
    set_functions(functions);
    redirect(host);
    for (unsigned int vf = 0; vf < functions; vf++)
        start_function(vf);
    pass_functions();
    pass(host, frames, FRAME_MAX, queues);
    if (wanted & UNDER)
        down_under_functions(host);
    set_functions(0);
}

/* ---- the run ---- */

static void unbind(void)
{
    int error = put_text(DRIVER "unbind", BUS_NAME);
    if (error)
        problem("can't unbind the driver: %s", strerror(error));
}

static void bind_again(void)
{
    struct interface it;
    order(ORDER_PHASE, PHASE_AGAIN);
    unbind();
    int error = put_text(DRIVER "bind", BUS_NAME);
    if (error || !interface_find(&it, "ixgbe", 0)) {
        problem("can't bind the driver again: %s", strerror(error));
        return;
    }
    make_ready(&it);
    interface_set_up(&it, true);
    interface_wait_link(&it, true);
    pass(&it, FEW, FRAME_MAX, queues);
    interface_set_up(&it, false);
}

/* Whether a line of the kernel's log is an expected error. */
static bool is_known(const char *line)
{
    unsigned int i = 0;
    while (i < ERRORS && !strstr(line, errors[i].says))
        i++;
    if (i == ERRORS || errors[i].known == 0)
        return false;
    errors[i].came++;
    return true;
}

/* Checks the kernel's log for unexpected driver errors and for kernel warnings. */
static void check_log(void)
{
    static char log[LOG_BYTES];
    unsigned int wrong = 0;
    int length = klogctl(READ_LOG, log, sizeof log - 1);
    log[length > 0 ? length : 0] = 0;
    for (char *rest = NULL, *line = strtok_r(log, "\n", &rest); line; line = strtok_r(NULL, "\n", &rest)) {
        bool is_error = strstr(line, "ixgbe") && line[0] == '<' && line[1] <= '3' && line[2] == '>';
        bool is_warning = strstr(line, "WARNING:") || strstr(line, "BUG:") || strstr(line, "Oops");
        if ((is_error && !is_known(line)) || is_warning) {
            wrong++;
            printf("guest: the kernel reports %s\n", line);
        } else if (wanted & LOG) {
            printf("guest: %s\n", line);
        }
    }
    equal("driver errors in the kernel's log, none expected", wrong, 0);
    for (unsigned int i = 0; i < ERRORS; i++)
        equal(errors[i].says, errors[i].came, errors[i].known);
}

static void run(void)
{
    static const uint8_t card_mac[6] = CARD_MAC;
    struct interface it;
    if (!interface_find(&it, "ixgbe", 0)) {
        problem("ixgbe has no interface");
        return;
    }
    printf("guest: %s is ixgbe's, address %02x:%02x:%02x:%02x:%02x:%02x\n", it.name, it.mac[0], it.mac[1], it.mac[2],
           it.mac[3], it.mac[4], it.mac[5]);
    equal("the card's address, as in the EEPROM", memcmp(it.mac, card_mac, sizeof card_mac) != 0, false);
    if (wanted & OFFLOADS)
        with_offloads(&it);
    make_ready(&it);
    whole_of_one(&it);
    if (functions)
        with_functions(&it);
    order(ORDER_PHASE, PHASE_END);
    interface_set_up(&it, false);
    if (wanted & BIND)
        bind_again();
    order(ORDER_PHASE, PHASE_END);
    unbind();
}

static void mount_all(void)
{
    mkdir("/proc", 0755);
    mkdir("/sys", 0755);
    if (mount("proc", "/proc", "proc", 0, NULL) != 0 || mount("sysfs", "/sys", "sysfs", 0, NULL) != 0)
        problem("can't mount /proc or /sys: %s", strerror(errno));
    /* otherwise Linux hands IPv4 frames to a socket ahead of earlier ones */
    if (put_text("/proc/sys/net/core/gro_normal_batch", "1"))
        problem("gro_normal_batch can't be set");
}

int main(void)
{
    setvbuf(stdout, NULL, _IOLBF, 0);
    mount_all();
    frames = number_of("frames", 1000);
    queues = number_of("queues", 1);
    functions = number_of("functions", 0);
    read_parts();
    interface_begin();
    if (pass_begin()) {
        run();
        check_log();
        order_verdict(problems(), compared());
    }
    struct timespec clock;
    clock_gettime(CLOCK_MONOTONIC, &clock);
    printf("guest: done, at %ld.%03ld s on its clock\n", (long)clock.tv_sec, clock.tv_nsec / 1000000);
    sync();
    reboot(RB_POWER_OFF);
    return 0;
}
