/* Runs DPDK's two ixgbe drivers on the bench in one process: one drives the physical function, the other drives virtual
   functions of the same device. drivers/dpdk/run --vf compiles and calls it.

     functions [--max-vfs N] [--functions N] [--queues N] [--vf-queues N] [--no-rss] [--slots N] [--frames N]
               [--handlers messages | line | late=N] [--with ANSWER] [--without ANSWER]
               [--course whole | traffic | no-rss | fewer-queues | second-probe]
               [--scalar] [--turn in | out] [--strays FILE] [--trace FILE] [--loud]

   The shim's answers are SWSM and ANLP1 (on by default), EICS, EERD and ABSENT. The courses are `whole` (the physical
   function with two virtual functions), `traffic` (frames alone), and three known differences from the card. Each
   difference must have the result that docs/CARD.md describes. Status 0: all was correct; 1: something was wrong; 2: a
   file can't be written; 3: unknown arguments. */
#include <errno.h>
#include <inttypes.h>
#include <stdio.h>
#include <stdlib.h>
#include <string.h>

#include "card.h"
#include "explain.h"
#include "handlers.h"
#include "mailbox.h"
#include "passes.h"
#include "ports.h"
#include "requests.h"
#include "run.h"
#include "verdict.h"

#define FIFO 64
#define MEBIBYTES 48
#define MEBIBYTES_MANY 110 /* for more than a few virtual functions */
#define FEW 8
#define PACKETS 8191
#define PACKETS_MANY 16383
#define BUFFER 2048
#define RESET 1         /* a virtual function's first request */
#define POLLS_MOST 1999 /* the driver itself polls 2,000 times */
#define FRAMES_MOST 1000000
#define DIFFERENT 1000 /* frames with which each known difference between bench and card is shown */

struct words {
    struct dpdk_options options;
    const char *course, *trace;
    struct handlers_way way;
};

static uint64_t known_drops;
static unsigned int mailbox_events;

/* ---- parts of courses ---- */

static int on_mailbox(uint16_t port, enum rte_eth_event_type type, void *argument, void *result)
{
    (void)port, (void)argument, (void)result;
    mailbox_events += type == RTE_ETH_EVENT_VF_MBOX;
    return 0;
}

static bool begin_host(void)
{
    if (!port_probe(HOST))
        return false;
    if (memcmp(ports[HOST].mac.addr_bytes, card_mac, sizeof card_mac) != 0)
        problem("the host's address differs from the one in the EEPROM");
    return !failed("rte_eth_dev_callback_register",
                   rte_eth_dev_callback_register(ports[HOST].number, RTE_ETH_EVENT_VF_MBOX, on_mailbox, NULL));
}

static bool begin_functions(void)
{
    for (unsigned int which = 1; which <= setting.functions; which++)
        if (!port_probe(which) || !port_start(which))
            return false;
    return true;
}

static void passes(void)
{
    for (unsigned int which = 0; which <= setting.functions; which++)
        pass(which, which);
    pass(0, setting.functions);
}

static bool end_all(void)
{
    bool ok = true;
    for (unsigned int which = setting.functions; which > 0; which--)
        ok &= port_stop(which) && port_remove(which);
    ok &= port_stop(HOST) && port_remove(HOST);
    expect_freed_once();
    unsigned int lost = rte_mempool_in_use_count(pool);
    if (lost)
        problem("%u packets aren't back in their pool", lost);
    else
        printf("  all packets are back in their pool\n");
    return ok;
}

/* ---- courses ---- */

static bool restart_function(void)
{
    struct rte_ether_addr mac = ports[1].mac;
    if (!port_stop(1))
        return false;
    if (who_gets(mac.addr_bytes, 0) >= 0)
        problem("a stopped virtual function received a frame");
    known_drops++; /* its queue is disabled */
    if (!port_start(1))
        return false;
    pass(0, setting.functions);
    return true;
}

/* Stops and starts the physical function while its virtual functions run; restarts them afterwards. */
static bool restart_host_alone(void)
{
    printf("-- the host is restarted while its virtual functions stay live\n");
    if (!port_stop(HOST) || !port_start(HOST))
        return false;
    for (unsigned int which = 1; which <= setting.functions; which++)
        if (!port_stop(which) || !port_start(which))
            return false;
    pass(0, setting.functions);
    return true;
}

/* Restarts the host after stopping the virtual functions. The last virtual function is removed, and probed again after
   the physical function has started. */
static bool restart_host_after_functions(void)
{
    printf("-- the host is restarted, and then a virtual function is probed\n");
    for (unsigned int which = 1; which <= setting.functions; which++)
        if (!port_stop(which))
            return false;
    if (!port_remove(setting.functions) || !port_stop(HOST) || !port_start(HOST))
        return false;
    for (unsigned int which = 1; which < setting.functions; which++)
        if (!port_start(which))
            return false;
    if (!port_probe(setting.functions) || !port_start(setting.functions))
        return false;
    pass(0, setting.functions);
    return true;
}

static bool whole(void)
{
    if (!begin_host())
        return false;
    port_probe_early(1);
    /* a virtual function that is probed this early sees only one queue, so it is removed and probed again later */
    if ((ports[1].is_there && !port_remove(1)) || !port_start(HOST))
        return false;
    pass(0, 0);
    if (!begin_functions())
        return false;
    passes();
    pass_counters();
    requests();
    known_drops += limits();
    printf("-- a virtual function is restarted\n");
    return restart_function() && restart_host_alone() && restart_host_after_functions() && end_all();
}

static bool only_traffic(void)
{
    if (!begin_host() || !port_start(HOST) || !begin_functions())
        return false;
    passes();
    pass_counters();
    return end_all();
}

/* Sends frames to the physical function and VF0 alternately. Returns whether each received as many as `expect` sets. */
static bool differs(void (*expect)(unsigned int gets[2]))
{
    unsigned int got[2] = {0, 0}, gets[2];
    if (!begin_host() || !port_start(HOST) || !begin_functions())
        return false;
    bus_enter(run_bus, IN_TRAFFIC);
    frames_of_two(DIFFERENT, got);
    known_drops = bus_counts(run_bus)->drops;
    printf("of %u frames to the host's address and %u to VF0's, the host receives %u and VF0 %u; %" PRIu64
           " are dropped\n",
           DIFFERENT, DIFFERENT, got[0], got[1], known_drops);
    expect(gets);
    same("frames that the host receives", got[0], gets[0]);
    same("frames that VF0 receives", got[1], gets[1]);
    same("frames in all", got[0] + got[1] + known_drops, 2 * DIFFERENT);
    return end_all();
}

/* Expects all frames at VF0. Without RSS and with up to 31 virtual functions, DPDK's PF driver selects MRQC 0xC or 0xD.
   The bench then uses only the first queue, which belongs to VF0. */
static void all_to_one(unsigned int gets[2])
{
    gets[0] = 0;
    gets[1] = 2 * DIFFERENT;
}

static bool without_rss(void)
{
    return differs(all_to_one);
}

/* Expects at VF0 only the frames of its pool's first queue. RSS spreads a pool's frames over the pool's queues, so a
   virtual function with one queue never gets the frames of the second queue. */
static void first_queue_alone(unsigned int gets[2])
{
    gets[0] = DIFFERENT;
    gets[1] = 0;
    for (unsigned int number = 0; number < DIFFERENT; number++) {
        struct frame frame;
        frame_make(&frame, number, FRAME_MAX, peer_mac, peer_mac);
        gets[1] += rss_queue(&rss, &frame, bus_pool_queues(run_bus)) == 0;
    }
}

static bool fewer_queues(void)
{
    return differs(first_queue_alone);
}

/* When the driver closes the card, it leaves master disable set. Its next probe reads the EEPROM before it resets the
   card. The bench doesn't complete that read unless the shim clears the bit (--with EERD). */
static bool second_probe(void)
{
    bool is_answered = bus_answers(run_bus) & BUS_EERD;
    if (!begin_host() || !port_start(HOST) || !port_stop(HOST) || !port_remove(HOST))
        return false;
    int status = port_try_probe(HOST);
    printf("a second probe of the same card returns %d\n", status);
    if (status != (is_answered ? 0 : -EIO))
        problem("a second probe returned %d instead of the expected %d", status, is_answered ? 0 : -EIO);
    return status != 0 || (port_start(HOST) && port_stop(HOST) && port_remove(HOST));
}

static const struct {
    const char *name;
    bool (*run)(void);
} courses[] = {{"whole", whole},
               {"traffic", only_traffic},
               {"no-rss", without_rss},
               {"fewer-queues", fewer_queues},
               {"second-probe", second_probe}};

static bool run_course(const char *name)
{
    for (size_t i = 0; i < RTE_DIM(courses); i++)
        if (strcmp(courses[i].name, name) == 0)
            return courses[i].run();
    return false;
}

/* ---- arguments ---- */

static bool read_handlers(const char *word, struct handlers_way *way)
{
    *way = (struct handlers_way){.by_line = strcmp(word, "messages") != 0};
    setting.has_vectors = !way->by_line;
    if (strncmp(word, "late=", 5) == 0)
        return read_number(word + 5, 1, POLLS_MOST, &way->late);
    return strcmp(word, "messages") == 0 || strcmp(word, "line") == 0;
}

static bool read_course(const char *word, const char **course)
{
    for (size_t i = 0; i < RTE_DIM(courses); i++)
        if (strcmp(courses[i].name, word) == 0)
            *course = courses[i].name;
    return *course && strcmp(*course, word) == 0;
}

static bool read_answer(const char *name, bool is_given, unsigned int *answers)
{
    unsigned int answer = bus_answer_named(name);
    *answers = is_given ? *answers | answer : *answers & ~answer;
    return answer != 0;
}

static bool read_pair(const char *word, const char *next, struct words *it)
{
    const struct {
        const char *name;
        unsigned long least, most;
        unsigned int *number;
    } numbers[] = {
        {"--max-vfs", 1, BUS_FUNCTIONS - 1, &setting.max_vfs},
        {"--functions", 1, BUS_FUNCTIONS - 1, &setting.functions},
        {"--queues", 1, PORT_QUEUES, &setting.queues},
        {"--vf-queues", 1, PORT_QUEUES, &setting.vf_queues},
        {"--slots", 64, 1024, &setting.slots},
        {"--frames", 1, FRAMES_MOST, &setting.frames},
    };
    for (size_t i = 0; i < RTE_DIM(numbers); i++)
        if (strcmp(word, numbers[i].name) == 0)
            return read_number(next, numbers[i].least, numbers[i].most, numbers[i].number);
    if (strcmp(word, "--handlers") == 0)
        return read_handlers(next, &it->way);
    if (strcmp(word, "--with") == 0 || strcmp(word, "--without") == 0)
        return read_answer(next, strcmp(word, "--with") == 0, &it->options.bus.answers);
    if (strcmp(word, "--course") == 0)
        return read_course(next, &it->course);
    if (strcmp(word, "--trace") == 0)
        return *(it->trace = next) != 0;
    return dpdk_pair(word, next, &it->options);
}

/* Derives DPDK's and the bus's options from the arguments. */
static void size(struct dpdk_options *options)
{
    bool many = setting.functions > FEW;
    options->bus.functions = (uint8_t)setting.max_vfs;
    options->mebibytes = many ? MEBIBYTES_MANY : MEBIBYTES;
    options->packets = many ? PACKETS_MANY : PACKETS;
}

static bool read_words(int count, char **words, struct words *it)
{
    *it = (struct words){
        .options =
            {.bus = {.fifo = FIFO,
                     .answers = BUS_SWSM | BUS_ANLP1,
                     .phases = phase_names,
                     .calls = {.reading = handlers_reading, .written = handlers_written, .message = handlers_message}},
             .name = "functions",
             .buffer = BUFFER},
        .course = "whole",
        .way = {.by_line = true},
    };
    setting = (struct setting){
        .max_vfs = 2, .functions = 2, .queues = 2, .vf_queues = 2, .slots = SLOTS, .frames = 1000, .has_rss = true};
    for (int i = 1; i < count; i++) {
        if (strcmp(words[i], "--no-rss") == 0)
            setting.has_rss = false;
        else if (i + 1 < count && read_pair(words[i], words[i + 1], it))
            i++;
        else if (!dpdk_word(words[i], &it->options))
            return false;
    }
    size(&it->options);
    return setting.functions <= setting.max_vfs && (setting.functions == 2 || strcmp(it->course, "whole") != 0);
}

/* ---- the program ---- */

static void tell_handlers(const struct handlers_way *way)
{
    uint64_t functions = 0;
    for (unsigned int which = 1; which <= setting.functions; which++)
        functions += card_interrupts(which);
    printf("handlers: the host's was called %" PRIu64 " times, %" PRIu64
           " of them on the interrupt line; the virtual functions' %" PRIu64 " times; messages from the host %" PRIu64
           "\n  requests passed by the host's driver to its application: %u\n",
           card_interrupts(HOST), handlers_by_line(), functions, bus_counts(run_bus)->messages[BUS_PHYSICAL],
           mailbox_events);
    if (!way->by_line)
        same("calls of the host's handler on the interrupt line", handlers_by_line(), 0);
    if (card_interrupts(HOST) == 0 && mailbox_counts(run_bus, RESET).asked > 0)
        problem("the host's handler was never called");
}

static void run(const struct words *words)
{
    bus_tell_answers(words->options.bus.answers);
    handlers_begin(words->way);
    if (!run_course(words->course)) {
        problem("the run ended early");
        return;
    }
    pass_totals();
    requests_tell();
    tell_handlers(&words->way);
    run_tell_counts();
    run_check_counts(known_drops, 0);
}

int main(int count, char **arguments)
{
    struct words words;
    if (!read_words(count, arguments, &words)) {
        fprintf(stderr, "functions: unknown arguments; drivers/dpdk/functions.c lists the valid ones\n");
        return 3;
    }
    FILE *trace = words.trace ? fopen(words.trace, "w") : NULL;
    if (words.trace && !trace) {
        fprintf(stderr, "functions: %s: %s\n", words.trace, strerror(errno));
        return 2;
    }
    words.options.bus.trace = trace;
    if (dpdk_start(&words.options))
        run(&words);
    int status = dpdk_end(&words.options);
    if (trace)
        fclose(trace);
    return status;
}
