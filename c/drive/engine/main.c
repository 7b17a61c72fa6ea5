/* The main program: lists the scenarios, or searches one of them. */
#define _DEFAULT_SOURCE
#include <inttypes.h>
#include <signal.h>
#include <stdio.h>
#include <stdlib.h>
#include <string.h>
#include <unistd.h>

#include "drive.h"

enum { DONE = 0, REFUSED = 2, NOT_APPLICABLE = 4, NO_END = 5, MOST_WORDS_GIVEN = 64, PATIENCE = 20 };
enum { STACK = 262144 }; /* bytes of a thread's stack; unoptimized drivers in Rust need more than the default */

struct drive nicd;

/* --- the device, before the driver opens it --- */

/* Spreads each pool's flows over its two queues, on behalf of the PF's driver. */
static void spread_in_pools(void)
{
    for (unsigned k = 0; k < 10; k++)
        nicx_write32(NIC_RSSRK(k), UINT32_C(0x6D5A56DA) * (2 * k + 1));
    for (unsigned k = 0; k < 32; k++)
        nicx_write32(NIC_RETA(k), UINT32_C(0x01000100));
    nicx_write32(NIC_MRQC, NIC_MRQC_MRQE_IS(11) | NIC_MRQC_TCPIPV4);
}

void nicd_set_up_host(unsigned function, bool is_ready)
{
    nicx_write32(NIC_GCR_EXT, NIC_GCR_EXT_VT_MODE_IS(3));
    nicx_write32(NIC_VT_CTL, NIC_VT_CTL_VT_ENA);
    if (nicd.scenario->setup.queues > 1)
        spread_in_pools();
    else
        nicx_write32(NIC_MRQC, NIC_MRQC_MRQE_IS(8));
    nicx_write32(NIC_FCTRL, NIC_FCTRL_BAM);
    nicx_write32(NIC_RAL(0), 0x00000002);
    nicx_write32(NIC_RAH(0), NIC_RAH_AV | 0x0100);
    nicx_write32(NIC_MPSAR(2 * 0), UINT32_C(1) << function);
    nicx_write32(NIC_VFRE(0), UINT32_C(1) << function);
    nicx_write32(NIC_VFTE(0), UINT32_C(1) << function);
    nicx_write32(NIC_DMATXCTL, nicx_read32(NIC_DMATXCTL) | NIC_DMATXCTL_TE);
    nicx_write32(NIC_GPIE, NIC_GPIE_MULTIPLE_MSIX | NIC_GPIE_EIAME);
    nicx_write32(NIC_RXCTRL, NIC_RXCTRL_RXEN);
    if (is_ready)
        nicx_write32(NIC_CTRL_EXT, NIC_CTRL_EXT_PFRSTD);
}

static const nicxo_observer observer = {.see = nicd_watch, .publish = nicd_publish};

const char *nicd_bring_up(void)
{
    unsigned port = nicd.scenario->setup.port;
    nicxo_observe(&observer);
    nicd.by_card = true;
    if (port)
        nicd_set_up_host(port - 1, true);
    nicd.by_card = false;
    return NULL;
}

/* --- a driver that hangs before the first schedule; the searches detect later hangs --- */

static void give_up(int number)
{
    static const char words[] = "hang: open didn't return before the first schedule\n";
    (void)number;
    if (write(STDERR_FILENO, words, sizeof words - 1) < 0)
        _exit(REFUSED);
    _exit(NO_END);
}

/* Begins a schedule. The first call stops the alarm. */
static void begin(void)
{
    static bool was_begun;
    nicd_begin();
    if (!was_begun)
        alarm(0);
    was_begun = true;
}

/* --- which scenarios apply --- */

#define EACH(family, it)                                                                                               \
    for (const struct family *family = nicd_families; family->rows; family++)                                          \
        for (const struct scenario *it = family->rows; it->name; it++)

struct need {
    uint32_t need;
    bool is_there;
    const char *name;
};

/* Names a requirement of the row that, according to the adapter, the driver never meets by design. Returns null if
   there is none. */
static const char *never_of(const struct scenario *it)
{
    static const struct {
        uint32_t can;
        uint8_t reach;
        const char *name;
    } nevers[] = {
        {NICD_SHARED_DEVICE, WRITES_RESET, "no device reset (NICD_SHARED_DEVICE)"},
        {NICD_NO_MODERATION, WRITES_EITR, "no interrupt interval (NICD_NO_MODERATION)"},
        {NICD_NO_HEADS, WRITES_HEAD, "no writes to head registers (NICD_NO_HEADS)"},
        {NICD_NO_ADDRESS, WRITES_ADDRESS, "no writes to address registers (NICD_NO_ADDRESS)"},
        {NICD_ONE_VECTOR, OWN_VECTORS, "one vector for all queues (NICD_ONE_VECTOR)"},
        {NICD_ONE_BUFFER, CHAIN, "one buffer for each frame (NICD_ONE_BUFFER)"},
        {NICD_ONE_BUFFER, SENT_CHAIN, "one buffer for each frame (NICD_ONE_BUFFER)"},
    };
    const struct reached *entry = nicd_reached(it);
    for (unsigned k = 0; k < sizeof nevers / sizeof *nevers; k++)
        if (nicd.driver->can & nevers[k].can && nicd_must_reach(entry, nevers[k].reach))
            return nevers[k].name;
    return NULL;
}

/* Names what the driver lacks for a scenario, or returns null. */
static const char *lack_of(const struct scenario *it)
{
    const nicd_driver *d = nicd.driver;
    const struct need needs[] = {
        {RECEIVES, d->receive || d->threads, "no receive"},
        {PULLS, d->receive, "no receive"},
        {SENDS, d->send, "no send"},
        {RECLAIMS, d->reclaim, "no reclaim"},
        {INTERRUPTS, d->interrupt, "no interrupt"},
        {FILTER, d->filter, "no filter"},
        {RSS, d->rss, "no rss"},
        {MTU, d->mtu, "no mtu"},
        {RESIZE, d->resize, "no resize"},
        {RESET, d->reset, "no reset"},
        {SUSPEND, d->suspend && d->resume, "no suspend or no resume"},
        {LINK, d->link, "no link"},
        {STATS, d->stats, "no stats"},
        {MAILBOX, d->mailbox_send && d->mailbox_receive, "no mailbox_send or no mailbox_receive"},
        {READY_BIT, d->mailbox_ready, "no mailbox_ready"},
        {FUNCTIONS, d->can & NICD_FUNCTIONS, "no NICD_FUNCTIONS"},
        {SHARED_SEND, d->can & NICD_SHARED_SEND, "no NICD_SHARED_SEND"},
        {HOST, d->can & NICD_HOST, "no NICD_HOST"},
        {SHARED_DEVICE, d->can & NICD_SHARED_DEVICE, "no NICD_SHARED_DEVICE"},
        {MSIX, !(d->can & NICD_NO_MSIX), "no separate message for each vector (NICD_NO_MSIX)"},
    };
    for (unsigned k = 0; k < sizeof needs / sizeof *needs; k++)
        if (it->needs & needs[k].need && !needs[k].is_there)
            return needs[k].name;
    if (it->setup.queues > 1 && it->setup.queues > d->queues)
        return "fewer queues";
    if (it->setup.queues > 2 && d->slots > 8)
        return "rings too long for four queues";
    if (it->setup.frame > 1514 && it->setup.frame > d->frame)
        return "a lower frame limit";
    return never_of(it);
}

static void list(void)
{
    EACH(family, it)
    {
        const char *lack = lack_of(it);
        printf("%s\t%s\t%s\t%s\t%s\t%s\t", it->name, family->name, lack ? lack : "-", it->title, it->rule, it->source);
        nicd_reach_tell(it);
        printf("\n");
    }
}

static const struct scenario *find(const char *name)
{
    EACH(family, it)
    {
        if (!strcmp(it->name, name))
            return it;
    }
    return NULL;
}

/* Returns null, the name of a row without requirements, or the name of an entry without a row. */
static const char *unsaid(void)
{
    EACH(family, it)
    {
        const struct reached *entry = nicd_reached(it);
        if (!entry || !entry->reaches[0])
            return it->name;
    }
    for (const struct reached *entry = nicd_reaches; entry->row; entry++)
        if (!find(entry->row))
            return entry->row;
    return NULL;
}

/* --- searching one scenario --- */

/* The number of queues to search: up to the last one that the driver or its neighbour uses. */
static uint16_t queues_of(const struct scenario *it)
{
    uint16_t queues = it->setup.queues ? it->setup.queues : 1;
    uint16_t before = it->setup.port ? (uint16_t)(2 * (it->setup.port - 1)) : 0;
    return (uint16_t)(before + queues + (it->ways & NEIGHBOUR ? 1 : 0));
}

static int search(int argc, char **argv, const char *coverage)
{
    const struct scenario *it = nicd.scenario;
    nicx_scenario scenario;
    memset(&scenario, 0, sizeof scenario);
    scenario.name = it->name;
    scenario.vfs = it->setup.port || it->needs & MAILBOX ? 2 : 0;
    scenario.fifo = FIFO;
    scenario.blocks = BLOCKS;
    scenario.queues = queues_of(it);
    scenario.bring_up = nicd_bring_up;
    scenario.begin = begin;
    scenario.always = nicd_always;
    scenario.end = nicd_end;
    scenario.points = it->points ? it->points : 20000;
    scenario.stack = STACK;
    scenario.allowed = it->ways & FAULTY ? NICX_FAULTS | NICX_NOT_LENT : 0;
    if (!nicd_coverage_open()) {
        fprintf(stderr, "%s: out of memory\n", it->name);
        return REFUSED;
    }
    signal(SIGALRM, give_up);
    alarm(PATIENCE);
    int status = nicx_main(argc, argv, &scenario);
    if (coverage && !nicd_coverage_write(coverage)) {
        fprintf(stderr, "%s: can't write the file\n", coverage);
        return REFUSED;
    }
    return status;
}

static int row(int argc, char **argv)
{
    char *words[MOST_WORDS_GIVEN] = {argv[0]};
    const char *coverage = NULL;
    int count = 1;
    nicd.scenario = find(argv[2]);
    if (!nicd.scenario) {
        fprintf(stderr, "%s: unknown scenario %s: --list prints them all\n", argv[0], argv[2]);
        return REFUSED;
    }
    nicd.reached = nicd_reached(nicd.scenario);
    const char *lack = lack_of(nicd.scenario);
    if (lack) {
        printf("%s: not applicable: the driver has %s\n", argv[2], lack);
        return NOT_APPLICABLE;
    }
    for (int k = 3; k < argc && count < MOST_WORDS_GIVEN - 1; k++) {
        if (!strcmp(argv[k], "--coverage") && k + 1 < argc)
            coverage = argv[++k];
        else
            words[count++] = argv[k];
    }
    return search(count, words, coverage);
}

/* --- the adapter --- */

static const char *fault_of(const nicd_driver *d)
{
    size_t length = d->name ? strlen(d->name) : 0;
    if (!length || length > 40 ||
        strspn(d->name, "abcdefghijklmnopqrstuvwxyzABCDEFGHIJKLMNOPQRSTUVWXYZ0123456789_-") != length)
        return "the name must have 1 to 40 letters, digits, '-' and '_'";
    if (!d->open || !d->close)
        return "open and close must be set";
    if (!d->receive && !d->threads && !d->send)
        return "receive or send must be set";
    if (d->queues > NICD_QUEUES)
        return "queues is above 4";
    if (d->slots % 8 || d->slots > 64)
        return "slots must be 8, 16, .. 64";
    if (d->frame && (d->frame < 1514 || d->frame > NICD_FRAME_MOST))
        return "frame must be 1,514 to 9,724";
    if (d->threads > MOST_THREAD || (d->threads && !d->thread))
        return "threads is above 4, or thread isn't set";
    if (d->can & ~(uint32_t)NICD_CAN)
        return "nicd_driver.can has bits that enum nicd_can doesn't define";
    return NULL;
}

static const char usage[] = "usage: %s --list\n"
                            "       %s --row NAME [--coverage FILE] [search options: --help]\n"
                            "c/drive/nicdrive runs all rows and writes the card.\n";

static const nicxo_words words = {
    .options = "nic82599_drive.opts",
    .for_threads = "use the adapter's threads and locks (docs/report-card.md)",
};

/* Prints whether accesses to the driver's own memory are observed; if they aren't, what its author can do. */
static void tell_accesses(void)
{
    const char *advice = nicxo_is_foreign() ? nicxo_to_be_seen()
                         : nicxo_unseen()   ? nicxo_unseen()
                                            : "compile it with -fsanitize=thread, and link with @nic82599_drive.opts";
    if (nicxo_sees_accesses())
        printf("seen\n");
    else
        printf("not seen: %s\n", advice);
}

int nicd_main(int argc, char **argv, const nicd_driver *driver)
{
    const char *fault = fault_of(driver);
    nicd.driver = driver;
    nicd_make_rows();
    nicxo_set_words(&words);
    if (fault) {
        fprintf(stderr, "%s: the driver is refused: %s\n", argv[0], fault);
        return REFUSED;
    }
    if (unsaid()) {
        fprintf(stderr, "%s: scenarios/reaches.c: %s is a row without an entry, or an entry without a row\n", argv[0],
                unsaid());
        return REFUSED;
    }
    if (argc == 2 && !strcmp(argv[1], "--list")) {
        list();
        return DONE;
    }
    if (argc == 2 && !strcmp(argv[1], "--name")) {
        printf("%s\n", driver->name);
        return DONE;
    }
    if (argc == 2 && !strcmp(argv[1], "--accesses")) {
        tell_accesses();
        return DONE;
    }
    if (argc >= 3 && !strcmp(argv[1], "--row"))
        return row(argc, argv);
    fprintf(stderr, usage, argv[0], argv[0]);
    return REFUSED;
}
