/* Drivers that access shared memory twice without a point between the accesses. No schedule breaks them, but the search
   reports where the point is missing, as c/explore/check.py checks. With -DPOINTED the point is there, and the bug is
   found. */
#include <string.h>

#include "nic82599_explore.h"

enum { EACH = 2, SLOTS = 8, CAUSE = 1 << 5 };

#ifdef POINTED
#define POINT() nicx_point()
#else
#define POINT() (void)0
#endif

static struct {
    unsigned count, head, slots[SLOTS], taken;
} driver;

static nicx_mutex lock;
static const char *mode;

static void count(void *unused)
{
    (void)unused;
    for (int k = 0; k < EACH; k++) {
        nicx_write32(NIC_EIMC, 1);
        unsigned before = driver.count;
        POINT();
        driver.count = before + 1;
    }
}

static void push(void *value)
{
    for (int k = 0; k < EACH; k++) {
        nicx_write32(NIC_EIMC, 1);
        unsigned at = driver.head;
        POINT();
        driver.slots[at % SLOTS] = *(const unsigned *)value;
        POINT();
        driver.head = at + 1;
    }
}

/* Under a lock, or with one access between two points, no point is missing. */
static void locked(void *unused)
{
    (void)unused;
    for (int k = 0; k < EACH; k++) {
        nicx_lock(&lock);
        driver.count++;
        nicx_unlock(&lock);
    }
}

/* No other access can occur between the load and the store of an atomic operation. */
static void atomic(void *unused)
{
    (void)unused;
    for (int k = 0; k < EACH; k++) {
        nicx_write32(NIC_EIMC, 1);
        __atomic_fetch_add(&driver.count, 1, __ATOMIC_ACQ_REL);
        nicx_write32(NIC_EIMC, 2);
        __atomic_exchange_n(&driver.taken, 1, __ATOMIC_ACQ_REL);
    }
}

static void flags(void *value)
{
    nicx_write32(NIC_EIMC, 1);
    driver.taken = *(const unsigned *)value;
    nicx_write32(NIC_EIMC, 2);
}

/* A handler on its task's processor: interrupting the task there isn't a race. With -DPOINTED no handler
   interrupts the task there. */
static void interrupted(void *unused)
{
    (void)unused;
    nicx_write32(NIC_EICS, CAUSE);
#ifdef POINTED
    nicx_interrupts_off();
#endif
    driver.count++;
#ifdef POINTED
    nicx_interrupts_on();
#endif
    nicx_write32(NIC_EIMC, CAUSE);
}

static void interrupt(void *unused)
{
    (void)unused;
    driver.count++;
    driver.taken = 1;
    nicx_write32(NIC_EICR, CAUSE);
}

static const char *bring_up(void)
{
    nicx_write32(NIC_GPIE, NIC_GPIE_MULTIPLE_MSIX | NIC_GPIE_OCD | NIC_GPIE_PBA_SUPPORT);
    nicx_write32(NIC_IVAR(0), NIC_IVAR_INT_ALLOC_0_IS(5) | NIC_IVAR_INT_ALLOC_VAL_0);
    nicx_write32(NIC_EIMS, CAUSE);
    return NULL;
}

static void begin(void)
{
    static unsigned values[] = {1, 2};
    static const struct {
        const char *name;
        void (*function)(void *);
    } modes[] = {{"count", count}, {"push", push}, {"locked", locked}, {"atomic", atomic}, {"flags", flags}};
    memset(&driver, 0, sizeof driver);
    for (size_t k = 0; k < sizeof modes / sizeof *modes; k++)
        if (!strcmp(modes[k].name, mode)) {
            nicx_task("one", modes[k].function, &values[0]);
            nicx_task("other", modes[k].function, &values[1]);
        }
    if (!strcmp(mode, "interrupt"))
        nicx_handler("isr", 0, 5, interrupt, NULL, nicx_task("one", interrupted, NULL));
}

static const char *end(void)
{
    unsigned wanted = 2 * EACH;
    if ((!strcmp(mode, "count") || !strcmp(mode, "locked") || !strcmp(mode, "atomic")) && driver.count != wanted)
        return "a count is lost";
    if (!strcmp(mode, "interrupt") && driver.count != 1 + driver.taken)
        return "a count is lost";
    return !strcmp(mode, "push") && driver.head != wanted ? "a slot is lost" : NULL;
}

int main(int argc, char **argv)
{
    static const nicx_scenario scenario = {
        .name = "unpointed", .fifo = 8, .blocks = 1, .queues = 1, .bring_up = bring_up, .begin = begin, .end = end};
    mode = argc > 1 ? argv[1] : "";
    return nicx_main(argc - 1, argv + 1, &scenario);
}
