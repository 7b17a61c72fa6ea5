/* Litmus tests for weak memory: small programs of two tasks. All their schedules run, with strong and with weak memory,
   and the loads must return exactly the combinations listed. When a schedule ends, the engine's copy of memory must
   equal the device's. `weak` prints how many tests there are; `weak NAME` prints the outcomes of one. */
#include <stdio.h>
#include <stdlib.h>
#include <string.h>

#include "../engine/exhaustive.h"
#include "../engine/options.h"
#include "../engine/weak.h"
#include "corpus.h"

enum { X = BUFFERS, Y = BUFFERS + 64, Z = BUFFERS + NIC_BLOCK_BYTES, MOST_RUNS = 400000 };

static unsigned r[2];
static nicx_mutex lock;
static bool flag;

static void put(uint64_t bus, uint8_t value)
{
    nicx_dma_write(bus, &value, 1);
}

static unsigned get(uint64_t bus)
{
    uint8_t value = 0;
    nicx_dma_read(bus, &value, 1);
    return value;
}

/* --- the tasks' functions --- */

static void nothing(void)
{
}

static void x_then_y(void)
{
    put(X, 1);
    put(Y, 1);
}

static void x_wmb_y(void)
{
    put(X, 1);
    nicx_wmb();
    put(Y, 1);
}

static void x_mb_y(void)
{
    put(X, 1);
    nicx_mb();
    put(Y, 1);
}

static void x_release_y(void)
{
    put(X, 1);
    nicx_release();
    put(Y, 1);
}

static void y_then_x(void)
{
    r[0] = get(Y);
    r[1] = get(X);
}

static void y_rmb_x(void)
{
    r[0] = get(Y);
    nicx_rmb();
    r[1] = get(X);
}

static void y_acquire_x(void)
{
    r[0] = get(Y);
    nicx_acquire();
    r[1] = get(X);
}

static void y_wait_x(void)
{
    while (!(r[0] = get(Y)))
        nicx_wait();
    nicx_pause();
    r[1] = get(X);
}

static void y_reads_register(void)
{
    r[0] = get(Y);
    nicx_read32(NIC_STATUS);
    r[1] = get(X);
}

static void x_writes_register(void)
{
    put(X, 1);
    nicx_write32(NIC_RETA(0), 1);
}

/* The register serves as the flag. */
static void register_then_x(void)
{
    r[0] = nicx_read32(NIC_RETA(0));
    nicx_rmb();
    r[1] = get(X);
}

static void x_in_lock(void)
{
    nicx_lock(&lock);
    put(X, 1);
    put(Y, 1);
    nicx_unlock(&lock);
}

static void y_in_lock(void)
{
    nicx_lock(&lock);
    r[0] = get(Y);
    r[1] = get(X);
    nicx_unlock(&lock);
}

static void x_twice(void)
{
    put(X, 1);
    put(X, 2);
}

static void x_again(void)
{
    r[0] = get(X);
    r[1] = get(X);
}

static void own_x(void)
{
    put(X, 1);
    r[0] = get(X);
}

static void x_of_other(void)
{
    put(X, 2);
}

/* Each task stores to its own variable, and loads the other task's variable. */
static void store_load(void)
{
    put(X, 1);
    r[0] = get(Y);
}

static void load_store(void)
{
    put(Y, 1);
    r[1] = get(X);
}

static void store_mb_load(void)
{
    put(X, 1);
    nicx_mb();
    r[0] = get(Y);
}

static void load_mb_store(void)
{
    put(Y, 1);
    nicx_mb();
    r[1] = get(X);
}

static void flag_after_x(void)
{
    put(X, 1);
    flag = true;
}

static void flag_wmb_x(void)
{
    put(X, 1);
    nicx_wmb();
    flag = true;
}

static void until_flag(void)
{
    nicx_wait_until(nicx_is_set, &flag);
    r[0] = flag;
    r[1] = get(X);
}

/* Both bytes of a two-byte store arrive together. */
static void both(void)
{
    static const uint8_t ones[2] = {1, 1};
    nicx_dma_write(X, ones, 2);
}

static void halves(void)
{
    uint8_t two[2] = {0, 0};
    nicx_dma_read(X, two, 2);
    r[0] = two[0];
    r[1] = two[1];
}

/* Nine stores, at most eight of them pending. */
static void nine(void)
{
    for (unsigned k = 0; k < NICX_STORES; k++)
        put(Z + k, 1);
    put(X, 1);
    flag = true;
}

static void until_flag_any(void)
{
    uint8_t bytes[NICX_STORES];
    nicx_wait_until(nicx_is_set, &flag);
    nicx_dma_read(Z, bytes, sizeof bytes);
    for (unsigned k = 0; k < NICX_STORES; k++)
        r[0] |= bytes[k];
    r[0] |= get(X);
}

static void takes(void)
{
    put(X, 1);
    nicx_take(3);
    flag = true;
}

/* --- outcomes: the values of r[0], r[1] --- */

#define GIVES(a, b) (1u << (3 * (a) + (b)))
#define ALL_OF_TWO (GIVES(0, 0) | GIVES(0, 1) | GIVES(1, 0) | GIVES(1, 1))
#define IN_ORDER (GIVES(0, 0) | GIVES(0, 1) | GIVES(1, 1))

static const struct litmus {
    const char *name;
    void (*one)(void), (*other)(void);
    uint32_t memory;
    unsigned strong, weak; /* the possible outcomes */
} all[] = {
    {"messages", x_then_y, y_then_x, 0, IN_ORDER, ALL_OF_TWO},
    {"messages, wmb alone", x_wmb_y, y_then_x, 0, IN_ORDER, ALL_OF_TWO},
    {"messages, rmb alone", x_then_y, y_rmb_x, 0, IN_ORDER, ALL_OF_TWO},
    {"messages, both", x_wmb_y, y_rmb_x, 0, IN_ORDER, IN_ORDER},
    {"messages, mb", x_mb_y, y_rmb_x, 0, IN_ORDER, IN_ORDER},
    {"messages, release and acquire", x_release_y, y_acquire_x, 0, IN_ORDER, IN_ORDER},
    {"messages, release alone", x_release_y, y_then_x, 0, IN_ORDER, ALL_OF_TWO},
    {"messages after a wait", x_wmb_y, y_wait_x, 0, GIVES(1, 1), GIVES(1, 1)},
    {"messages in locks", x_in_lock, y_in_lock, 0, GIVES(0, 0) | GIVES(1, 1), GIVES(0, 0) | GIVES(1, 1)},
    {"messages, read of a register", x_wmb_y, y_reads_register, 0, IN_ORDER, ALL_OF_TWO},
    {"messages, ordering read", x_wmb_y, y_reads_register, NICX_READS_ORDER, IN_ORDER, IN_ORDER},
    {"register", x_writes_register, register_then_x, 0, IN_ORDER, ALL_OF_TWO},
    {"ordering register", x_writes_register, register_then_x, NICX_WRITES_ORDER, IN_ORDER, IN_ORDER},
    {"one place", x_twice, x_again, 0,
     GIVES(0, 0) | GIVES(0, 1) | GIVES(0, 2) | GIVES(1, 1) | GIVES(1, 2) | GIVES(2, 2),
     GIVES(0, 0) | GIVES(0, 1) | GIVES(0, 2) | GIVES(1, 1) | GIVES(1, 2) | GIVES(2, 2)},
    {"own store", own_x, nothing, 0, GIVES(1, 0), GIVES(1, 0)},
    {"own store and another's", own_x, x_of_other, 0, GIVES(1, 0) | GIVES(2, 0), GIVES(1, 0) | GIVES(2, 0)},
    {"store and load", store_load, load_store, 0, ALL_OF_TWO & ~GIVES(0, 0), ALL_OF_TWO},
    {"store, mb and load", store_mb_load, load_mb_store, 0, ALL_OF_TWO & ~GIVES(0, 0), ALL_OF_TWO & ~GIVES(0, 0)},
    {"flag", flag_after_x, until_flag, 0, GIVES(1, 1), GIVES(1, 0) | GIVES(1, 1)},
    {"flag, wmb", flag_wmb_x, until_flag, 0, GIVES(1, 1), GIVES(1, 1)},
    {"one store", both, halves, 0, GIVES(0, 0) | GIVES(1, 1), GIVES(0, 0) | GIVES(1, 1)},
    {"take", takes, until_flag, 0, GIVES(1, 1), GIVES(1, 1)},
};

enum { LITMUS = sizeof all / sizeof *all };

static const struct litmus *it;
static unsigned seen;

/* --- the scenario of a test --- */

static const char *bring_up(void)
{
    lend_blocks(4);
    return NULL;
}

static void one(void *unused)
{
    it->one();
}

static void other(void *unused)
{
    it->other();
}

static void begin(void)
{
    r[0] = r[1] = 0;
    flag = false;
    nicx_task("one", one, NULL);
    nicx_task("other", other, NULL);
}

static const char *end(void)
{
    seen |= GIVES(r[0], r[1]);
    return nicxi_weak_is_exact() ? NULL : "the engine's copy differs from memory";
}

/* Returns the number of schedules. */
static unsigned search(const nicx_scenario *scenario, uint32_t preemptions, bool sleeps)
{
    struct parts parts = {0};
    const char *fault = nicx_open(scenario);
    volatile uint64_t part;
    struct exhaustive *state = fault ? NULL : nicxi_exhaustive(preemptions, sleeps, &parts, &part);
    nicx_result result = {0};
    unsigned runs = 0;
    seen = 0;
    while (state && nicxi_exhaustive_next(state) && runs < MOST_RUNS && result.outcome == NICX_FINE) {
        nicx_chooser chooser = nicxi_exhaustive_chooser(state);
        nicx_run(&chooser, &result);
        nicxi_exhaustive_made(state);
        runs++;
    }
    if (!state || result.outcome != NICX_FINE || runs == MOST_RUNS) {
        printf("%s: %s after %u schedules\n", it->name, fault ? fault : result.words, runs);
        exit(1);
    }
    nicxi_free_exhaustive(state);
    nicx_close();
    return runs;
}

static void try_one(bool is_weak, bool sleeps, bool tells, unsigned *runs)
{
    nicx_scenario scenario =
        SCENARIO(.name = "weak", .fifo = 4, .blocks = 8, .memory = it->memory | (is_weak ? NICX_WEAK : 0));
    unsigned made = search(&scenario, UNBOUNDED, sleeps), wanted = is_weak ? it->weak : it->strong;
    *runs += made;
    if (tells || seen != wanted) {
        printf("%s, %s: %u schedules, gives", it->name, is_weak ? "weak" : "strong", made);
        for (unsigned k = 0; k < 9; k++)
            if (seen >> k & 1)
                printf(" %u%u", k / 3, k % 3);
        printf("%s\n", seen == wanted ? "" : ": not the outcomes listed");
    }
    if (seen != wanted)
        exit(1);
}

/* After nine stores, one has reached memory. */
static void try_many(unsigned *runs)
{
    static const struct litmus many = {"nine stores", nine, until_flag_any, 0, 0, 0};
    nicx_scenario scenario = SCENARIO(.name = "weak", .fifo = 4, .blocks = 8, .memory = NICX_WEAK);
    it = &many;
    *runs += search(&scenario, 1, true);
    if (seen != GIVES(1, 0)) {
        printf("%s: gives %x\n", it->name, seen);
        exit(1);
    }
}

int main(int argc, char **argv)
{
    unsigned runs = 0;
    for (unsigned k = 0; k < LITMUS; k++) {
        it = &all[k];
        bool tells = argc > 1 && !strcmp(argv[1], it->name);
        if (argc > 1 && !tells)
            continue;
        for (unsigned way = 0; way < 4; way++)
            try_one(way & 1, way & 2, tells, &runs);
    }
    try_many(&runs);
    printf("%d litmus tests of weak memory, %u schedules\n", LITMUS + 1, runs);
    return 0;
}
