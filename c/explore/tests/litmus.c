/* Litmus tests for the driver's own memory, built with -fsanitize=thread: small programs of two to four tasks with C11
   atomics, under their usual names (SB is Dekker's, MP passes a message, ..). All schedules of each run under each
   memory model, and must produce exactly the outcomes listed. `litmus` prints how many tests there are; `litmus NAME`
   prints the outcomes of one. */
#include <stdatomic.h>
#include <stdio.h>
#include <stdlib.h>
#include <string.h>
#include <sys/mman.h>

#include "../engine/exhaustive.h"
#include "../engine/options.h"
#include "../engine/weak.h"
#include "corpus.h"

#if defined(__GNUC__) && !defined(__clang__)
#pragma GCC diagnostic ignored "-Wtsan" /* fences are supported here */
#endif

enum {
    MOST_TASKS = 4,
    MOST_OUTCOMES = 32,
    MOST_RUNS = 400000,
    OF_FOUR = 2 /* bound on preemptions in tests with four tasks */
};

static atomic_int x, y, z;
static int r[4];
static nicx_mutex lock;
static int *plain;

#define RLX memory_order_relaxed
#define ACQ memory_order_acquire
#define REL memory_order_release
#define ACQ_REL memory_order_acq_rel
#define SC memory_order_seq_cst

/* Defines a task of a test, with these statements as its body. */
#define TASK(name, ...)                                                                                                \
    static void name(void *unused)                                                                                     \
    {                                                                                                                  \
        (void)unused;                                                                                                  \
        __VA_ARGS__                                                                                                    \
    }

static void put(atomic_int *at, int value, memory_order order)
{
    atomic_store_explicit(at, value, order);
}

static int get(atomic_int *at, memory_order order)
{
    return atomic_load_explicit(at, order);
}

/* SB: each task stores to one location, and then loads the location that the other task stores to. */
TASK(sb_x, put(&x, 1, RLX); r[0] = get(&y, RLX);)
TASK(sb_y, put(&y, 1, RLX); r[1] = get(&x, RLX);)
TASK(sb_x_ra, put(&x, 1, REL); r[0] = get(&y, ACQ);)
TASK(sb_y_ra, put(&y, 1, REL); r[1] = get(&x, ACQ);)
TASK(sb_x_sc, put(&x, 1, SC); r[0] = get(&y, SC);)
TASK(sb_y_sc, put(&y, 1, SC); r[1] = get(&x, SC);)
TASK(sb_x_mb, put(&x, 1, RLX); atomic_thread_fence(SC); r[0] = get(&y, RLX);)
TASK(sb_y_mb, put(&y, 1, RLX); atomic_thread_fence(SC); r[1] = get(&x, RLX);)
TASK(sb_x_wmb, put(&x, 1, RLX); atomic_thread_fence(ACQ_REL); r[0] = get(&y, RLX);)
TASK(sb_y_wmb, put(&y, 1, RLX); atomic_thread_fence(ACQ_REL); r[1] = get(&x, RLX);)
TASK(sb_x_nicx_wmb, put(&x, 1, RLX); nicx_wmb(); r[0] = get(&y, RLX);)
TASK(sb_y_nicx_wmb, put(&y, 1, RLX); nicx_wmb(); r[1] = get(&x, RLX);)
TASK(sb_x_nicx_mb, put(&x, 1, RLX); nicx_mb(); r[0] = get(&y, RLX);)
TASK(sb_y_nicx_mb, put(&y, 1, RLX); nicx_mb(); r[1] = get(&x, RLX);)
TASK(sb_x_xchg, put(&x, 1, RLX); atomic_fetch_add_explicit(&z, 1, RLX); r[0] = get(&y, RLX);)
TASK(sb_y_xchg, put(&y, 1, RLX); atomic_fetch_add_explicit(&z, 1, RLX); r[1] = get(&x, RLX);)
TASK(sb_x_lock, put(&x, 1, RLX); nicx_lock(&lock); nicx_unlock(&lock); r[0] = get(&y, RLX);)
TASK(sb_y_lock, put(&y, 1, RLX); nicx_lock(&lock); nicx_unlock(&lock); r[1] = get(&x, RLX);)
TASK(sb_x_register, put(&x, 1, RLX); nicx_write32(NIC_RETA(0), 1); r[0] = get(&y, RLX);)
TASK(sb_y_register, put(&y, 1, RLX); nicx_write32(NIC_RETA(0), 1); r[1] = get(&x, RLX);)

/* MP: a message, and the flag that says it is there. */
TASK(mp_send, put(&x, 1, RLX); put(&y, 1, RLX);)
TASK(mp_send_rel, put(&x, 1, RLX); put(&y, 1, REL);)
TASK(mp_send_wmb, put(&x, 1, RLX); atomic_thread_fence(REL); put(&y, 1, RLX);)
TASK(mp_send_nicx_wmb, put(&x, 1, RLX); nicx_wmb(); put(&y, 1, RLX);)
TASK(mp_take, r[0] = get(&y, ACQ); r[1] = get(&x, RLX);)

/* R, S and 2+2W: which of two stores to a location is last. */
TASK(r_one, put(&x, 1, RLX); put(&y, 1, RLX);)
TASK(r_two, put(&y, 2, RLX); r[0] = get(&x, RLX);)
TASK(s_one, put(&x, 2, RLX); put(&y, 1, RLX);)
TASK(s_two, r[0] = get(&y, RLX); put(&x, 1, RLX);)
TASK(ww_one, put(&x, 1, RLX); put(&y, 2, RLX);)
TASK(ww_two, put(&y, 1, RLX); put(&x, 2, RLX);)

/* LB: loads aren't late. */
TASK(lb_one, r[0] = get(&x, RLX); put(&y, 1, RLX);)
TASK(lb_two, r[1] = get(&y, RLX); put(&x, 1, RLX);)

/* WRC and IRIW: all other threads see a store at the same time. */
TASK(only_x, put(&x, 1, RLX);)
TASK(only_y, put(&y, 1, RLX);)
TASK(wrc_pass, r[0] = get(&x, RLX); put(&y, 1, RLX);)
TASK(wrc_take, r[1] = get(&y, RLX); r[2] = get(&x, RLX);)
TASK(iriw_xy, r[0] = get(&x, RLX); r[1] = get(&y, RLX);)
TASK(iriw_yx, r[2] = get(&y, RLX); r[3] = get(&x, RLX);)

/* CoRR: two stores to a location, and two loads of it. */
TASK(co_stores, put(&x, 1, RLX); put(&x, 2, RLX);)
TASK(co_loads, r[0] = get(&x, RLX); r[1] = get(&x, RLX);)

/* A thread sees its own store before others do. */
TASK(own_one, put(&x, 1, RLX); r[0] = get(&x, RLX); r[1] = get(&y, RLX);)
TASK(own_two, put(&y, 2, RLX); put(&x, 2, RLX);)
/* The thread's exchange sees that store too; afterwards, all others see the store and the exchange. */
TASK(own_add, put(&x, 1, RLX); r[0] = atomic_fetch_add_explicit(&x, 1, RLX); r[1] = get(&y, RLX);)
TASK(own_half, put(&x, 0x10002, RLX); uint16_t half; memcpy(&half, (void *)&x, sizeof half); r[0] = half;
     r[1] = get(&y, RLX);)
TASK(y_then_x, put(&y, 1, SC); r[2] = get(&x, RLX) != 0;)

/* Memory is freed while a store to it is pending: the store doesn't arrive later. */
TASK(frees, atomic_int *own = malloc(64); put(own, 7, RLX); free(own); plain = malloc(64); *plain = 1; put(&x, 1, SC);
     r[0] = *plain;)

struct outcome {
    const char *strong, *tso, *weak;
};

/* `x` and `y` are the final values of x and y. */
static const struct litmus {
    const char *name, *shows;
    void (*tasks[MOST_TASKS])(void *);
    struct outcome gives;
} all[] = {
    {"SB", "01", {sb_x, sb_y}, {"01 10 11", "00 01 10 11", "00 01 10 11"}},
    {"SB, release and acquire", "01", {sb_x_ra, sb_y_ra}, {"01 10 11", "00 01 10 11", "00 01 10 11"}},
    {"SB, sequentially consistent", "01", {sb_x_sc, sb_y_sc}, {"01 10 11", "01 10 11", "01 10 11"}},
    {"SB, full fences", "01", {sb_x_mb, sb_y_mb}, {"01 10 11", "01 10 11", "01 10 11"}},
    {"SB, one full fence", "01", {sb_x_mb, sb_y}, {"01 10 11", "00 01 10 11", "00 01 10 11"}},
    {"SB, fences of stores and loads", "01", {sb_x_wmb, sb_y_wmb}, {"01 10 11", "00 01 10 11", "00 01 10 11"}},
    {"SB, nicx_wmb", "01", {sb_x_nicx_wmb, sb_y_nicx_wmb}, {"01 10 11", "00 01 10 11", "00 01 10 11"}},
    {"SB, nicx_mb", "01", {sb_x_nicx_mb, sb_y_nicx_mb}, {"01 10 11", "01 10 11", "01 10 11"}},
    {"SB, exchanges between", "01", {sb_x_xchg, sb_y_xchg}, {"01 10 11", "01 10 11", "00 01 10 11"}},
    {"SB, locks between", "01", {sb_x_lock, sb_y_lock}, {"01 10 11", "01 10 11", "01 10 11"}},
    {"SB, registers between", "01", {sb_x_register, sb_y_register}, {"01 10 11", "01 10 11", "00 01 10 11"}},
    {"MP", "01", {mp_send, mp_take}, {"00 01 11", "00 01 11", "00 01 10 11"}},
    {"MP, release", "01", {mp_send_rel, mp_take}, {"00 01 11", "00 01 11", "00 01 11"}},
    {"MP, fence of stores", "01", {mp_send_wmb, mp_take}, {"00 01 11", "00 01 11", "00 01 11"}},
    {"MP, nicx_wmb", "01", {mp_send_nicx_wmb, mp_take}, {"00 01 11", "00 01 11", "00 01 11"}},
    {"R", "0y", {r_one, r_two}, {"01 11 12", "01 02 11 12", "01 02 11 12"}},
    {"S", "0x", {s_one, s_two}, {"01 02 11", "01 02 11", "01 02 11 12"}},
    {"2+2W", "xy", {ww_one, ww_two}, {"12 21 22", "12 21 22", "11 12 21 22"}},
    {"LB", "01", {lb_one, lb_two}, {"00 01 10", "00 01 10", "00 01 10"}},
    {"WRC",
     "012",
     {only_x, wrc_pass, wrc_take},
     {"000 001 010 011 100 101 111", "000 001 010 011 100 101 111", "000 001 010 011 100 101 111"}},
    {"IRIW",
     "0123",
     {only_x, only_y, iriw_xy, iriw_yx},
     {"0000 0001 0010 0011 0100 0101 0110 0111 1000 1001 1011 1100 1101 1110 1111",
      "0000 0001 0010 0011 0100 0101 0110 0111 1000 1001 1011 1100 1101 1110 1111",
      "0000 0001 0010 0011 0100 0101 0110 0111 1000 1001 1011 1100 1101 1110 1111"}},
    {"CoRR", "01", {co_stores, co_loads}, {"00 01 02 11 12 22", "00 01 02 11 12 22", "00 01 02 11 12 22"}},
    {"own store first",
     "01x",
     {own_one, own_two},
     {"102 121 122 222", "101 102 121 122 222", "101 102 121 122 202 222"}},
    {"own exchange", "01", {own_add, y_then_x}, {"10 11", "10 11", "10 11"}},
    {"own plain load", "02", {own_half, y_then_x}, {"20 21", "20 21", "20 21"}},
    {"memory freed", "0", {frees, only_y}, {"1", "1", "1"}},
};

enum { LITMUS = sizeof all / sizeof *all };

static const struct litmus *it;

/* --- outcomes, in memory that isn't restored between schedules --- */

struct outcomes {
    char seen[MOST_OUTCOMES][8];
    unsigned count;
};

static struct outcomes *outcomes;

static int shown(char what)
{
    return what == 'x' ? atomic_load(&x) : what == 'y' ? atomic_load(&y) : r[what - '0'];
}

static void note_outcome(void)
{
    char now[8] = "";
    unsigned k = 0;
    for (size_t at = 0; it->shows[at]; at++)
        now[at] = (char)('0' + shown(it->shows[at]));
    while (k < outcomes->count && strcmp(outcomes->seen[k], now) != 0)
        k++;
    if (k == outcomes->count && k < MOST_OUTCOMES)
        memcpy(outcomes->seen[outcomes->count++], now, sizeof now);
}

static int in_order(const void *a, const void *b)
{
    return strcmp(a, b);
}

static const char *listed(char room[MOST_OUTCOMES * 8])
{
    qsort(outcomes->seen, outcomes->count, sizeof *outcomes->seen, in_order);
    room[0] = 0;
    for (unsigned k = 0; k < outcomes->count; k++)
        sprintf(room + strlen(room), "%s%s", k ? " " : "", outcomes->seen[k]);
    return room;
}

/* --- the scenario of a test --- */

static const char *bring_up(void)
{
    return NULL;
}

static void begin(void)
{
    static const char *const names[MOST_TASKS] = {"one", "two", "three", "four"};
    memset(r, 0, sizeof r);
    atomic_store(&x, 0);
    atomic_store(&y, 0);
    for (unsigned k = 0; k < MOST_TASKS && it->tasks[k]; k++)
        nicx_task(names[k], it->tasks[k], NULL);
}

static const char *end(void)
{
    note_outcome();
    return nicxi_weak_is_exact() ? NULL : "the engine's copy differs from memory";
}

/* Returns the number of schedules. */
static unsigned search(const nicx_scenario *scenario)
{
    struct parts parts = {0};
    const char *fault = nicx_open(scenario);
    volatile uint64_t part;
    struct exhaustive *state = fault ? NULL : nicxi_exhaustive(it->tasks[3] ? OF_FOUR : UNBOUNDED, true, &parts, &part);
    nicx_result result = {0};
    unsigned runs = 0;
    outcomes->count = 0;
    while (state && nicxi_exhaustive_next(state) && runs < MOST_RUNS && result.outcome == NICX_FINE) {
        nicx_chooser chooser = nicxi_exhaustive_chooser(state);
        nicx_run(&chooser, &result);
        nicxi_exhaustive_made(state);
        runs++;
    }
    if (!state || result.outcome != NICX_FINE || runs == MOST_RUNS) {
        printf("%s: %s after %u schedules\n", it->name, fault ? fault : result.words, runs);
        exit(1);
    }
    nicxi_free_exhaustive(state);
    nicx_close();
    return runs;
}

/* Returns whether a test has exactly the outcomes listed. */
static bool try_one(uint32_t memory, const char *word, const char *wanted, bool tells, unsigned *runs)
{
    nicx_scenario scenario = SCENARIO(.name = "litmus", .fifo = 4, .blocks = 4, .memory = memory);
    char room[MOST_OUTCOMES * 8];
    unsigned made = search(&scenario);
    const char *given = listed(room);
    *runs += made;
    if (tells || strcmp(given, wanted) != 0)
        printf("%s, %s: %u schedules, gives %s\n", it->name, word, made, given);
    if (strcmp(given, wanted) != 0)
        printf("%s, %s: expected %s\n", it->name, word, wanted);
    return !strcmp(given, wanted);
}

int main(int argc, char **argv)
{
    unsigned runs = 0;
    bool is_right = true;
    outcomes = mmap(NULL, sizeof *outcomes, PROT_READ | PROT_WRITE, MAP_PRIVATE | MAP_ANONYMOUS, -1, 0);
    if (outcomes == MAP_FAILED)
        return 1;
    for (unsigned k = 0; k < LITMUS; k++) {
        it = &all[k];
        bool tells = argc > 1 && !strcmp(argv[1], it->name);
        if (argc > 1 && !tells)
            continue;
        is_right &= try_one(0, "strong", it->gives.strong, tells, &runs);
        is_right &= try_one(NICX_TSO, "tso", it->gives.tso, tells, &runs);
        is_right &= try_one(NICX_WEAK, "weak", it->gives.weak, tells, &runs);
    }
    printf("%d litmus tests of a driver's own memory, %u schedules\n", LITMUS, runs);
    return is_right ? 0 : 1;
}
