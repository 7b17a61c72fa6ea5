/* `continued MODE words..`: two tasks that show in register writes what they find in memory that a checkpoint restores;
   and modes with calls that change something else. c/explore/check_checkpoints.py runs each mode both ways. */
#define _GNU_SOURCE
#include <errno.h>
#include <pthread.h>
#include <stdint.h>
#include <stdio.h>
#include <stdlib.h>
#include <string.h>
#include <time.h>
#include <unistd.h>

#include "corpus.h"
#include "modes.h"

enum { TIMES = 5, NO_REGISTER = 0x1FFF0, NOT_LENT = 0x7000 };

static __thread uint32_t own = 3;
static uint32_t shared, ready[2] = {7, 9};
static pthread_key_t key;
static char *last;

static void show(uint64_t value)
{
    nicx_write32(NIC_EIMC, (uint32_t)value);
}

static void variables(void)
{
    for (int k = 0; k < TIMES; k++) {
        show(++shared + ready[k % 2]);
        ready[k % 2] += own++;
    }
}

static void clocks(void)
{
    struct timespec now;
    for (int k = 0; k < TIMES; k++) {
        clock_gettime(CLOCK_MONOTONIC, &now);
        show((uint64_t)now.tv_nsec);
        usleep(3);
    }
}

static void errors(void)
{
    for (int k = 0; k < TIMES; k++) {
        errno = (int)(++shared);
        nicx_point();
        show((uint64_t)errno);
    }
}

static void keys(void)
{
    for (int k = 0; k < TIMES; k++) {
        show((uintptr_t)pthread_getspecific(key));
        pthread_setspecific(key, (void *)(uintptr_t)++shared);
    }
}

/* Each task frees what the other one allocated. */
static void heap(void)
{
    for (int k = 0; k < TIMES; k++) {
        char *mine = malloc(24 + 8 * (size_t)k), *other = last;
        memset(mine, (int)++shared, 24);
        last = mine;
        show((uintptr_t)mine);
        show(other ? (unsigned char)other[3] : 0);
        if (other && other == last)
            last = NULL;
    }
}

static void stack(void)
{
    uint32_t seen[TIMES];
    for (int k = 0; k < TIMES; k++) {
        seen[k] = ++shared;
        show(seen[k / 2] + nicx_read32(NIC_EIMS));
    }
}

static void memory(void)
{
    for (int k = 0; k < TIMES; k++) {
        nicx_put64(0x800, nicx_get64(0x800) * 3 + ++shared);
        show(nicx_get64(0x800));
    }
}

static void strays(void)
{
    for (int k = 0; k < TIMES; k++)
        show(nicx_read32(NO_REGISTER));
}

/* Both tasks give the device memory that isn't lent. A report names the last one. */
static void gives(void)
{
    bool is_first = !shared++;
    nicx_put64(RX_RING, NOT_LENT);
    if (is_first)
        nicx_write32(NIC_RDT(0), 1);
    show(is_first);
}

static void flushes(void)
{
    variables();
    fflush(stdout);
    variables();
}

#ifdef RANDOM
static void chance(void)
{
    show((uint32_t)rand() & 0);
    variables();
}
#endif

static const struct mode modes[] = {
    {"variables", variables}, {"clocks", clocks}, {"errors", errors}, {"keys", keys},
    {"heap", heap},           {"stack", stack},   {"memory", memory}, {"strays", strays},
    {"flushes", flushes},     {"gives", gives},   {"faults", gives},
#ifdef RANDOM
    {"chance", chance},
#endif
};

static void run(void *unused)
{
    run_mode(modes, sizeof modes / sizeof *modes);
}

static const char *bring_up(void)
{
    nicx_lend_all();
    bring_up_receive(0);
    pthread_key_create(&key, NULL);
    return NULL;
}

static void begin(void)
{
    nicx_task("one", run, NULL);
    nicx_task("two", run, NULL);
    frames_come(is("gives") || is("faults") ? 2 : 0);
}

static const char *end(void)
{
    return NULL;
}

MODES("variables", .name = "continued", .fifo = 8, .blocks = 4, .allowed = is("faults") ? NICX_FAULTS : 0)
