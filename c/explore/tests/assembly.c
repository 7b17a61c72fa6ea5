/* A driver with a barrier or exchange in inline assembly, selected by BARRIER, which the search can't see; without
   BARRIER it has none. Built with -fsanitize=thread. c/explore/check.py checks the first line of the search's
   report. */
#include <stdatomic.h>

#include "corpus.h"

static atomic_int flag;
static int count;

#if defined __x86_64__
#define MFENCE __asm__ volatile("mfence" ::: "memory")
#define SFENCE __asm__ volatile("sfence" ::: "memory")
#define LOCK_OR __asm__ volatile("lock; orl $0,(%%rsp)" ::: "memory", "cc")
#define LOCK_ADD __asm__ volatile("lock; addl $0,-4(%%rsp)" ::: "memory", "cc")
#define LOCK_CMPXCHG                                                                                                   \
    do {                                                                                                               \
        int old = 0;                                                                                                   \
        __asm__ volatile("lock; cmpxchgl %2,%1" : "+a"(old), "+m"(count) : "r"(1) : "memory", "cc");                   \
    } while (0)
/* Not a barrier but a call, whose displacement contains the bytes of a barrier. The call's target is 0x751F1 bytes
   before it, so the program must be large enough: PADDED makes that room, whatever else the program contains. */
#define DISTANCE __asm__ volatile("jmp 1f\n .byte 0xE8, 0x0F, 0xAE, 0xF8, 0xFF\n 1:" ::: "memory")
#ifdef PADDED
__asm__(".text\n .skip 0x80000\n");
#endif
#elif defined __aarch64__
#define DMB __asm__ volatile("dmb ish" ::: "memory")
#define DSB __asm__ volatile("dsb st" ::: "memory")
#endif

#ifndef BARRIER
#define BARRIER atomic_thread_fence(memory_order_seq_cst)
#endif

#if defined(__GNUC__) && !defined(__clang__)
#pragma GCC diagnostic ignored "-Wtsan" /* fences are supported here */
#endif

static void acts(void *unused)
{
    (void)unused;
    atomic_fetch_add(&flag, 1);
    BARRIER;
    count += atomic_load(&flag);
}

static const char *bring_up(void)
{
    return NULL;
}

static void begin(void)
{
    nicx_task("acts", acts, NULL);
}

static const char *end(void)
{
    return NULL;
}

DRIVER(.name = "assembly")
