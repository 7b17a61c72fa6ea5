/* On x86-64 a switch takes a dozen instructions. swapcontext would also save the signal mask, with two system calls
   each time. It is used elsewhere, and with -DNICX_UCONTEXT. */
#define _DEFAULT_SOURCE
#include "fiber.h"

#include <stdint.h>
#include <stdlib.h>
#include <sys/mman.h>
#include <unistd.h>

#ifdef NICX_ASAN
#include <sanitizer/asan_interface.h>
#include <sanitizer/common_interface_defs.h>
#endif

/* The fiber that the last switch left. The address sanitizer must know which stack comes next, and after the switch it
   returns the bounds of the previous one. That is how the bounds of the process's own stack become known. */
static struct fiber *left;

static void before_switch(struct fiber *from, struct fiber *to)
{
    left = from;
#ifdef NICX_ASAN
    __sanitizer_start_switch_fiber(&from->fake, to->bottom, to->size);
#else
    (void)to;
#endif
}

static void after_switch(struct fiber *here)
{
#ifdef NICX_ASAN
    const void *bottom = NULL;
    size_t size = 0;
    __sanitizer_finish_switch_fiber(here->fake, &bottom, &size);
    if (!left->bottom) {
        left->bottom = (char *)(uintptr_t)bottom;
        left->size = size;
    }
#else
    (void)here;
#endif
}

static void forget_frames(struct fiber *fiber)
{
#ifdef NICX_ASAN
    __asan_unpoison_memory_region(fiber->bottom, fiber->size);
#else
    (void)fiber;
#endif
}

int nicxi_fiber_open(struct fiber *fiber, size_t size)
{
    size_t page = (size_t)sysconf(_SC_PAGESIZE);
    size = (size + page - 1) / page * page;
    char *memory =
        mmap(NULL, size + NICX_GUARD, PROT_READ | PROT_WRITE, MAP_PRIVATE | MAP_ANONYMOUS | MAP_NORESERVE, -1, 0);
    if (memory == MAP_FAILED)
        return 0;
    if (mprotect(memory, NICX_GUARD, PROT_NONE) != 0) {
        munmap(memory, size + NICX_GUARD);
        return 0;
    }
    fiber->bottom = memory + NICX_GUARD;
    fiber->size = size;
    return 1;
}

void nicxi_fiber_close(struct fiber *fiber)
{
    if (!fiber->bottom)
        return;
    forget_frames(fiber);
    munmap(fiber->bottom - NICX_GUARD, fiber->size + NICX_GUARD);
    fiber->bottom = NULL;
}

#ifndef NICX_BY_UCONTEXT

void nicxi_fiber_exchange(void **from, void *to);
void nicxi_fiber_entry(void);
void nicxi_fiber_first(struct fiber *fiber);

/* Saves the callee-saved registers on the stack being left, and loads them from the stack being entered. A new fiber
   starts with its own address in r12. There is no return address above its first frame, which stops a debugger's
   backtrace. */
__asm__(".text\n"
        ".p2align 4\n"
        ".globl nicxi_fiber_exchange\n"
        ".type nicxi_fiber_exchange, @function\n"
        "nicxi_fiber_exchange:\n"
        ".cfi_startproc\n"
        "    pushq %rbp\n"
        "    .cfi_adjust_cfa_offset 8\n"
        "    .cfi_rel_offset %rbp, 0\n"
        "    pushq %rbx\n"
        "    .cfi_adjust_cfa_offset 8\n"
        "    .cfi_rel_offset %rbx, 0\n"
        "    pushq %r12\n"
        "    .cfi_adjust_cfa_offset 8\n"
        "    .cfi_rel_offset %r12, 0\n"
        "    pushq %r13\n"
        "    .cfi_adjust_cfa_offset 8\n"
        "    .cfi_rel_offset %r13, 0\n"
        "    pushq %r14\n"
        "    .cfi_adjust_cfa_offset 8\n"
        "    .cfi_rel_offset %r14, 0\n"
        "    pushq %r15\n"
        "    .cfi_adjust_cfa_offset 8\n"
        "    .cfi_rel_offset %r15, 0\n"
        "    movq %rsp, (%rdi)\n"
        "    movq %rsi, %rsp\n"
        "    popq %r15\n"
        "    .cfi_adjust_cfa_offset -8\n"
        "    popq %r14\n"
        "    .cfi_adjust_cfa_offset -8\n"
        "    popq %r13\n"
        "    .cfi_adjust_cfa_offset -8\n"
        "    popq %r12\n"
        "    .cfi_adjust_cfa_offset -8\n"
        "    popq %rbx\n"
        "    .cfi_adjust_cfa_offset -8\n"
        "    popq %rbp\n"
        "    .cfi_adjust_cfa_offset -8\n"
        "    ret\n"
        ".cfi_endproc\n"
        ".size nicxi_fiber_exchange, . - nicxi_fiber_exchange\n"
        ".p2align 4\n"
        ".globl nicxi_fiber_entry\n"
        ".type nicxi_fiber_entry, @function\n"
        "nicxi_fiber_entry:\n"
        ".cfi_startproc\n"
        "    .cfi_undefined %rip\n"
        "    movq %r12, %rdi\n"
        "    call nicxi_fiber_first\n"
        "    ud2\n"
        ".cfi_endproc\n"
        ".size nicxi_fiber_entry, . - nicxi_fiber_entry\n"
        ".section .note.GNU-stack, \"\", @progbits\n"
        ".text\n");

void nicxi_fiber_first(struct fiber *fiber)
{
    after_switch(fiber);
    fiber->function(fiber->argument);
    abort();
}

/* From the saved top upwards: r15, r14, r13, r12, rbx, rbp, and the return address; then 16 bytes, so that the entry
   function calls with an aligned stack. */
static void prepare(struct fiber *fiber)
{
    uintptr_t *top = (uintptr_t *)(void *)(fiber->bottom + fiber->size) - 9;
    for (int k = 0; k < 9; k++)
        top[k] = 0;
    top[3] = (uintptr_t)fiber;
    top[6] = (uintptr_t)nicxi_fiber_entry;
    fiber->top = top;
}

static void exchange(struct fiber *from, struct fiber *to)
{
    nicxi_fiber_exchange(&from->top, to->top);
}

#else

static struct fiber *beginning;

static void enter(void)
{
    struct fiber *fiber = beginning;
    after_switch(fiber);
    fiber->function(fiber->argument);
    abort();
}

static void prepare(struct fiber *fiber)
{
    getcontext(&fiber->context);
    fiber->context.uc_stack.ss_sp = fiber->bottom;
    fiber->context.uc_stack.ss_size = fiber->size;
    fiber->context.uc_link = NULL;
    makecontext(&fiber->context, enter, 0);
}

static void exchange(struct fiber *from, struct fiber *to)
{
    beginning = to;
    swapcontext(&from->context, &to->context);
}

#endif

void nicxi_fiber_begin(struct fiber *fiber, void (*function)(void *), void *argument)
{
    fiber->function = function;
    fiber->argument = argument;
    forget_frames(fiber);
    prepare(fiber);
}

void nicxi_fiber_switch(struct fiber *from, struct fiber *to)
{
    before_switch(from, to);
    exchange(from, to);
    after_switch(from);
}
