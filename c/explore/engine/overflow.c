/* Reports which task overflowed its stack and hit the guard below it. */
#define _DEFAULT_SOURCE
#include <signal.h>
#include <stdio.h>
#include <stdlib.h>
#include <string.h>
#include <unistd.h>

#include "process.h"

enum { ROOM = 65536 };

static struct sigaction before[2];
static volatile struct overflow *reported;

static int place_of(int number)
{
    return number == SIGBUS;
}

/* Returns the thread with the guard that contains this address, or null. */
static const struct thread *owner_of(const char *address)
{
    for (int k = 0; k < MOST_THREADS; k++) {
        const struct fiber *fiber = &nicxi.threads[k].fiber;
        if (fiber->bottom && address < fiber->bottom && address >= fiber->bottom - NICX_GUARD)
            return &nicxi.threads[k];
    }
    return NULL;
}

const char *nicxi_overflow_words(const volatile struct overflow *overflow, char *room, size_t size)
{
    snprintf(room, size, "%s overflows its %lu-byte stack", nicxi.threads[overflow->thread].name,
             (unsigned long)overflow->size);
    return room;
}

/* When this returns, the fault occurs again and reaches the previous handler. A signal that a process sent is raised
   again. */
static void handle(int number, siginfo_t *info, void *context)
{
    char words[160];
    volatile struct overflow here;
    const struct thread *thread = owner_of(info->si_addr);
    volatile struct overflow *overflow = reported ? reported : &here;
    (void)context;
    sigaction(number, &before[place_of(number)], NULL);
    if (info->si_code <= 0)
        raise(number);
    if (!thread)
        return;
    overflow->thread = (uint16_t)(thread - nicxi.threads);
    overflow->size = thread->fiber.size;
    if (reported)
        return;
    nicxi_overflow_words(overflow, words, sizeof words - 1);
    strcat(words, "\n");
    if (write(STDERR_FILENO, words, strlen(words)) < 0)
        abort();
}

void nicxi_catch_overflows(volatile struct overflow *where)
{
#ifndef NICX_ASAN
    static char room[ROOM];
    const int numbers[] = {SIGSEGV, SIGBUS};
    stack_t stack = {.ss_sp = room, .ss_size = sizeof room};
    struct sigaction action;
    reported = where;
    memset(&action, 0, sizeof action);
    action.sa_sigaction = handle;
    action.sa_flags = SA_SIGINFO | SA_ONSTACK;
    if (sigaltstack(&stack, NULL) != 0)
        return;
    for (int k = 0; k < 2; k++)
        sigaction(numbers[k], &action, &before[place_of(numbers[k])]);
#else
    (void)where; /* the address sanitizer reports it */
#endif
}
