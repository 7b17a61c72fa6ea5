#ifndef _GNU_SOURCE
#define _GNU_SOURCE /* REG_RIP, dladdr */
#endif
#include "trap.h"

#include <dlfcn.h>
#include <inttypes.h>
#include <link.h>
#include <signal.h>
#include <stdio.h>
#include <string.h>
#include <sys/time.h>
#include <ucontext.h>
#include <unistd.h>

#include "absent.h"
#include "operate.h"
#include "run.h"
#include "window.h"

#define STATUS 4
#define SHOWN 12 /* instruction bytes to print */
#define SUBJECT 24
#define ENDLESS 100000 /* equal reads of one register in a row: some seconds */
#define SILENT 3       /* seconds of CPU time without an access */

#define PREFIX_16 0x66u
#define HLT 0xF4u

static const int registers[16] = {REG_RAX, REG_RCX, REG_RDX, REG_RBX, REG_RSP, REG_RBP, REG_RSI, REG_RDI,
                                  REG_R8,  REG_R9,  REG_R10, REG_R11, REG_R12, REG_R13, REG_R14, REG_R15};

static struct trap_hooks hooks;
static struct sigaction former_segv, former_bus, former_tick;
static uint64_t count, faults;

/* A faulting instruction, and the next one. */
struct instruction {
    const uint8_t *at, *next;
    greg_t *saved;
    ucontext_t *context;
};

/* Ends the run. For an instruction of a program or a library, prints the command that finds its source line. */
static void end(const uint8_t *at)
{
    Dl_info info;
    if (dladdr(at, &info) && info.dli_fname && info.dli_fbase) {
        bool is_fixed = ((const ElfW(Ehdr) *)info.dli_fbase)->e_type == ET_EXEC;
        uintptr_t offset = (uintptr_t)at - (is_fixed ? 0 : (uintptr_t)info.dli_fbase);
        fprintf(stderr, "trap: if compiled with -g, its line: addr2line -fpie %s 0x%" PRIxPTR "\n", info.dli_fname,
                offset);
    }
    fflush(NULL);
    _exit(STATUS);
}

static void show_bytes(const struct instruction *it)
{
    for (unsigned int i = 0; i < SHOWN && (uintptr_t)it->at >= 0x1000 && !window_has(it->at); i++)
        fprintf(stderr, " %02x", it->at[i]);
}

static void give_up(const struct instruction *it, const char *why, const void *address)
{
    fprintf(stderr, "trap: %s: the instruction at %p, accessing %p:", why, (const void *)it->at, address);
    show_bytes(it);
    fprintf(stderr, "\n");
    end(it->at);
}

/* ---- ring 0 ---- */

static bool is_input(uint8_t code)
{
    return code == 0xEC || code == 0xED || code == 0xE4 || code == 0xE5;
}

static bool is_output(uint8_t code)
{
    return code == 0xEE || code == 0xEF || code == 0xE6 || code == 0xE7;
}

/* Emulates a read from a port, where no device answers: it returns all ones. */
static void read_port(struct instruction *it, uint8_t code, bool is_short)
{
    if (!(code & 1))
        it->saved[REG_RAX] |= 0xFF;
    else if (is_short)
        it->saved[REG_RAX] |= 0xFFFF;
    else
        it->saved[REG_RAX] = UINT32_MAX;
}

/* Emulates HLT, IN or OUT. Returns false for any other instruction. */
static bool is_privileged(struct instruction *it)
{
    if ((uintptr_t)it->at < 0x1000)
        return false;
    bool is_short = *it->next == PREFIX_16;
    it->next += is_short;
    uint8_t code = *it->next++;
    if (code == HLT && hooks.halt) {
        hooks.halt();
        return true;
    }
    if (!hooks.has_ports || (!is_input(code) && !is_output(code)))
        return false;
    if (is_input(code))
        read_port(it, code, is_short);
    it->next += !(code & 8); /* skips the immediate port number */
    return true;
}

/* ---- registers ---- */

/* Ends the run at an instruction that can't be performed on a register. */
static void refuse(const struct instruction *it, const char *what, unsigned int function, uint32_t offset)
{
    char name[BUS_NAME], place[32] = "";
    if (function != BUS_PHYSICAL)
        snprintf(place, sizeof place, "virtual function %u, ", function - 1);
    fprintf(stderr, "trap: %s%s: %s: the instruction at %p:", place, bus_register_name(function, offset, name), what,
            (const void *)it->at);
    show_bytes(it);
    fprintf(stderr, "; access registers with volatile 32-bit loads and stores%s\n",
            decode_may_be_folded(what) ? ", in functions that aren't inlined" : "");
    end(it->at);
}

/* Returns what the reasons about a queue register's queue begin with, such as "rx 0: ". Returns an empty text for other
   registers. */
static const char *subject_of(const char *name, char room[SUBJECT])
{
    unsigned int queue;
    *room = 0;
    if (strchr("RT", name[0]) && strchr("DX", name[1]) && sscanf(name, "%*[A-Z][%u]", &queue) == 1)
        snprintf(room, SUBJECT, "%s %u: ", name[0] == 'R' ? "rx" : "tx", queue);
    return room;
}

/* Returns a register's value. Ends the run if the driver reads the same value from one register without end. */
static uint32_t read_register(const struct instruction *it, unsigned int function, uint32_t offset)
{
    static struct reading {
        unsigned int function, repeats;
        uint32_t offset, word;
    } last;
    char name[BUS_NAME], subject[SUBJECT];
    uint32_t word = bus_read(run_bus, function, offset);
    if (last.function != function || last.offset != offset || last.word != word)
        last = (struct reading){.function = function, .offset = offset, .word = word};
    else if (++last.repeats == ENDLESS) {
        const char *absent = absent_name(function, offset);
        fprintf(stderr,
                "trap: %s%s%s: %u reads in a row returned 0x%08" PRIx32 ": the driver polls, at %p, without end\n",
                absent ? absent : "", absent ? ", " : "", bus_register_name(function, offset, name), last.repeats, word,
                (const void *)it->at);
        run_tell_why(subject_of(name, subject));
        end(it->at);
    }
    return word;
}

static uint32_t *vector_of(ucontext_t *context, unsigned int number)
{
    return context->uc_mcontext.fpregs->_xmm[number].element;
}

/* Loads an XMM register with a word, and clears the rest of it. */
static void load_vector(ucontext_t *context, unsigned int number, uint32_t word)
{
    memset(vector_of(context, number), 0, 16);
    *vector_of(context, number) = word;
}

static uint32_t other_operand(const struct instruction *it, const struct decoded *decoded)
{
    if (decoded->has_number)
        return decoded->number;
    if (decoded->effects & IN_VECTOR)
        return *vector_of(it->context, decoded->other);
    return (uint32_t)it->saved[registers[decoded->other]];
}

/* Writes a 32-bit result to a register, which clears the upper half. */
static void set_register(const struct instruction *it, int number, uint32_t word)
{
    it->saved[number] = (greg_t)(uint64_t)word;
}

/* Writes the results that aren't in memory. */
static void keep_results(const struct instruction *it, const struct decoded *decoded, const struct values *values)
{
    unsigned int effects = decoded->effects;
    int other = registers[decoded->other];
    if (effects & HAS_PAIR) {
        set_register(it, REG_RAX, values->eax);
        set_register(it, REG_RDX, values->edx);
    } else if (effects & COMPARES && values->eax != (uint32_t)it->saved[REG_RAX]) {
        set_register(it, REG_RAX, values->eax);
    } else if (effects & SWAPS) {
        set_register(it, other, values->from);
    } else if (decoded->is_to_memory || !(effects & STORES)) {
        ;
    } else if (effects & IN_VECTOR) {
        load_vector(it->context, decoded->other, values->to);
    } else if (effects & WIDENS) {
        it->saved[other] = (int32_t)values->to;
    } else {
        set_register(it, other, values->to);
    }
    it->saved[REG_EFL] = (it->saved[REG_EFL] & ~(greg_t)FLAGS_OF_RESULTS) | (greg_t)values->flags;
}

static void access_register(struct instruction *it, const void *address)
{
    unsigned int function;
    uint32_t offset, word = 0;
    struct decoded decoded;
    window_find(address, &function, &offset);
    const char *what_else = decode(it->at, &decoded);
    if (what_else)
        refuse(it, what_else, function, offset);
    count++;
    if (decoded_reads(&decoded))
        word = read_register(it, function, offset);
    uint32_t other = other_operand(it, &decoded);
    struct values values = {
        .to = decoded.is_to_memory ? word : other,
        .from = decoded.is_to_memory ? other : word,
        .eax = (uint32_t)it->saved[REG_RAX],
        .edx = (uint32_t)it->saved[REG_RDX],
        .flags = (uint64_t)it->saved[REG_EFL],
    };
    operate(&decoded, &values);
    if (decoded_writes(&decoded))
        bus_write(run_bus, function, offset, values.to);
    keep_results(it, &decoded, &values);
    it->next = it->at + decoded.length;
}

static void on_fault(int signal_number, siginfo_t *info, void *context)
{
    greg_t *saved = ((ucontext_t *)context)->uc_mcontext.gregs;
    const uint8_t *at = (const uint8_t *)saved[REG_RIP];
    struct instruction it = {.at = at, .next = at, .saved = saved, .context = context};
    (void)signal_number;
    faults++;
    if (window_has(at))
        give_up(&it, "a jump into the registers", info->si_addr);
    if (window_has(info->si_addr))
        access_register(&it, info->si_addr);
    else if (!is_privileged(&it))
        give_up(&it, "a fault outside the registers", info->si_addr);
    saved[REG_RIP] = (greg_t)it.next;
}

/* Called after each second of CPU time. Ends the run if the driver has made no access for some seconds. */
static void on_tick(int signal_number, siginfo_t *info, void *context)
{
    static uint64_t seen;
    static unsigned int silent;
    const uint8_t *at = (const uint8_t *)((ucontext_t *)context)->uc_mcontext.gregs[REG_RIP];
    (void)signal_number;
    (void)info;
    silent = seen == faults ? silent + 1 : 0;
    seen = faults;
    if (silent < SILENT)
        return;
    fprintf(stderr, "trap: no register was accessed in %d s of CPU time: the driver polls memory, at %p, without end\n",
            SILENT, (const void *)at);
    run_tell_why("");
    end(at);
}

static bool set_ticks(bool on)
{
    struct itimerval every = {.it_interval.tv_sec = on, .it_value.tv_sec = on};
    return setitimer(ITIMER_VIRTUAL, &every, NULL) == 0;
}

bool trap_open(const struct trap_hooks *given)
{
    struct sigaction tick = {.sa_sigaction = on_tick, .sa_flags = SA_SIGINFO | SA_RESTART};
    /* A hook or a bus callback may itself fault. With SA_NODEFER that fault is reported too, instead of ending the
       process silently. */
    struct sigaction action = {.sa_sigaction = on_fault, .sa_flags = SA_SIGINFO | SA_NODEFER};
    hooks = given ? *given : (struct trap_hooks){0};
    count = 0;
    return sigaction(SIGSEGV, &action, &former_segv) == 0 && sigaction(SIGBUS, &action, &former_bus) == 0 &&
           sigaction(SIGVTALRM, &tick, &former_tick) == 0 && set_ticks(true);
}

void trap_close(void)
{
    set_ticks(false);
    sigaction(SIGVTALRM, &former_tick, NULL);
    sigaction(SIGSEGV, &former_segv, NULL);
    sigaction(SIGBUS, &former_bus, NULL);
}

uint64_t trap_count(void)
{
    return count;
}
