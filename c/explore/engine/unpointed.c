#define _GNU_SOURCE
#include "unpointed.h"

#include <stdio.h>
#include <string.h>
#include <sys/mman.h>

#include "parts.h"
#include "places.h"
#include "strategy.h"
#include "symbols.h"

bool nicxi_is_stepping;

#if defined __linux__ && defined __x86_64__

#include <link.h>
#include <signal.h>
#include <ucontext.h>

/* Single-steps at most MOST_STEPS instructions in SCHEDULES schedules, and at most MOST_OF_STRETCH between two points.
   The engine's instructions on the way back to the driver count too; with a sanitizer there are more than 100. */
enum { SCHEDULES = 8, MOST_STEPS = 2400, MOST_OF_STRETCH = 200, MOST_LOGGED = 1024, TRAP = 1 << 8 };

struct access {
    uint64_t at;
    uintptr_t instruction;
    unsigned size;
    uint32_t stretch;
    uint16_t thread;
    bool reads, writes;
};

static struct {
    struct access list[MOST_LOGGED];
    uint32_t count, stretch, steps, of_stretch;
} logged;

void nicxi_steps_begin(void)
{
    if (logged.steps >= MOST_STEPS || logged.count == MOST_LOGGED || (nicxi.self && nicxi.self->unwinds))
        return; /* (in Rust, the crate's own code is between the driver and the engine) */
    logged.stretch++;
    logged.of_stretch = 0;
    __asm__ volatile("lea -128(%%rsp), %%rsp\n\tpushfq\n\torq %0, (%%rsp)\n\tpopfq\n\tlea 128(%%rsp), %%rsp" ::"i"(TRAP)
                     : "memory", "cc");
}

void nicxi_steps_end(void)
{
    __asm__ volatile("lea -128(%%rsp), %%rsp\n\tpushfq\n\tandq %0, (%%rsp)\n\tpopfq\n\tlea 128(%%rsp), "
                     "%%rsp" ::"i"(~TRAP)
                     : "memory", "cc");
}

/* --- what an instruction accesses: decodes compilers' instructions with a ModRM byte, and ignores others --- */

struct decoded {
    const uint8_t *at;    /* after the opcode: the ModRM byte */
    unsigned rex, opcode; /* two-byte opcodes are 0x0F00 and up */
    bool is_wide;         /* immediates are four bytes long, not two */
    bool is_locked;       /* no other access can occur between its load and its store */
    bool reads, writes;
};

/* Decodes prefixes and the opcode. Leaves out segment-relative addresses and VEX. */
static bool take_opcode(const uint8_t *at, struct decoded *it)
{
    memset(it, 0, sizeof *it);
    it->is_wide = true;
    for (; *at == 0x66 || *at == 0xF2 || *at == 0xF3 || *at == 0xF0 || *at == 0x2E || *at == 0x3E; at++) {
        it->is_wide &= *at != 0x66;
        it->is_locked |= *at == 0xF0;
    }
    if ((*at & 0xF0) == 0x40)
        it->rex = *at++;
    it->opcode = *at++;
    if (it->opcode == 0x0F)
        it->opcode = 0x0F00u | *at++;
    it->at = at;
    it->is_locked |= (it->opcode & 0xFE) == 0x86;
    return it->opcode != 0x64 && it->opcode != 0x65;
}

static bool is_among(unsigned opcode, const char *list, size_t length)
{
    return opcode < 0x100 && memchr(list, (int)opcode, length);
}

#define AMONG(opcode, list) is_among(opcode, list, sizeof(list) - 1)

static void decode_two(struct decoded *it, unsigned part)
{
    unsigned low = it->opcode & 0xFF;
    bool stores = AMONG(low, "\x11\x13\x17\x29\x2B\x7F\xD6\xE7") || (low & 0xF0) == 0x90;
    bool exchanges = AMONG(low, "\xB0\xB1\xC0\xC1\xAB\xB3\xBB\xC7") || (low == 0xBA && part != 4);
    bool loads = AMONG(low, "\x10\x12\x14\x16\x28\x2E\x2F\x51\x54\x57\x58\x59\x5C\x5E\x6E\x6F\xA3\xAF\xB6\xB7\xBA"
                            "\xBE\xBF") ||
                 (low & 0xF0) == 0x40;
    it->writes = stores || exchanges;
    it->reads = loads || exchanges;
}

/* Arithmetic opcodes below 0x40 form groups: to memory, from memory, and with a constant. */
static void decode_one(struct decoded *it, unsigned part)
{
    unsigned opcode = it->opcode;
    bool is_arithmetic = opcode < 0x40 && (opcode & 7) < 4, compares = (opcode & 0x38) == 0x38;
    bool is_group = AMONG(opcode, "\x80\x81\x83"), is_unary = (opcode & 0xFE) == 0xF6;
    it->writes = (is_arithmetic && !(opcode & 2) && !compares) || (is_group && part != 7) ||
                 (is_unary && (part == 2 || part == 3)) || ((opcode & 0xFE) == 0xFE && part < 2) ||
                 AMONG(opcode, "\x86\x87\x88\x89\xC0\xC1\xC6\xC7\xD0\xD1\xD2\xD3");
    it->reads = is_arithmetic || is_group || is_unary || (opcode & 0xFE) == 0xFE ||
                AMONG(opcode, "\x63\x69\x6B\x84\x85\x86\x87\x8A\x8B\xC0\xC1\xD0\xD1\xD2\xD3");
}

/* Returns how many bytes the instruction accesses. Vector moves count as whole vectors. */
static unsigned size_of(const struct decoded *it)
{
    unsigned opcode = it->opcode, low = opcode & 0xFF;
    bool is_byte = opcode < 0x0F00 ? (opcode < 0x40 && !(opcode & 1)) ||
                                         AMONG(opcode, "\x80\x84\x86\x88\x8A\xC0\xC6\xD0\xD2\xF6\xFE")
                                   : (low & 0xF0) == 0x90 || AMONG(low, "\xB0\xB6\xBE\xC0");
    if (is_byte)
        return 1;
    if (opcode == 0x0FB7 || opcode == 0x0FBF)
        return 2;
    if (opcode >= 0x0F00 && AMONG(low, "\x10\x11\x28\x29\x6F\x7F"))
        return 16;
    if (opcode >= 0x0F00 && AMONG(low, "\x12\x13\x16\x17\xD6\xE7"))
        return 8;
    return it->rex & 8 ? 8 : it->is_wide ? 4 : 2;
}

/* Returns how many bytes of an immediate follow the address. */
static unsigned constant_of(const struct decoded *it, unsigned part)
{
    unsigned whole = it->is_wide ? 4 : 2;
    if (AMONG(it->opcode, "\x80\x83\xC0\xC1\xC6\x6B") || it->opcode == 0x0FBA || (it->opcode == 0xF6 && part < 2))
        return 1;
    return AMONG(it->opcode, "\x81\xC7\x69") || (it->opcode == 0xF7 && part < 2) ? whole : 0;
}

static uint64_t register_of(const greg_t *registers, unsigned number)
{
    static const int places[] = {REG_RAX, REG_RCX, REG_RDX, REG_RBX, REG_RSP, REG_RBP, REG_RSI, REG_RDI,
                                 REG_R8,  REG_R9,  REG_R10, REG_R11, REG_R12, REG_R13, REG_R14, REG_R15};
    return (uint64_t)registers[places[number & 15]];
}

static int64_t displacement(const uint8_t *at, unsigned bytes)
{
    int32_t word = 0;
    if (bytes == 1)
        return (int8_t)*at;
    memcpy(&word, at, bytes);
    return word;
}

/* Returns the address that a ModRM byte for memory and the bytes after it encode. */
static uint64_t place_of(const struct decoded *it, const greg_t *registers)
{
    const uint8_t *at = it->at;
    unsigned mode = *at >> 6, part = *at >> 3 & 7, base = *at & 7, more = mode == 1 ? 1 : mode == 2 ? 4 : 0;
    uint64_t place = 0;
    at++;
    if (base == 4) {
        unsigned scaled = *at >> 6, index = (*at >> 3 & 7) | (it->rex & 2) << 2;
        base = *at++ & 7;
        if (index != 4)
            place += register_of(registers, index) << scaled;
        more = base == 5 && !mode ? 4 : more;
        if (base != 5 || mode)
            place += register_of(registers, base | (it->rex & 1) << 3);
    } else if (base == 5 && !mode) {
        more = 4;
        place += (uintptr_t)at + 4 + constant_of(it, part);
    } else {
        place += register_of(registers, base | (it->rex & 1) << 3);
    }
    return place + (uint64_t)displacement(at, more);
}

/* --- logging --- */

/* Whether the address is neither in the engine's state nor on a stack. */
static bool is_drivers(uint64_t at)
{
    if (at - (uintptr_t)&nicxi < sizeof nicxi)
        return false;
    for (unsigned k = 0; k < MOST_THREADS; k++)
        if (nicxi.threads[k].fiber.bottom &&
            at - (uintptr_t)nicxi.threads[k].fiber.bottom < nicxi.threads[k].fiber.size)
            return false;
    return true;
}

static void note_access(uintptr_t instruction, const greg_t *registers)
{
    struct decoded it;
    const struct thread *self = nicxi.self;
    if (!take_opcode((const uint8_t *)instruction, &it) || *it.at >> 6 == 3 || it.is_locked)
        return;
    if (it.opcode >= 0x0F00)
        decode_two(&it, *it.at >> 3 & 7);
    else
        decode_one(&it, *it.at >> 3 & 7);
    if (!it.reads && !it.writes)
        return;
    uint64_t place = place_of(&it, registers);
    if (!self || self->locks || self->masked || !is_drivers(place) || logged.count == MOST_LOGGED)
        return;
    logged.list[logged.count++] = (struct access){
        place, instruction, size_of(&it), logged.stretch, (uint16_t)(self - nicxi.threads), it.reads, it.writes};
}

/* The program's own code; libraries' accesses aren't the driver's. */
static uintptr_t code_begins, code_ends;

static int find_code(struct dl_phdr_info *info, size_t size, void *unused)
{
    (void)size;
    (void)unused;
    for (int k = 0; k < info->dlpi_phnum; k++)
        if (info->dlpi_phdr[k].p_type == PT_LOAD && info->dlpi_phdr[k].p_flags & PF_X) {
            code_begins = info->dlpi_addr + info->dlpi_phdr[k].p_vaddr;
            code_ends = code_begins + info->dlpi_phdr[k].p_memsz;
        }
    return 1; /* the first entry is the program */
}

/* Whether the instruction calls one of the engine's points. Single-stepping from there to the point would waste
   time. */
static bool is_point(uintptr_t instruction)
{
    static void (*const points[])(void) = {
        (void (*)(void))nicx_read32,
        (void (*)(void))nicx_write32,
        (void (*)(void))nicx_vf_read32,
        (void (*)(void))nicx_vf_write32,
        (void (*)(void))nicx_dma_read,
        (void (*)(void))nicx_dma_write,
        (void (*)(void))nicx_get64,
        (void (*)(void))nicx_put64,
        (void (*)(void))nicx_lock,
        (void (*)(void))nicx_unlock,
        (void (*)(void))nicx_wait_until,
        nicx_wait,
        nicx_pause,
        nicx_point,
    };
    int32_t distance;
    if (*(const uint8_t *)instruction != 0xE8)
        return false;
    memcpy(&distance, (const uint8_t *)instruction + 1, sizeof distance);
    uintptr_t called = instruction + 5 + (uintptr_t)distance;
    for (size_t k = 0; k < sizeof points / sizeof *points; k++)
        if (called == (uintptr_t)points[k])
            return true;
    return false;
}

/* Runs before each instruction of the driver. */
static void stepped(int number, siginfo_t *info, void *context)
{
    greg_t *registers = ((ucontext_t *)context)->uc_mcontext.gregs;
    uintptr_t instruction = (uintptr_t)registers[REG_RIP];
    (void)number;
    (void)info;
    bool is_own = instruction >= code_begins && instruction < code_ends;
    if (is_own)
        note_access(instruction, registers);
    if (++logged.steps >= MOST_STEPS || ++logged.of_stretch >= MOST_OF_STRETCH || (is_own && is_point(instruction)))
        registers[REG_EFL] &= ~TRAP;
}

/* --- evaluation --- */

/* Returns another thread's access to the same memory if at least one of the two is a write; or null. */
static const struct access *shared_with(const struct access *one)
{
    for (uint32_t k = 0; k < logged.count; k++) {
        const struct access *other = &logged.list[k];
        if (nicxi_overlap(other->at, other->size, one->at, one->size) && other->thread != one->thread &&
            (other->writes || one->writes))
            return other;
    }
    return NULL;
}

static bool is_of_engine(uintptr_t instruction)
{
    char name[MOST_SYMBOL];
    return !nicxi_symbol((const void *)instruction, name, sizeof name) || !strncmp(name, "nicx", 4) ||
           !strncmp(name, "nic_", 4);
}

static bool is_known(const struct unpointed_list *found, const struct unpointed *one)
{
    const void *function = nicxi_function((const void *)one->first);
    for (uint32_t k = 0; k < found->count; k++)
        if (nicxi_function((const void *)found->list[k].first) == function)
            return true;
    return false;
}

static void add(struct unpointed_list *found, const struct access *first, const struct access *second)
{
    const struct access *other = shared_with(second);
    struct unpointed one = {first->instruction,      second->instruction, other->instruction,
                            {first->at, second->at}, second->thread,      other->thread};
    if (is_of_engine(first->instruction) || is_of_engine(second->instruction) || is_of_engine(other->instruction))
        return;
    if (found->count < MOST_UNPOINTED && !is_known(found, &one))
        found->list[found->count++] = one;
}

/* Looks for two accesses between the same two points, or a single access that reads and writes. Two reads alone don't
   count, because other threads don't notice them. */
static void judge(struct unpointed_list *found)
{
    const struct access *before = NULL;
    for (uint32_t k = 0; k < logged.count; k++) {
        const struct access *one = &logged.list[k];
        if (!shared_with(one) || is_of_engine(one->instruction))
            continue;
        if (before && before->stretch == one->stretch && (before->writes || one->writes))
            add(found, before, one);
        else if (one->reads && one->writes)
            add(found, one, one);
        before = one;
    }
}

static void look(struct post *post, void *argument)
{
    struct unpointed_list *found = argument;
    struct sigaction action;
    (void)post;
    memset(&action, 0, sizeof action);
    action.sa_sigaction = stepped;
    action.sa_flags = SA_SIGINFO;
    sigaction(SIGTRAP, &action, NULL);
    dl_iterate_phdr(find_code, NULL);
    nicxi_is_stepping = true;
    for (uint64_t run = 0; run < SCHEDULES && logged.steps < MOST_STEPS; run++) {
        struct by_chance chance;
        nicx_result result;
        nicx_chooser chooser = nicxi_by_chance(&chance, 1, run);
        nicx_run(&chooser, &result);
    }
    nicxi_is_stepping = false;
    judge(found);
}

void nicxi_look_for_points(const struct options *options, struct unpointed_list *found)
{
    memset(found, 0, sizeof *found);
    if (nicxi_form || nicxi_to_be_seen || nicxi.tasks + nicxi.handlers < 2)
        return;
    void *memory = mmap(NULL, sizeof *found, PROT_READ | PROT_WRITE, MAP_SHARED | MAP_ANONYMOUS, -1, 0);
    struct post *post = nicxi_posts(1);
    if (memory != MAP_FAILED && post) {
        nicxi_do(post, options->hang, look, memory);
        memcpy(found, memory, sizeof *found);
    }
    if (memory != MAP_FAILED)
        munmap(memory, sizeof *found);
    if (post)
        nicxi_free_posts(post, 1);
}

#else

void nicxi_steps_begin(void)
{
}

void nicxi_steps_end(void)
{
}

void nicxi_look_for_points(const struct options *options, struct unpointed_list *found)
{
    (void)options;
    memset(found, 0, sizeof *found);
}

#endif

/* --- reporting --- */

static const char *place_words(uintptr_t instruction, char *room, size_t size)
{
    struct source_line line;
    const char *slash = nicxi_lines((const void *)instruction, &line, 1) ? strrchr(line.file, '/') : NULL;
    if (slash)
        snprintf(room, size, "%.60s:%u", slash + 1, line.line);
    else if (!nicxi_symbol((const void *)instruction, room, size))
        snprintf(room, size, "an unknown place");
    return room;
}

static const char *object_words(uint64_t at, char *room, size_t size)
{
    if (!nicxi_symbol((const void *)(uintptr_t)at, room, size))
        snprintf(room, size, "memory");
    return room;
}

/* Returns "clean() in task send". */
static const char *function_words(uintptr_t instruction, uint16_t thread, char *room, size_t size)
{
    char function[MOST_SYMBOL];
    if (!nicxi_symbol(nicxi_function((const void *)instruction), function, sizeof function))
        snprintf(function, sizeof function, "a function");
    snprintf(room, size, "%.90s() in %s %s", function, thread < NICX_TASKS ? "task" : "handler",
             nicxi.threads[thread].name);
    return room;
}

void nicxi_unpointed_words(const struct unpointed *it, char *room, size_t size)
{
    enum { ROOM = 2 * MOST_SYMBOL };
    char at[3][MOST_SYMBOL], object[2][MOST_SYMBOL], both[5 * MOST_SYMBOL], who[2][ROOM];
    place_words(it->first, at[0], sizeof at[0]);
    place_words(it->second, at[1], sizeof at[1]);
    place_words(it->other, at[2], sizeof at[2]);
    object_words(it->touched[0], object[0], sizeof object[0]);
    object_words(it->touched[1], object[1], sizeof object[1]);
    if (it->touched[0] == it->touched[1] && !strcmp(at[0], at[1]))
        snprintf(both, sizeof both, "reads and writes %s at %s", object[0], at[0]);
    else
        snprintf(both, sizeof both, "touches %s at %s and %s at %s", object[0], at[0], object[1], at[1]);
    snprintf(room, size, "%s %s without a point in between, and %s touches %s too, at %s",
             function_words(it->first, it->thread, who[0], ROOM), both, function_words(it->other, it->by, who[1], ROOM),
             object[1], at[2]);
}
