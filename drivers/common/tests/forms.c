/* Compares each instruction that trap.h performs with the same instruction on ordinary memory: its registers, its
   flags, the word in memory, and its reads and writes of the register. Then it does the same with what the compiler
   makes of volatile accesses. */
#include <cpuid.h>
#include <string.h>

#include "check.h"
#include "operate.h"
#include "run.h"
#include "trap.h"
#include "verdict.h"
#include "window.h"

enum { ROUNDS = 40, FAR = 0x1000 };

/* What an instruction reads and writes besides memory. `flags` has the bits of FLAGS_OF_RESULTS. */
struct state {
    uint64_t rax, rcx, rdx, r9, flags;
    uint32_t vector[4];
};

/* ---- instructions ---- */

/* In each, RBX is the address, R10 is 1, and R12 is the address less FAR. */
#define ARITHMETIC(ROW, name, accesses)                                                                                \
    ROW(name##_m_r, #name "l %%ecx, (%%rbx)", accesses)                                                                \
    ROW(name##_r_m, #name "l (%%rbx), %%r9d", "r")                                                                     \
    ROW(name##_m_32, #name "l $0x4000001, (%%rbx)", accesses)                                                          \
    ROW(name##_m_8, #name "l $-5, (%%rbx)", accesses)
#define SHIFT(ROW, name)                                                                                               \
    ROW(name##_8, #name "l $5, (%%rbx)", "rw")                                                                         \
    ROW(name##_1, #name "l (%%rbx)", "rw")                                                                             \
    ROW(name##_cl, #name "l %%cl, (%%rbx)", "rw")
#define BIT(ROW, name, accesses)                                                                                       \
    ROW(name##_8, #name "l $26, (%%rbx)", accesses)                                                                    \
    ROW(name##_r, "andl $31, %%ecx\n " #name "l %%ecx, (%%rbx)", accesses)
#define LOCKED(ROW, name) ROW(lock_##name, "lock " #name "l %%r9d, (%%rbx)", "rw")
#define CHOICE(ROW, condition) ROW(cmov##condition, "cmov" #condition "l (%%rbx), %%ecx", "r")
#define FORMS(ROW)                                                                                                     \
    ARITHMETIC(ROW, add, "rw")                                                                                         \
    ARITHMETIC(ROW, or, "rw")                                                                                          \
    ARITHMETIC(ROW, adc, "rw")                                                                                         \
    ARITHMETIC(ROW, sbb, "rw")                                                                                         \
    ARITHMETIC(ROW, and, "rw")                                                                                         \
    ARITHMETIC(ROW, sub, "rw")                                                                                         \
    ARITHMETIC(ROW, xor, "rw")                                                                                         \
    ARITHMETIC(ROW, cmp, "r")                                                                                          \
    SHIFT(ROW, rol)                                                                                                    \
    SHIFT(ROW, ror)                                                                                                    \
    SHIFT(ROW, rcl)                                                                                                    \
    SHIFT(ROW, rcr)                                                                                                    \
    SHIFT(ROW, shl)                                                                                                    \
    SHIFT(ROW, shr)                                                                                                    \
    SHIFT(ROW, sar)                                                                                                    \
    BIT(ROW, bt, "r")                                                                                                  \
    BIT(ROW, bts, "rw")                                                                                                \
    BIT(ROW, btr, "rw")                                                                                                \
    BIT(ROW, btc, "rw")                                                                                                \
    LOCKED(ROW, add)                                                                                                   \
    LOCKED(ROW, or)                                                                                                    \
    LOCKED(ROW, and)                                                                                                   \
    LOCKED(ROW, xor)                                                                                                   \
    LOCKED(ROW, xadd)                                                                                                  \
    LOCKED(ROW, cmpxchg)                                                                                               \
    CHOICE(ROW, o)                                                                                                     \
    CHOICE(ROW, no)                                                                                                    \
    CHOICE(ROW, b)                                                                                                     \
    CHOICE(ROW, ae)                                                                                                    \
    CHOICE(ROW, e)                                                                                                     \
    CHOICE(ROW, ne)                                                                                                    \
    CHOICE(ROW, be)                                                                                                    \
    CHOICE(ROW, a)                                                                                                     \
    CHOICE(ROW, s)                                                                                                     \
    CHOICE(ROW, ns)                                                                                                    \
    CHOICE(ROW, p)                                                                                                     \
    CHOICE(ROW, np)                                                                                                    \
    CHOICE(ROW, l)                                                                                                     \
    CHOICE(ROW, ge)                                                                                                    \
    CHOICE(ROW, le)                                                                                                    \
    CHOICE(ROW, g)                                                                                                     \
    ROW(test_r, "testl %%ecx, (%%rbx)", "r")                                                                           \
    ROW(test_32, "testl $0x4000000, (%%rbx)", "r")                                                                     \
    ROW(not, "notl (%%rbx)", "rw")                                                                                     \
    ROW(neg, "negl (%%rbx)", "rw")                                                                                     \
    ROW(inc, "incl (%%rbx)", "rw")                                                                                     \
    ROW(dec, "decl (%%rbx)", "rw")                                                                                     \
    ROW(xchg, "xchgl %%ecx, (%%rbx)", "rw")                                                                            \
    ROW(xadd, "xaddl %%ecx, (%%rbx)", "rw")                                                                            \
    ROW(cmpxchg, "cmpxchgl %%ecx, (%%rbx)", "rw")                                                                      \
    ROW(cmpxchg_equal, "movl (%%rbx), %%eax\n cmpxchgl %%ecx, (%%rbx)", "rrw")                                         \
    ROW(mul, "mull (%%rbx)", "r")                                                                                      \
    ROW(imul_pair, "imull (%%rbx)", "r")                                                                               \
    ROW(div, "xorl %%edx, %%edx\n orl $1, (%%rbx)\n divl (%%rbx)", "rwr")                                              \
    ROW(idiv, "shrl $1, %%eax\n xorl %%edx, %%edx\n orl $1, (%%rbx)\n idivl (%%rbx)", "rwr")                           \
    ROW(imul, "imull (%%rbx), %%r9d", "r")                                                                             \
    ROW(imul_32, "imull $0x12345, (%%rbx), %%ecx", "r")                                                                \
    ROW(imul_8, "imull $10, (%%rbx), %%r9d", "r")                                                                      \
    ROW(bsf, "orl $16, (%%rbx)\n bsfl (%%rbx), %%ecx", "rwr")                                                          \
    ROW(bsr, "orl $16, (%%rbx)\n bsrl (%%rbx), %%r9d", "rwr")                                                          \
    ROW(tzcnt, "orl $16, (%%rbx)\n tzcntl (%%rbx), %%ecx", "rwr")                                                      \
    ROW(lzcnt, "orl $16, (%%rbx)\n lzcntl (%%rbx), %%r9d", "rwr")                                                      \
    ROW(mov_m_r, "movl %%r9d, (%%rbx)", "w")                                                                           \
    ROW(mov_r_m, "movl (%%rbx), %%r9d", "r")                                                                           \
    ROW(mov_m_32, "movl $0x87654321, (%%rbx)", "w")                                                                    \
    ROW(movnti, "movnti %%ecx, (%%rbx)", "w")                                                                          \
    ROW(movslq, "movslq (%%rbx), %%r9", "r")                                                                           \
    ROW(movd_r_m, "movd (%%rbx), %%xmm0", "r")                                                                         \
    ROW(movd_m_r, "movd %%xmm0, (%%rbx)", "w")                                                                         \
    ROW(movss_r_m, "movss (%%rbx), %%xmm0", "r")                                                                       \
    ROW(movss_m_r, "movss %%xmm0, (%%rbx)", "w")                                                                       \
    ROW(with_index, "orl $0x12345678, -8(%%rbx, %%r10, 8)", "rw")                                                      \
    ROW(far, "addl $7, 0x1000(%%r12)", "rw")                                                                           \
    ROW(far_with_index, "xorl $0x4000001, 0xff8(%%r12, %%r10, 8)", "rw")
/* Only on processors that have them. */
#define FORMS_OF_SOME(ROW)                                                                                             \
    ROW(popcnt, "popcntl (%%rbx), %%ecx", "r")                                                                         \
    ROW(movbe_r_m, "movbel (%%rbx), %%r9d", "r")                                                                       \
    ROW(movbe_m_r, "movbel %%ecx, (%%rbx)", "w")

/* Runs instructions with a state, at an address. */
#define DEFINE(name, words, accesses)                                                                                  \
    static void form_##name(struct state *state, volatile uint32_t *at)                                                \
    {                                                                                                                  \
        __asm__ volatile("leaq -128(%%rsp), %%rsp\n movl $1, %%r10d\n leaq -0x1000(%%rbx), %%r12\n"                    \
                         "movq (%%rdi), %%rax\n movq 8(%%rdi), %%rcx\n movq 16(%%rdi), %%rdx\n movq 24(%%rdi), %%r9\n" \
                         "movups 40(%%rdi), %%xmm0\n pushq 32(%%rdi)\n popfq\n " words                                 \
                         "\n pushfq\n popq 32(%%rdi)\n movups %%xmm0, 40(%%rdi)\n movq %%rax, (%%rdi)\n"               \
                         "movq %%rcx, 8(%%rdi)\n movq %%rdx, 16(%%rdi)\n movq %%r9, 24(%%rdi)\n"                       \
                         "leaq 128(%%rsp), %%rsp"                                                                      \
                         :                                                                                             \
                         : "D"(state), "b"(at)                                                                         \
                         : "rax", "rcx", "rdx", "r9", "r10", "r12", "xmm0", "cc", "memory");                           \
    }
FORMS(DEFINE)
FORMS_OF_SOME(DEFINE)

typedef void instruction(struct state *state, volatile uint32_t *at);

static const struct form {
    const char *name, *accesses;
    instruction *run;
} forms[] = {
#define LIST(name, words, accesses) {#name, accesses, form_##name},
    FORMS(LIST) FORMS_OF_SOME(LIST)};

#define COUNT_ONE(name, words, accesses) +1
enum { ALL = sizeof forms / sizeof *forms, SOME = 0 FORMS_OF_SOME(COUNT_ONE) };

static bool has_some(void)
{
    unsigned int a, b, c, d;
    return __get_cpuid(1, &a, &b, &c, &d) && c & bit_POPCNT && c & bit_MOVBE;
}

/* ---- ordinary memory and a register ---- */

static volatile uint32_t *led(void)
{
    return (volatile uint32_t *)((char *)window_of(0) + NIC_LEDCTL);
}

static uint64_t some_bits(void)
{
    static const uint32_t edges[] = {0, 1, 0x7FFFFFFF, 0x80000000, 0xFFFFFFFF};
    uint32_t low = chance(), high = chance();
    return (uint64_t)high << 32 | (high % 3 == 0 ? edges[low % 5] : low);
}

static struct state some_state(void)
{
    struct state state = {.rax = some_bits(), .rcx = some_bits(), .rdx = some_bits(), .r9 = some_bits()};
    state.flags = some_bits() & FLAGS_OF_RESULTS;
    for (unsigned int i = 0; i < 4; i++)
        state.vector[i] = (uint32_t)some_bits();
    return state;
}

static uint64_t count_of(const char *accesses, char kind)
{
    uint64_t count = 0;
    for (; *accesses; accesses++)
        count += *accesses == kind;
    return count;
}

static bool is_same(const struct form *form)
{
    static uint32_t pages[2 * FAR]; /* the address is far enough from both ends */
    volatile uint32_t *ordinary = pages + FAR;
    struct state expected = some_state(), state = expected;
    uint64_t reads = bus_counts(run_bus)->in[0].reads, writes = bus_counts(run_bus)->in[0].writes;
    *ordinary = (uint32_t)some_bits();
    bus_write(run_bus, BUS_PHYSICAL, NIC_LEDCTL, *ordinary);
    form->run(&expected, ordinary);
    form->run(&state, led());
    expected.flags &= FLAGS_OF_RESULTS;
    state.flags &= FLAGS_OF_RESULTS;
    return memcmp(&expected, &state, sizeof state) == 0 && bus_peek(run_bus, NIC_LEDCTL) == *ordinary &&
           bus_counts(run_bus)->in[0].reads - reads == count_of(form->accesses, 'r') &&
           bus_counts(run_bus)->in[0].writes - writes == 1 + count_of(form->accesses, 'w');
}

static void instructions_are_the_processors(void)
{
    for (unsigned int i = 0; i < (has_some() ? ALL : ALL - SOME); i++)
        for (unsigned int round = 0; round < ROUNDS; round++)
            if (!is_same(&forms[i])) {
                problem("%s differs from the same instruction on ordinary memory", forms[i].name);
                break;
            }
}

/* ---- compiled code ---- */

typedef volatile uint32_t reg;
typedef uint64_t compiled(reg *at, uint32_t word);

#define ACTION(name, words)                                                                                            \
    static uint64_t name(reg *at, uint32_t word)                                                                       \
    {                                                                                                                  \
        words;                                                                                                         \
        return word;                                                                                                   \
    }
#define VALUE(name, type, words)                                                                                       \
    static uint64_t name(reg *at, uint32_t word)                                                                       \
    {                                                                                                                  \
        type result = (type)(words);                                                                                   \
        return (uint64_t)result ^ (word >> 31);                                                                        \
    }
ACTION(set_bit, *at |= 1u << 26)
ACTION(clear_bit, *at &= ~8u)
ACTION(set_bits, *at |= word)
ACTION(change_bits, *at ^= word)
ACTION(keep_bits, *at &= word)
ACTION(set_one, *at |= 1u << (word & 31))
ACTION(clear_one, *at &= ~(1u << (word & 31)))
ACTION(increment, *at += 1)
ACTION(decrement, *at -= 1)
ACTION(increase, *at += word)
ACTION(decrease, *at -= word)
ACTION(invert, *at = ~*at)
ACTION(negate, *at = -*at)
ACTION(shift, *at <<= word & 31)
ACTION(rotate, *at = *at << 5 | *at >> 27)
ACTION(exchange, word = __atomic_exchange_n(at, word, __ATOMIC_SEQ_CST))
ACTION(fetch_and_add, word = __atomic_fetch_add(at, word, __ATOMIC_SEQ_CST))
ACTION(wait_for_bit, while (!(*at & 1u << 26)) *at |= 1u << 26)
ACTION(wait_for_value, while (*at != word) *at = word)
VALUE(some_are_set, bool, (*at & 0x4000000) != 0)
VALUE(is_bit_set, bool, *at >> (word & 31) & 1)
VALUE(is_below, bool, *at < word)
VALUE(is_sign_set, bool, (int32_t)*at < 0)
VALUE(field, uint32_t, (*at & 0xFF00) >> 8)
VALUE(low_byte, uint8_t, *at)
VALUE(sum, uint64_t, word + (uint64_t)*at)
VALUE(product, uint64_t, word *(uint64_t)*at)
VALUE(quotient, uint32_t, word / (*at | 1))
VALUE(difference, uint32_t, word - *at)
VALUE(chosen, uint32_t, word > 0x40000000 ? *at : 7)
VALUE(widened, int64_t, (int32_t)*at)
VALUE(swapped, uint32_t, __builtin_bswap32(*at))
VALUE(lowest, uint32_t, __builtin_ctz(*at | 16))
VALUE(rounded, uint64_t, (double)*at)

static compiled *const all_compiled[] = {
    set_bit,      clear_bit,    set_bits, change_bits, keep_bits,     set_one,        clear_one, increment,  decrement,
    increase,     decrease,     invert,   negate,      shift,         rotate,         exchange,  is_below,   is_bit_set,
    wait_for_bit, some_are_set, low_byte, sum,         product,       wait_for_value, quotient,  difference, chosen,
    is_sign_set,  widened,      swapped,  lowest,      fetch_and_add, rounded,        field,
};

static void compiled_code_is_performed(void)
{
    for (unsigned int i = 0; i < sizeof all_compiled / sizeof *all_compiled; i++)
        for (unsigned int round = 0; round < ROUNDS; round++) {
            uint32_t word = (uint32_t)some_bits();
            reg ordinary = (uint32_t)some_bits();
            bus_write(run_bus, BUS_PHYSICAL, NIC_LEDCTL, ordinary);
            CHECK(all_compiled[i](&ordinary, word) == all_compiled[i](led(), word));
            CHECK(bus_peek(run_bus, NIC_LEDCTL) == ordinary);
        }
}

int main(void)
{
    CHECK(run_open(&(struct bus_options){.fifo = 1}, false) && window_open(0) && trap_open(NULL));
    instructions_are_the_processors();
    compiled_code_is_performed();
    trap_close();
    window_close();
    run_close();
    CHECK(problems() == 0);
    printf("forms: passed\n");
    return 0;
}
