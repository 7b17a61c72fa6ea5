/* The x86-64 instructions by which compilers access a 32-bit word of memory. They fold a volatile load or store into an
   operation: `*p |= 4` becomes `orl $4, (p)`, and a polling loop becomes `testl $4, (p)`. Linux isn't needed here, and
   neither is the bus. */
#ifndef DRIVERS_DECODE_H
#define DRIVERS_DECODE_H

#include <stdbool.h>
#include <stdint.h>

/* What an operation writes besides its destination and the flags. */
enum effect {
    STORES = 1,     /* it writes its destination */
    SWAPS = 2,      /* it also writes its source */
    COMPARES = 4,   /* it writes EAX unless EAX was equal to the destination */
    HAS_PAIR = 8,   /* it writes EDX and EAX, and has no destination */
    REPLACES = 16,  /* it doesn't read its destination */
    WIDENS = 32,    /* its destination is a 64-bit register */
    IN_VECTOR = 64, /* its register is an XMM register */
    CHOOSES = 128   /* it copies its source if a condition holds */
};

/* Each operation: its name, its effects, and the instruction that computes it from the `struct values` (operate.h). */
#define OPERATIONS(ROW)                                                                                                \
    ROW(ADD, STORES, "addl %[from], %[to]")                                                                            \
    ROW(OR, STORES, "orl %[from], %[to]")                                                                              \
    ROW(ADC, STORES, "adcl %[from], %[to]")                                                                            \
    ROW(SBB, STORES, "sbbl %[from], %[to]")                                                                            \
    ROW(AND, STORES, "andl %[from], %[to]")                                                                            \
    ROW(SUB, STORES, "subl %[from], %[to]")                                                                            \
    ROW(XOR, STORES, "xorl %[from], %[to]")                                                                            \
    ROW(CMP, 0, "cmpl %[from], %[to]")                                                                                 \
    ROW(TEST, 0, "testl %[from], %[to]")                                                                               \
    ROW(NOT, STORES, "notl %[to]")                                                                                     \
    ROW(NEG, STORES, "negl %[to]")                                                                                     \
    ROW(INC, STORES, "incl %[to]")                                                                                     \
    ROW(DEC, STORES, "decl %[to]")                                                                                     \
    ROW(ROL, STORES, "roll %%cl, %[to]")                                                                               \
    ROW(ROR, STORES, "rorl %%cl, %[to]")                                                                               \
    ROW(RCL, STORES, "rcll %%cl, %[to]")                                                                               \
    ROW(RCR, STORES, "rcrl %%cl, %[to]")                                                                               \
    ROW(SHL, STORES, "shll %%cl, %[to]")                                                                               \
    ROW(SHR, STORES, "shrl %%cl, %[to]")                                                                               \
    ROW(SAR, STORES, "sarl %%cl, %[to]")                                                                               \
    ROW(BT, 0, "btl %[from], %[to]")                                                                                   \
    ROW(BTS, STORES, "btsl %[from], %[to]")                                                                            \
    ROW(BTR, STORES, "btrl %[from], %[to]")                                                                            \
    ROW(BTC, STORES, "btcl %[from], %[to]")                                                                            \
    ROW(XCHG, STORES | SWAPS, "xchgl %[from], %[to]")                                                                  \
    ROW(XADD, STORES | SWAPS, "xaddl %[from], %[to]")                                                                  \
    ROW(CMPXCHG, STORES | COMPARES, "cmpxchgl %[from], %[to]")                                                         \
    ROW(MUL, HAS_PAIR, "mull %[from]")                                                                                 \
    ROW(IMUL_PAIR, HAS_PAIR, "imull %[from]")                                                                          \
    ROW(DIV, HAS_PAIR, "divl %[from]")                                                                                 \
    ROW(IDIV, HAS_PAIR, "idivl %[from]")                                                                               \
    ROW(IMUL, STORES, "imull %[from], %[to]")                                                                          \
    ROW(BSF, STORES, "bsfl %[from], %[to]")                                                                            \
    ROW(BSR, STORES, "bsrl %[from], %[to]")                                                                            \
    ROW(TZCNT, STORES, "tzcntl %[from], %[to]")                                                                        \
    ROW(LZCNT, STORES, "lzcntl %[from], %[to]")                                                                        \
    ROW(POPCNT, STORES, "popcntl %[from], %[to]")                                                                      \
    ROW(MOV, STORES | REPLACES, "movl %[from], %[to]")                                                                 \
    ROW(MOVBE, STORES | REPLACES, "movl %[from], %[to]\n bswapl %[to]")                                                \
    ROW(MOVSXD, STORES | REPLACES | WIDENS, "movl %[from], %[to]")                                                     \
    ROW(MOVD, STORES | REPLACES | IN_VECTOR, "movl %[from], %[to]")                                                    \
    ROW(CMOV, STORES | CHOOSES, "")

#define NAME_OF(name, effects, words) name,
enum operation { OPERATIONS(NAME_OF) };
#undef NAME_OF

/* A decoded instruction with one operand in memory. The other is a register, or `number`. */
struct decoded {
    enum operation operation;
    unsigned int effects;   /* enum effect, ORed together */
    unsigned int length;    /* bytes */
    unsigned int other;     /* number of the register: 0 is EAX, or XMM0 */
    unsigned int condition; /* of a CMOV, as the processor encodes it */
    uint32_t number;
    bool is_to_memory; /* the memory operand is the destination */
    bool has_number;
};

/* Decodes the instruction at this address. Returns null, or what else the instruction is: "a 64-bit access". */
const char *decode(const uint8_t *at, struct decoded *it);

/* Whether `decode` returned the description of an instruction into which a compiler may have folded a 32-bit access. A
   compiler doesn't change the width of a volatile access. */
bool decode_may_be_folded(const char *what);

/* Whether a decoded instruction reads its memory operand, and whether it writes it. */
bool decoded_reads(const struct decoded *it);
bool decoded_writes(const struct decoded *it);

#endif
