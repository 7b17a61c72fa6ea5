#include "decode.h"

#include <string.h>

#define PREFIX_16 0x66u
#define PREFIX_LOCK 0xF0u
#define REX 0x40u
#define REX_W 0x08u
#define REX_R 0x04u

/* The map of an opcode: the bytes 0F, and 0F 38, select the second and the third. */
enum map { FIRST, SECOND, THIRD };

/* The operands besides the one in memory, M. */
enum operands {
    M_REGISTER,
    REGISTER_M,
    M_NUMBER, /* of 32 bits */
    M_BYTE,   /* of 8 bits, and extended by its sign */
    M_ONE,    /* the number 1, or none */
    M_CL,
    REGISTER_M_NUMBER, /* the register is written, and the number takes its place as an operand */
    REGISTER_M_BYTE
};

#define ANY 8 /* the form's ModRM byte contains a register's number instead of an extension of the opcode */

/* An instruction's form: its prefix, its opcode in a map, the extension in its ModRM byte, and what it does. */
static const struct form {
    uint8_t prefix, map, code, extension, operation, operands;
} forms[] = {
#define ARITHMETIC(number, operation)                                                                                  \
    {0, FIRST, 0x01 | (number) << 3, ANY, operation, M_REGISTER},                                                      \
        {0, FIRST, 0x03 | (number) << 3, ANY, operation, REGISTER_M}, {0, FIRST, 0x81, number, operation, M_NUMBER},   \
    {                                                                                                                  \
        0, FIRST, 0x83, number, operation, M_BYTE                                                                      \
    }
    ARITHMETIC(0, ADD),
    ARITHMETIC(1, OR),
    ARITHMETIC(2, ADC),
    ARITHMETIC(3, SBB),
    ARITHMETIC(4, AND),
    ARITHMETIC(5, SUB),
    ARITHMETIC(6, XOR),
    ARITHMETIC(7, CMP),
#define SHIFT(number, operation)                                                                                       \
    {0, FIRST, 0xC1, number, operation, M_BYTE}, {0, FIRST, 0xD1, number, operation, M_ONE},                           \
    {                                                                                                                  \
        0, FIRST, 0xD3, number, operation, M_CL                                                                        \
    }
    SHIFT(0, ROL),
    SHIFT(1, ROR),
    SHIFT(2, RCL),
    SHIFT(3, RCR),
    SHIFT(4, SHL),
    SHIFT(5, SHR),
    SHIFT(7, SAR),
#define BIT(number, operation)                                                                                         \
    {0, SECOND, 0xBA, number, operation, M_BYTE},                                                                      \
    {                                                                                                                  \
        0, SECOND, 0x83 | (number) << 3, ANY, operation, M_REGISTER                                                    \
    }
    BIT(4, BT),
    BIT(5, BTS),
    BIT(6, BTR),
    BIT(7, BTC),
    {0, FIRST, 0x85, ANY, TEST, M_REGISTER},
    {0, FIRST, 0xF7, 0, TEST, M_NUMBER},
    {0, FIRST, 0xF7, 2, NOT, M_ONE},
    {0, FIRST, 0xF7, 3, NEG, M_ONE},
    {0, FIRST, 0xFF, 0, INC, M_ONE},
    {0, FIRST, 0xFF, 1, DEC, M_ONE},
    {0, FIRST, 0xF7, 4, MUL, REGISTER_M},
    {0, FIRST, 0xF7, 5, IMUL_PAIR, REGISTER_M},
    {0, FIRST, 0xF7, 6, DIV, REGISTER_M},
    {0, FIRST, 0xF7, 7, IDIV, REGISTER_M},
    {0, SECOND, 0xAF, ANY, IMUL, REGISTER_M},
    {0, FIRST, 0x69, ANY, IMUL, REGISTER_M_NUMBER},
    {0, FIRST, 0x6B, ANY, IMUL, REGISTER_M_BYTE},
    {0, FIRST, 0x87, ANY, XCHG, M_REGISTER},
    {0, SECOND, 0xC1, ANY, XADD, M_REGISTER},
    {0, SECOND, 0xB1, ANY, CMPXCHG, M_REGISTER},
    {0, FIRST, 0x89, ANY, MOV, M_REGISTER},
    {0, FIRST, 0x8B, ANY, MOV, REGISTER_M},
    {0, FIRST, 0xC7, 0, MOV, M_NUMBER},
    {0, SECOND, 0xC3, ANY, MOV, M_REGISTER}, /* MOVNTI */
    {0, THIRD, 0xF9, ANY, MOV, M_REGISTER},  /* MOVDIRI */
    {0, FIRST, 0x63, ANY, MOVSXD, REGISTER_M},
    {0, THIRD, 0xF0, ANY, MOVBE, REGISTER_M},
    {0, THIRD, 0xF1, ANY, MOVBE, M_REGISTER},
    {0, SECOND, 0xBC, ANY, BSF, REGISTER_M},
    {0, SECOND, 0xBD, ANY, BSR, REGISTER_M},
    {0xF3, SECOND, 0xBC, ANY, TZCNT, REGISTER_M},
    {0xF3, SECOND, 0xBD, ANY, LZCNT, REGISTER_M},
    {0xF3, SECOND, 0xB8, ANY, POPCNT, REGISTER_M},
    {PREFIX_16, SECOND, 0x6E, ANY, MOVD, REGISTER_M},
    {PREFIX_16, SECOND, 0x7E, ANY, MOVD, M_REGISTER},
    {0xF3, SECOND, 0x10, ANY, MOVD, REGISTER_M}, /* MOVSS */
    {0xF3, SECOND, 0x11, ANY, MOVD, M_REGISTER},
};

#define EFFECTS_OF(name, effects, words) effects,
static const uint8_t effects_of[] = {OPERATIONS(EFFECTS_OF)};
#undef EFFECTS_OF

/* An instruction's bytes, sorted. */
struct parts {
    const uint8_t *next; /* the first byte that isn't read yet */
    uint8_t prefix, rex, map, code, form;
};

static bool is_ignored(uint8_t byte)
{
    return byte == PREFIX_LOCK || byte == 0x67 || (byte & 0xE7) == 0x26 || (byte & 0xFE) == 0x64;
}

static void read_code(struct parts *it)
{
    while (is_ignored(*it->next) || *it->next == PREFIX_16 || (*it->next & 0xFE) == 0xF2) {
        if (!is_ignored(*it->next))
            it->prefix = *it->next;
        it->next++;
    }
    if ((*it->next & 0xF0) == REX)
        it->rex = *it->next++;
    it->code = *it->next++;
    if (it->code == 0x0F) {
        it->map = SECOND;
        it->code = *it->next++;
    }
    if (it->map == SECOND && (it->code == 0x38 || it->code == 0x3A)) {
        it->map = it->code == 0x38 ? THIRD : THIRD + 1;
        it->code = *it->next++;
    }
    it->form = *it->next++;
}

/* Skips the memory operand. Returns false if there is none. */
static bool skip_operand(struct parts *it)
{
    unsigned int mode = it->form >> 6, base = it->form & 7;
    if (mode == 3)
        return false;
    uint8_t index = base == 4 ? *it->next++ : 0;
    if (mode == 1)
        it->next += 1;
    else if (mode == 2 || base == 5 || (base == 4 && (index & 7) == 5))
        it->next += 4;
    return true;
}

static uint32_t number_of(struct parts *it, unsigned int operands)
{
    uint32_t number = 1;
    if (operands == M_NUMBER || operands == REGISTER_M_NUMBER) {
        memcpy(&number, it->next, sizeof number);
        it->next += sizeof number;
    } else if (operands == M_BYTE || operands == REGISTER_M_BYTE) {
        number = *it->next++;
        number |= number & 0x80 ? 0xFFFFFF00u : 0;
    }
    return number;
}

static const struct form *form_of(const struct parts *it)
{
    unsigned int extension = it->form >> 3 & 7;
    for (unsigned int i = 0; i < sizeof forms / sizeof *forms; i++)
        if (forms[i].prefix == it->prefix && forms[i].map == it->map && forms[i].code == it->code &&
            (forms[i].extension == ANY || forms[i].extension == extension))
            return &forms[i];
    static const struct form conditional = {0, SECOND, 0x40, ANY, CMOV, REGISTER_M};
    return !it->prefix && it->map == SECOND && (it->code & 0xF0) == 0x40 ? &conditional : NULL;
}

/* Whether an opcode of the first two maps accesses one byte. */
static bool is_of_a_byte(const struct parts *it)
{
    static const uint8_t first[] = {0x80, 0x84, 0x86, 0x88, 0x8A, 0xC0, 0xC6, 0xD0, 0xD2, 0xF6, 0xFE};
    static const uint8_t second[] = {0xB0, 0xB6, 0xBE, 0xC0};
    if (it->map == FIRST)
        return (it->code < 0x40 && (it->code & 5) == 0) || memchr(first, it->code, sizeof first);
    return it->map == SECOND && ((it->code & 0xF0) == 0x90 || memchr(second, it->code, sizeof second));
}

static const char newer[] = "an AVX or BMI instruction", unknown[] = "not a 32-bit access";

bool decode_may_be_folded(const char *what)
{
    return what == newer || what == unknown;
}

/* Returns what an instruction is that has no form here. */
static const char *what_else(const struct parts *it)
{
    if (it->map == FIRST && (it->code == 0xC4 || it->code == 0xC5 || it->code == 0x62))
        return newer;
    if (it->map == FIRST && ((it->code & 0xFC) == 0xA4 || (it->code & 0xFE) == 0xAA || (it->code & 0xFC) == 0xAC))
        return "a string instruction, as in memcpy";
    if (is_of_a_byte(it))
        return "an 8-bit access";
    if (it->map == SECOND && (it->code == 0xB7 || it->code == 0xBF))
        return "a 16-bit access";
    return unknown;
}

const char *decode(const uint8_t *at, struct decoded *it)
{
    struct parts parts = {.next = at};
    read_code(&parts);
    const struct form *form = form_of(&parts);
    if (!form && parts.prefix == PREFIX_16 && !is_of_a_byte(&parts)) {
        struct parts narrow = parts;
        narrow.prefix = 0;
        return form_of(&narrow) ? "a 16-bit access" : what_else(&parts);
    }
    if (!form)
        return what_else(&parts);
    unsigned int effects = effects_of[form->operation];
    if (parts.rex & REX_W && !(effects & WIDENS))
        return "a 64-bit access";
    if (!skip_operand(&parts))
        return "not an access to memory";
    uint32_t number = number_of(&parts, form->operands);
    *it = (struct decoded){
        .operation = (enum operation)form->operation,
        .effects = parts.rex & REX_W ? effects : effects & ~(unsigned int)WIDENS,
        .other = form->operands == M_CL ? 1 : (parts.form >> 3 & 7) | (parts.rex & REX_R) << 1,
        .condition = parts.code & 15,
        .number = number,
        .is_to_memory = form->operands != REGISTER_M && form->operands < REGISTER_M_NUMBER,
        .has_number = form->operands >= M_NUMBER && form->operands != M_CL,
        .length = (unsigned int)(parts.next - at),
    };
    return NULL;
}

bool decoded_reads(const struct decoded *it)
{
    return !it->is_to_memory || !(it->effects & REPLACES);
}

bool decoded_writes(const struct decoded *it)
{
    return it->is_to_memory && it->effects & STORES;
}
