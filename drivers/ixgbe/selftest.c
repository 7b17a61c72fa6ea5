/* The register self-test of Linux's ixgbe driver, on the bench. The table and patterns come from the driver (table.py);
   the code is our own. The driver stops at the first register that fails. This program continues: for each row of the
   table it prints how many registers pass, and how the others differ. After each write the device runs all steps that
   it can, as a card does by itself.

     selftest [--turn]        --turn: one bit of one value read is changed, to test the report

   Status 0: the registers known to fail (docs/CARD.md) fail, and no others; 1: another register fails, or one of these
   passes; 2: the device can't be created; 3: unknown argument. */
#include <inttypes.h>
#include <stdbool.h>
#include <stdio.h>
#include <string.h>

#include "nic82599.h"
#include "verdict.h"

struct test {
    uint16_t reg;
    uint8_t array_len, test_type;
    uint32_t mask, write;
};

#include "table.h"

#define ARRAY_STEP 0x40
#define COUNT(array) (sizeof(array) / sizeof *(array))

/* the result for a row in the table */
struct result {
    unsigned int passed, failed, absent; /* absent: those of the failed whose address has no register */
    uint32_t address, got, wanted;       /* the first failure's address and values */
    uint32_t more, fewer;                /* bits that read 1 but should be 0, and the reverse */
    bool without;                        /* no address of the row has a register */
};

/* addresses of the rows known to fail: flow control, which isn't modelled, and RAH, which keeps its reserved bits */
static const uint32_t known_to_fail[] = {0x03220, 0x03260, 0x03008, 0x03200, 0x05404};

static nic device;
static uint32_t first_failed;
static bool turns;

static void settle(void)
{
    nic_outcome outcomes[64];
    size_t count;
    while (nic_settle(&device, 128, outcomes, COUNT(outcomes), &count) == NIC_MORE)
        ;
}

static uint32_t get(uint32_t address)
{
    uint32_t word = 0;
    nic_read32(&device, address, &word);
    return word;
}

static void put(uint32_t address, uint32_t word)
{
    nic_write32(&device, address, word);
    settle();
}

static bool is_there(uint32_t address)
{
    uint32_t word;
    return nic_peek32(&device, address, &word) == NIC_DONE;
}

/* Writes a value, records whether it reads back as expected, and restores the old value. */
static bool reads_back(uint32_t address, uint32_t write, uint32_t mask, uint32_t wanted, struct result *result)
{
    uint32_t before = get(address);
    put(address, write);
    uint32_t got = get(address) & mask;
    if (turns && address == NIC_RDT(0))
        got ^= 1;
    put(address, before);
    if (got == wanted)
        return true;
    if (!result->more && !result->fewer) {
        result->address = address;
        result->got = got;
        result->wanted = wanted;
    }
    result->more |= got & ~wanted;
    result->fewer |= wanted & ~got;
    return false;
}

static bool patterns_pass(const struct test *test, uint32_t address, struct result *result)
{
    bool passes = true;
    for (size_t i = 0; i < COUNT(patterns); i++) {
        uint32_t write = patterns[i] & test->write;
        passes &= reads_back(address, write, UINT32_MAX, write & test->mask, result);
    }
    return passes;
}

static bool passes(const struct test *test, uint32_t address, struct result *result)
{
    if (test->test_type == WRITE_NO_TEST) {
        put(address, test->write);
        return true;
    }
    if (test->test_type == SET_READ_TEST)
        return reads_back(address, test->write & test->mask, test->mask, test->write & test->mask, result);
    return patterns_pass(test, address, result);
}

static uint32_t address_of(const struct test *test, unsigned int index)
{
    switch (test->test_type) {
    case TABLE32_TEST: return test->reg + 4 * index;
    case TABLE64_TEST_LO: return test->reg + 8 * index;
    case TABLE64_TEST_HI: return test->reg + 8 * index + 4;
    default: return test->reg + ARRAY_STEP * index;
    }
}

static struct result run(const struct test *test)
{
    struct result result = {.without = true};
    for (unsigned int index = 0; index < test->array_len; index++) {
        uint32_t address = address_of(test, index);
        bool there = is_there(address);
        result.without &= !there;
        if (passes(test, address, &result)) {
            result.passed++;
            continue;
        }
        result.failed++;
        result.absent += !there;
        if (!first_failed)
            first_failed = address;
    }
    return result;
}

static bool is_known(uint32_t address)
{
    for (size_t i = 0; i < COUNT(known_to_fail); i++)
        if (known_to_fail[i] == address)
            return true;
    return false;
}

static void compare_with_known(const struct test *test, const char *name, const struct result *result)
{
    uint32_t address = address_of(test, 0);
    if (result->failed && !is_known(address))
        problem("%s at 0x%05" PRIX32 ": %u registers fail unexpectedly", name, address, result->failed);
    if (result->passed && is_known(address))
        problem("%s at 0x%05" PRIX32 ": %u registers pass that should fail", name, address, result->passed);
}

static const char *kind_of(const struct test *test)
{
    switch (test->test_type) {
    case WRITE_NO_TEST: return "written";
    case SET_READ_TEST: return "set";
    default: return "patterns";
    }
}

static void tell_why(const struct result *result)
{
    if (result->failed && result->absent == result->failed)
        printf("  no such register");
    else if (result->failed && !result->fewer)
        printf("  bits 0x%08" PRIX32 " keep written values", result->more);
    else if (result->failed)
        printf("  0x%05" PRIX32 " reads 0x%08" PRIX32 " for 0x%08" PRIX32, result->address, result->got,
               result->wanted);
    else if (result->without)
        printf("  no such register; it reads 0");
}

static void tell(const struct test *test, const char *name, const struct result *result)
{
    printf("%-16s 0x%05" PRIX32 " %4u  %-8s 0x%08" PRIX32, name, address_of(test, 0), test->array_len, kind_of(test),
           test->write);
    if (test->test_type != WRITE_NO_TEST) {
        printf(" 0x%08" PRIX32 " %6u %6u", test->mask, result->passed, result->failed);
        tell_why(result);
    }
    printf("\n");
}

static void try_status(void)
{
    uint32_t address = IXGBE_STATUS, before = get(address);
    put(address, STATUS_BITS);
    bool same = (get(address) & STATUS_BITS) == (before & STATUS_BITS);
    put(address, before);
    printf("STATUS, 0x%08" PRIX32 ", is unchanged after 0x%08" PRIX32 " is written: %s\n\n", before, STATUS_BITS,
           same ? "passes" : "fails");
    if (!same)
        problem("STATUS can be written");
}

static void try_table(void)
{
    unsigned int rows = 0, passed = 0, registers = 0, registers_passed = 0;
    printf("register         address count  test     writes     expects    passed failed\n");
    for (const struct test *test = tests; test->reg; test++) {
        struct result result = run(test);
        tell(test, names[test - tests], &result);
        if (test->test_type == WRITE_NO_TEST)
            continue;
        compare_with_known(test, names[test - tests], &result);
        rows++;
        passed += result.failed == 0;
        registers += test->array_len;
        registers_passed += result.passed;
    }
    printf("\n%u of the %u rows that test something pass, %u of their %u registers\n", passed, rows, registers_passed,
           registers);
    if (first_failed)
        printf("the driver's own test stops at its first failure, 0x%05" PRIX32 "\n", first_failed);
}

int main(int count, char **words)
{
    turns = count == 2 && strcmp(words[1], "--turn") == 0;
    if (count > 1 && !turns) {
        fprintf(stderr, "selftest [--turn]\n");
        return 3;
    }
    if (nic_open(&device, 0, 64, 1) != NIC_DONE) {
        fprintf(stderr, "selftest: can't create the device: out of memory\n");
        return 2;
    }
    try_status();
    try_table();
    nic_close(&device);
    return problems() ? 1 : 0;
}
