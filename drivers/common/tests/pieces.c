/* Tests of the code for runs of compiled drivers: trapping registers, configuration space, a virtual function's PF
   driver, legacy descriptors. */
#ifndef _POSIX_C_SOURCE
#define _POSIX_C_SOURCE 200809L /* fileno */
#endif
#include <signal.h>
#include <string.h>
#include <sys/wait.h>
#include <unistd.h>

#include "check.h"
#include "decode.h"
#include "function_host.h"
#include "legacy.h"
#include "pci_config.h"
#include "run.h"
#include "trap.h"
#include "verdict.h"
#include "window.h"

enum { RING = 0x1000, BUFFER = 0x2000, SLOTS = 8, FIRST_BUS = 0x8000, BYTES = 0x4000, QUEUE = 4, LENGTH = 64 };

static uint8_t host_memory[BYTES];
static uint8_t sent[LENGTH];
static unsigned int halts, frames_sent;

/* ---- registers that trap ---- */

static volatile uint32_t *at(unsigned int function, uint32_t offset)
{
    return (volatile uint32_t *)((char *)window_of(function) + offset);
}

static void on_halt(void)
{
    halts++;
}

static void registers_trap(void)
{
    static const struct trap_hooks privileged = {.halt = on_halt, .has_ports = true};
    uint32_t word = 0;
    CHECK(run_open(&(struct bus_options){.fifo = 1, .functions = 1}, false) && window_open(1) &&
          trap_open(&privileged));
    *at(BUS_PHYSICAL, NIC_LEDCTL) = 0x12345678; /* an immediate operand, */
    CHECK(*at(BUS_PHYSICAL, NIC_LEDCTL) == 0x12345678 && bus_peek(run_bus, NIC_LEDCTL) == 0x12345678);
    for (word = 1; word; word <<= 1) { /* and a register operand */
        *at(BUS_PHYSICAL, NIC_LEDCTL) = word;
        CHECK(*at(BUS_PHYSICAL, NIC_LEDCTL) == word);
    }
    *at(BUS_PHYSICAL, NIC_GCR_EXT) = 3;
    *at(1, NIC_VTEIAM) = 5;
    CHECK(*at(1, NIC_VTEIAM) == 5 && trap_count() == 2 + 64 + 3);
    __asm__ volatile("hlt");
    __asm__ volatile("inl %%dx, %%eax" : "=a"(word) : "d"(0x3F8), "a"(0));
    CHECK(halts == 1 && word == UINT32_MAX);
    __asm__ volatile("inb %%dx, %%al" : "=a"(word) : "d"(0x3F8), "a"(0));
    CHECK(word == 0xFF);
    __asm__ volatile("outb %%al, $0x80" : : "a"(1));
    trap_close();
    window_close();
    run_close();
}

/* Tests each addressing form that compilers emit. */
static void addresses_are_read_whole(void)
{
    char *base = NULL;
    uint32_t word = 7;
    CHECK(run_open(&(struct bus_options){.fifo = 1}, false) && window_open(0) && trap_open(NULL));
    base = window_of(0);
    __asm__ volatile("movl %0, 0x200(%1)" : : "r"(word), "r"(base) : "memory");
    CHECK(bus_peek(run_bus, NIC_LEDCTL) == 7);
    __asm__ volatile("movl %0, (%1, %2, 8)" : : "r"(8), "r"(base), "r"((uint64_t)NIC_LEDCTL / 8) : "memory");
    CHECK(bus_peek(run_bus, NIC_LEDCTL) == 8);
    __asm__ volatile("movl $9, 0x100(%0, %1, 4)" : : "r"(base), "r"((uint64_t)0x40) : "memory");
    CHECK(bus_peek(run_bus, NIC_LEDCTL) == 9);
    __asm__ volatile("movq %1, %%r12\n movl %2, %%r9d\n movl %%r9d, 0x200(%%r12)\n movl 0x200(%%r12), %0"
                     : "=r"(word)
                     : "r"(base), "r"(10)
                     : "r9", "r12", "memory");
    CHECK(word == 10);
    trap_close();
    window_close();
    run_close();
}

/* Checks that an access that the bus can't serve ends the process with status 4, and that its message begins so. */
static void ends(void (*does)(void), const char *message)
{
    int status = 0;
    char line[400] = "";
    FILE *said = tmpfile();
    CHECK(said);
    fflush(NULL);
    pid_t child = fork();
    if (child == 0) {
        if (dup2(fileno(said), 2) < 0)
            _exit(1);
        does();
        _exit(0);
    }
    CHECK(child > 0 && waitpid(child, &status, 0) == child && WIFEXITED(status) && WEXITSTATUS(status) == 4);
    rewind(said);
    CHECK(fgets(line, sizeof line, said) && strncmp(line, message, strlen(message)) == 0);
    fclose(said);
}

static void two_words(void)
{
    *(volatile uint64_t *)at(BUS_PHYSICAL, NIC_LEDCTL) = 1;
}

static void one_byte(void)
{
    *(volatile uint8_t *)at(BUS_PHYSICAL, NIC_LEDCTL) = 1;
}

static void half_a_word(void)
{
    *(volatile uint16_t *)at(1, NIC_VTEIAM) = 1;
}

static void copied(void)
{
    void *to = host_memory, *from = window_of(0);
    uint64_t count = 1;
    __asm__ volatile("rep movsl" : "+D"(to), "+S"(from), "+c"(count) : : "memory");
}

static void jump(void)
{
    __asm__ volatile("call *%0" : : "r"(window_of(0)) : "memory");
}

static void elsewhere(void)
{
    __asm__ volatile("movl (%0), %%eax" : : "r"(UINT64_C(0x10)) : "eax", "memory");
}

static void other_accesses_end_it(void)
{
    static const uint8_t vector_load[] = {0xC5, 0xF9, 0x6E, 0x03};
    struct decoded decoded;
    CHECK(run_open(&(struct bus_options){.fifo = 1, .functions = 1}, false) && window_open(1) && trap_open(NULL));
    CHECK((uintptr_t)window_of(0) % BUS_SPACE == 0); /* aligned as a BAR is */
    ends(two_words, "trap: LEDCTL (0x00200): a 64-bit access: the instruction at 0x");
    ends(one_byte, "trap: LEDCTL (0x00200): an 8-bit access: the instruction at 0x");
    ends(half_a_word, "trap: virtual function 0, VTEIAM (0x00114): a 16-bit access: the instruction at 0x");
    ends(copied, "trap: CTRL (0x00000): a string instruction, as in memcpy: the instruction at 0x");
    ends(jump, "trap: a jump into the registers: the instruction at 0x");
    ends(elsewhere, "trap: a fault outside the registers: the instruction at 0x");
    CHECK(strcmp(decode(vector_load, &decoded), "an AVX or BMI instruction") == 0);
    CHECK(!window_has((char *)window_of(0) - 1) && window_has(window_of(0)));
    trap_close();
    window_close();
    run_close();
}

/* ---- configuration space ---- */

static void configuration_space_is_the_cards(void)
{
    struct pci_config config;
    pci_config_of_82599(&config, BUS_PHYSICAL, UINT64_C(0x7F1234560000));
    CHECK(pci_config_read(&config, 0, 4) == 0x10FB8086 && pci_config_read(&config, 2, 2) == 0x10FB);
    CHECK(pci_config_read(&config, 0x10, 4) == 0x34560004 && pci_config_read(&config, 0x14, 4) == 0x7F12);
    pci_config_write(&config, 0x10, 4, UINT32_MAX); /* reads back the size of BAR 0 */
    CHECK(pci_config_read(&config, 0x10, 4) == (uint32_t)(~(BUS_SPACE - 1) | 4));
    pci_config_write(&config, 0, 4, 0);
    CHECK(pci_config_read(&config, 0, 4) == 0x10FB8086);
    CHECK(pci_config_read(&config, 0x34, 1) == 0x40 && pci_config_read(&config, 0x41, 1) == 0xA0);
    CHECK(pci_config_read(&config, 254, 4) == UINT32_MAX && pci_config_read(&config, ~0u, 4) == UINT32_MAX);
    CHECK(pci_config_read(&config, 0, 3) == UINT32_MAX && pci_config_read(&config, 0, 8) == UINT32_MAX);
    pci_config_write(&config, 254, 4, 0);
    pci_config_write(&config, ~0u, 1, 0);
    pci_config_of_82599(&config, 3, 0x8000);
    CHECK(pci_config_read(&config, 0, 4) == 0x10ED8086 && config.reads == 1);
    pci_config_write(&config, 0x10, 4, UINT32_MAX);
    CHECK(pci_config_read(&config, 0x10, 4) == (uint32_t)(~(BUS_FUNCTION_SPACE - 1) | 4));
}

/* ---- a virtual function's PF driver ---- */

static void request_comes(unsigned int function)
{
    function_host_written(NULL, &(struct bus_access){.function = function, .offset = NIC_VFMAILBOX});
}

/* Sends virtual function 1's request with a second word, and returns the first word of the reply. */
static uint32_t asks(uint32_t first, uint32_t second)
{
    bus_write(run_bus, 2, NIC_VFMAILBOX, NIC_PVFMAILBOX_VFU);
    bus_write(run_bus, 2, NIC_VFMBMEM(0), first);
    bus_write(run_bus, 2, NIC_VFMBMEM(1), second);
    bus_write(run_bus, 2, NIC_VFMAILBOX, NIC_PVFMAILBOX_REQ);
    request_comes(2);
    bus_read(run_bus, 2, NIC_VFMAILBOX);
    return bus_read(run_bus, 2, NIC_VFMBMEM(0));
}

static void a_host_answers(void)
{
    static const uint8_t mac[6] = {2, 1, 2, 3, 4, 5};
    CHECK(run_open(&(struct bus_options){.fifo = 1, .functions = 2}, false));
    function_host_begin(1, mac);
    CHECK(asks(1, 0) == 0xA0000001 && bus_read(run_bus, 2, NIC_VFMBMEM(1)) == 0x03020102 &&
          bus_read(run_bus, 2, NIC_VFMBMEM(2)) == 0x0504);
    CHECK(bus_peek(run_bus, NIC_RAL(2)) == 0x03020102 && bus_peek(run_bus, NIC_MPSAR(4)) == 2 &&
          bus_peek(run_bus, NIC_MPSAR(5)) == 0);
    CHECK(asks(8, 2) == 0xA0000008 && asks(8, 3) == 0x60000008 && asks(9, 0) == 0xA0000009);
    CHECK(bus_read(run_bus, 2, NIC_VFMBMEM(1)) == 1 && asks(0x33, 0) == 0x60000033 &&
          asks(2, 0x66778802) == 0xA0000002);
    CHECK(bus_peek(run_bus, NIC_RAL(2)) == 0x66778802);
    request_comes(1); /* another virtual function's request is ignored */
    CHECK(function_host_ping() && bus_read(run_bus, 2, NIC_VFMBMEM(0)) == 0x20000100);
    bus_write(run_bus, 2, NIC_VFMAILBOX, NIC_PVFMAILBOX_VFU);
    CHECK(!function_host_ping());
    run_close();
}

/* ---- legacy descriptors ---- */

static void put(uint32_t offset, uint64_t value)
{
    memcpy(host_memory + offset, &value, sizeof value);
}

static uint64_t get(uint32_t offset)
{
    uint64_t value;
    memcpy(&value, host_memory + offset, sizeof value);
    return value;
}

static void on_sent(void *of, uint16_t queue, const uint8_t *frame, size_t length)
{
    (void)of;
    CHECK(queue == QUEUE && length == LENGTH);
    memcpy(sent, frame, length);
    frames_sent++;
}

static void open_legacy(void)
{
    const struct bus_options options = {
        .fifo = 4,
        .acts_at_writes = true,
        .calls = {.writing = legacy_writing, .read = legacy_read, .filled = legacy_filled},
    };
    legacy_begin();
    CHECK(run_open(&options, false));
    memset(host_memory, 0, sizeof host_memory);
    CHECK(memory_lend(&run_memory, FIRST_BUS, host_memory, BYTES));
}

static void start_ring(uint32_t first, uint32_t control)
{
    bus_write(run_bus, BUS_PHYSICAL, first, FIRST_BUS + RING);
    bus_write(run_bus, BUS_PHYSICAL, first + 8, SLOTS * BUS_SLOT);
    bus_write(run_bus, BUS_PHYSICAL, control, NIC_TXDCTL_ENABLE);
}

static void legacy_descriptors_send(void)
{
    open_legacy();
    bus_send_to(run_bus, on_sent, NULL);
    bus_write(run_bus, BUS_PHYSICAL, NIC_DMATXCTL, NIC_DMATXCTL_TE);
    start_ring(NIC_TDBAL(QUEUE), NIC_TXDCTL(QUEUE));
    host_memory[BUFFER + 1] = 77;
    put(RING, FIRST_BUS + BUFFER);
    put(RING + 8, 0x0B000000 | LENGTH); /* EOP, IFCS, RS */
    bus_write(run_bus, BUS_PHYSICAL, NIC_TDT(QUEUE), 1);
    /* DD, at its legacy position */
    CHECK(frames_sent == 1 && sent[1] == 77 && legacy_sent() == 1 && get(RING + 8) >> 32 & 1);
    put(RING + 16, FIRST_BUS + BUFFER);
    put(RING + 24, 0x0F000000 | LENGTH); /* with a checksum: a fault, because it isn't translated */
    bus_write(run_bus, BUS_PHYSICAL, NIC_TDT(QUEUE), 2);
    CHECK(legacy_sent() == 1 && bus_counts(run_bus)->fault_whys[NIC_FAULT_LEGACY] == 1);
    bus_send_to(run_bus, NULL, NULL);
    run_close();
    legacy_end();
}

static void legacy_descriptors_receive(uint32_t srrctl, bool is_legacy)
{
    static uint8_t frame[LENGTH] = {2, 0, 0, 0, 0, 1};
    open_legacy();
    bus_write(run_bus, BUS_PHYSICAL, NIC_RXCTRL, NIC_RXCTRL_RXEN);
    bus_write(run_bus, BUS_PHYSICAL, NIC_FCTRL, NIC_FCTRL_UPE);
    bus_write(run_bus, BUS_PHYSICAL, NIC_MRQC, NIC_MRQC_MRQE_IS(1));
    for (uint32_t word = 0; word < NIC_RETA_COUNT; word++)
        bus_write(run_bus, BUS_PHYSICAL, NIC_RETA(word), 0);
    bus_write(run_bus, BUS_PHYSICAL, 0x02100, srrctl); /* SRRCTL[0], by its other address */
    CHECK(bus_read(run_bus, BUS_PHYSICAL, NIC_SRRCTL(0)) == srrctl);
    start_ring(NIC_RDBAL(0), NIC_RXDCTL(0));
    for (uint32_t slot = 0; slot < SLOTS; slot++)
        put(RING + BUS_SLOT * slot, FIRST_BUS + BUFFER);
    bus_write(run_bus, BUS_PHYSICAL, NIC_RDT(0), SLOTS - 1);
    CHECK(bus_arrive(run_bus, frame, sizeof frame) && bus_receive(run_bus) == 1 && legacy_received() == is_legacy);
    if (is_legacy)
        CHECK(get(RING) == FIRST_BUS + BUFFER && get(RING + 8) == (UINT64_C(3) << 32 | LENGTH));
    else
        CHECK(get(RING + 8) == ((uint64_t)LENGTH << 32 | 3));
    run_close();
    legacy_end();
}

int main(void)
{
    registers_trap();
    addresses_are_read_whole();
    other_accesses_end_it();
    configuration_space_is_the_cards();
    a_host_answers();
    legacy_descriptors_send();
    legacy_descriptors_receive(NIC_SRRCTL_BSIZEPACKET_IS(2), true);
    legacy_descriptors_receive(NIC_SRRCTL_BSIZEPACKET_IS(2) | NIC_SRRCTL_DESCTYPE_IS(1), false);
    CHECK(problems() == 0);
    printf("pieces: passed\n");
    return 0;
}
