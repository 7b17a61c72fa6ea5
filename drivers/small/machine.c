#include "machine.h"

/* --- ports --- */

static void out8(uint16_t port, uint8_t byte)
{
    __asm__ volatile("outb %0, %1" : : "a"(byte), "Nd"(port));
}

static void out32(uint16_t port, uint32_t word)
{
    __asm__ volatile("outl %0, %1" : : "a"(word), "Nd"(port));
}

static uint8_t in8(uint16_t port)
{
    uint8_t byte;
    __asm__ volatile("inb %1, %0" : "=a"(byte) : "Nd"(port));
    return byte;
}

static uint32_t in32(uint16_t port)
{
    uint32_t word;
    __asm__ volatile("inl %1, %0" : "=a"(word) : "Nd"(port));
    return word;
}

/* --- the serial line, COM1 --- */

enum { COM1 = 0x3F8, LINE_STATUS = COM1 + 5, ROOM = 0x20 };

static void put(char byte)
{
    while (!(in8(LINE_STATUS) & ROOM)) {
    }
    out8(COM1, (uint8_t)byte);
}

void say(const char *text)
{
    for (; *text; text++)
        put(*text);
}

void say_hex(uint32_t number, unsigned digits)
{
    while (digits-- > 0)
        put("0123456789abcdef"[number >> 4 * digits & 0xF]);
}

/* --- PCI configuration, through ports 0xCF8 and 0xCFC --- */

enum { CONFIG_ADDRESS = 0xCF8, CONFIG_DATA = 0xCFC };

static void choose(struct pci_function it, uint8_t offset)
{
    out32(CONFIG_ADDRESS, UINT32_C(1) << 31 | (uint32_t)it.bus << 16 | (uint32_t)it.device << 11 |
                              (uint32_t)it.function << 8 | (offset & 0xFC));
}

uint32_t pci_read(struct pci_function it, uint8_t offset)
{
    choose(it, offset);
    return in32(CONFIG_DATA);
}

void pci_write(struct pci_function it, uint8_t offset, uint32_t word)
{
    choose(it, offset);
    out32(CONFIG_DATA, word);
}

struct pci_function pci_find(uint16_t vendor, uint16_t device)
{
    struct pci_function it = {0};
    for (unsigned place = 0; place < 256 * 32 * 8; place++) {
        it = (struct pci_function){(uint8_t)(place >> 8), place >> 3 & 31, place & 7, true};
        if (pci_read(it, 0) == ((uint32_t)device << 16 | vendor))
            return it;
    }
    it.found = false;
    return it;
}

/* --- interrupts: two 8259 controllers, the second at line 2 of the first --- */

enum { FIRST = 0x20, SECOND = 0xA0, VECTORS = 0x20, CASCADE = 2, SPURIOUS = 15, END = 0x20 };

struct gate {
    uint16_t low, segment, kind, high;
};

static struct gate gates[256];

static void set_gate(unsigned vector, void (*handler)(void))
{
    uint32_t at = (uint32_t)handler;
    gates[vector] = (struct gate){(uint16_t)at, 0x08, 0x8E00, (uint16_t)(at >> 16)};
}

/* Lines 0 to 15 raise vectors 0x20 to 0x2F; all start masked. */
static void start_controllers(void)
{
    out8(FIRST, 0x11);
    out8(SECOND, 0x11);
    out8(FIRST + 1, VECTORS);
    out8(SECOND + 1, VECTORS + 8);
    out8(FIRST + 1, 1 << CASCADE);
    out8(SECOND + 1, CASCADE);
    out8(FIRST + 1, 0x01);
    out8(SECOND + 1, 0x01);
    out8(FIRST + 1, 0xFF);
    out8(SECOND + 1, 0xFF);
}

extern void on_line(void), on_spurious(void), on_other(void);

/* Calls `on_line` for this line or message. The controllers raise none until one of their lines is opened. */
static void start_interrupts(unsigned number)
{
    struct {
        uint16_t limit;
        uint32_t base;
    } __attribute__((packed)) table = {sizeof gates - 1, (uint32_t)gates};
    for (unsigned vector = 0; vector < 256; vector++)
        set_gate(vector, on_other);
    set_gate(VECTORS + SPURIOUS, on_spurious);
    set_gate(VECTORS + number, on_line);
    __asm__ volatile("lidt %0" : : "m"(table));
    start_controllers();
}

void take_line(uint8_t number)
{
    start_interrupts(number);
    uint16_t open = (uint16_t)(1u << number | 1u << CASCADE);
    out8(FIRST + 1, (uint8_t)~open);
    out8(SECOND + 1, (uint8_t)(~open >> 8));
}

/* --- messages, at the processor's local APIC --- */

enum { APIC_NUMBER = 0x20, APIC_END = 0xB0, APIC_SPURIOUS = 0xF0, APIC_ON = 0x100, NO_VECTOR = 0xFF };
#define APIC UINT32_C(0xFEE00000)

static volatile uint32_t *apic(uint32_t at)
{
    return (volatile uint32_t *)(APIC + at);
}

struct message take_message(void)
{
    start_interrupts(MESSAGE);
    *apic(APIC_SPURIOUS) = APIC_ON | NO_VECTOR;
    return (struct message){APIC | *apic(APIC_NUMBER) >> 24 << 12, VECTORS + MESSAGE};
}

void end_of_interrupt(uint8_t number)
{
    if (number == MESSAGE) {
        *apic(APIC_END) = 0;
        return;
    }
    if (number >= 8)
        out8(SECOND, END);
    out8(FIRST, END);
}

/* If a line drops too early, the controllers report line 15. The second controller doesn't count line 15 as in service.
   The first controller does, and blocks the second controller's interrupts until it gets an EOI. */
void end_of_spurious(void)
{
    out8(FIRST, END);
}

void sleep_until_interrupt(void)
{
    /* (the processor takes no interrupt between `sti` and the next instruction) */
    __asm__ volatile("sti; hlt; cli" : : : "memory");
}

void wait_us(unsigned count)
{
    /* a write to the unused port 0x80 takes about a microsecond */
    while (count-- > 0)
        out8(0x80, 0);
}
