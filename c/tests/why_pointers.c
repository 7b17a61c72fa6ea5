/* Checks what nic_why says about memory in place if a driver wrote a pointer as a bus address. */
#include <inttypes.h>
#include <string.h>

#include "check.h"

enum { BUS = 0x2000, BLOCKS = 4, BYTES = BLOCKS * NIC_BLOCK_BYTES, ON = 0x02000000, OFFSET = 0x800 };

static uint8_t *memory;
static unsigned tried;

/* Opens a controller with a ring of eight slots on each side. The device owns the first slot of each. */
static void open(nic *n, uint64_t ring, uint64_t buffer)
{
    nic_desc *rx = (nic_desc *)(void *)memory;
    memset(memory, 0, BYTES);
    rx[0] = nic_rx_desc(buffer);
    rx[1] = nic_tx_desc(buffer, 60, 60, NIC_TXD_EOP | NIC_TXD_IFCS);
    ANSWERS(NIC_DONE, nic_open(n, 0, 64, 16));
    ANSWERS(NIC_DONE, nic_lend_memory(n, BUS, memory, BYTES));
    nic_write32(n, NIC_RDBAL(0), (uint32_t)ring);
    nic_write32(n, NIC_RDBAH(0), (uint32_t)(ring >> 32));
    nic_write32(n, NIC_RDLEN(0), 128);
    nic_write32(n, NIC_SRRCTL(0), NIC_SRRCTL_DESCTYPE_IS(1) | NIC_SRRCTL_BSIZEPACKET_IS(2));
    nic_write32(n, NIC_RDT(0), 1);
}

/* Checks whether the explanation contains this part of a line. */
static void has(nic *n, bool is_there, const char *format, uint64_t first, uint64_t second, uint64_t third)
{
    char text[4096], want[256];
    nic_why(n, text, sizeof text);
    snprintf(want, sizeof want, format, first, second, third);
    if (!strstr(text, want) == is_there) {
        fprintf(stderr, "%s`%s` in:\n%s", is_there ? "not " : "", want, text);
        exit(1);
    }
    tried++;
}

#define HEX "0x%" PRIx64
#define POINTER HEX " is a pointer in the program; the bus address of that byte is " HEX "\n"
#define LOW HEX " is the low half of the program's pointer " HEX "; the bus address there is " HEX "\n"

static void rings(void)
{
    nic n;
    uint64_t at = (uint64_t)(uintptr_t)memory;
    open(&n, at, BUS + OFFSET);
    has(&n, true, "rx 0: " POINTER, at, BUS, 0);
    nic_close(&n);
    open(&n, (uint32_t)at, BUS + OFFSET);
    has(&n, at > UINT32_MAX, "rx 0: " LOW, (uint32_t)at, at, BUS);
    nic_close(&n);
    open(&n, 0x6000, BUS + OFFSET);
    has(&n, true, "rx 0: " HEX " is in block 12", 0x6000, 0, 0);
    has(&n, false, "the bus address", 0, 0, 0);
    nic_close(&n);
    open(&n, at + BYTES, BUS + OFFSET); /* after the lent memory */
    has(&n, false, "the bus address", 0, 0, 0);
    nic_close(&n);
}

static void buffers(void)
{
    nic n;
    uint64_t at = (uint64_t)(uintptr_t)memory;
    open(&n, BUS, at + OFFSET + 4);
    has(&n, true, "rx 0: " POINTER, at + OFFSET + 4, BUS + OFFSET + 4, 0);
    nic_write32(&n, NIC_TDBAL(0), BUS); /* the transmit descriptor is in this ring's slot 1 */
    nic_write32(&n, NIC_TDLEN(0), 128);
    nic_write32(&n, NIC_TDH(0), 1);
    nic_write32(&n, NIC_TDT(0), 2);
    has(&n, true, "tx 0: " POINTER, at + OFFSET + 4, BUS + OFFSET + 4, 0);
    ANSWERS(NIC_DONE, nic_unlend_memory(&n, BUS + OFFSET, NIC_BLOCK_BYTES));
    has(&n, false, "the bus address", 0, 0, 0);
    nic_close(&n);
    open(&n, BUS, BUS + OFFSET);
    has(&n, false, "lent", 0, 0, 0);
    nic_close(&n);
}

int main(void)
{
    uint8_t *room = malloc(BYTES + NIC_BLOCK_BYTES);
    CHECK(room);
    memory = (uint8_t *)(((uintptr_t)room + NIC_BLOCK_BYTES - 1) / NIC_BLOCK_BYTES * NIC_BLOCK_BYTES);
    rings();
    buffers();
    free(room);
    printf("%u checks of pointers\n", tried);
    return 0;
}
