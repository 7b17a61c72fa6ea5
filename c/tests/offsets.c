/* The offsets of virtual functions: compares each register in the map in each mode with a table typed by hand. Then
   checks for all offsets of all virtual functions that an access by the virtual function and one at the address show
   the same word. */
#include "check.h"

enum { OFF, POOLS_16, POOLS_32, POOLS_64, FUNCTIONS = 63, END = 0x3000 };

/* The result for an offset of a virtual function in a mode; an address of 0 means none. */
static const struct line {
    uint32_t mode;
    uint8_t function, status;
    uint32_t offset, address;
} lines[] = {
    /* registers of which each virtual function has only one, for virtual function 3 */
    {POOLS_64, 3, NIC_DONE, 0x0000, 0x0030C}, /* PVFCTRL[3] */
    {POOLS_64, 3, NIC_DONE, 0x0008, 0x00008}, /* STATUS */
    {POOLS_64, 3, NIC_DONE, 0x0010, 0x042A4}, /* LINKS */
    {POOLS_64, 3, NIC_DONE, 0x0100, 0x00B0C}, /* PVTEICR[3] */
    {POOLS_64, 3, NIC_DONE, 0x0104, 0x00C0C}, /* PVTEICS[3] */
    {POOLS_64, 3, NIC_DONE, 0x0108, 0x00D0C}, /* PVTEIMS[3] */
    {POOLS_64, 3, NIC_DONE, 0x010C, 0x00E0C}, /* PVTEIMC[3] */
    {POOLS_64, 3, NIC_DONE, 0x0110, 0x00F0C}, /* PVTEIAC[3] */
    {POOLS_64, 3, NIC_DONE, 0x0114, 0x04D0C}, /* PVTEIAM[3] */
    {POOLS_64, 3, NIC_DONE, 0x0140, 0x04E0C}, /* PVTIVAR_MISC[3] */
    {POOLS_64, 3, NIC_DONE, 0x0200, 0x130C0}, /* PFMBMEM[48] */
    {POOLS_64, 3, NIC_DONE, 0x023C, 0x130FC}, /* PFMBMEM[63] */
    {POOLS_64, 3, NIC_DONE, 0x02FC, 0x04C0C}, /* PVFMAILBOX[3] */
    {POOLS_64, 3, NIC_DONE, 0x0300, 0x0EA0C}, /* PSRTYPE[3] */
    {POOLS_64, 3, NIC_DONE, 0x101C, 0x010DC}, /* VFGPRC[3] */
    {POOLS_64, 3, NIC_DONE, 0x201C, 0x0830C}, /* VFGPTC[3] */
    /* its vectors, a word for every two queues */
    {POOLS_64, 3, NIC_DONE, 0x0120, 0x1250C},
    {POOLS_64, 3, NIC_STRAY, 0x0124, 0},
    {POOLS_32, 3, NIC_DONE, 0x0124, 0x1251C},
    {POOLS_32, 3, NIC_STRAY, 0x0128, 0},
    {POOLS_16, 0, NIC_DONE, 0x012C, 0x1250C},
    {POOLS_16, 0, NIC_STRAY, 0x0130, 0},
    /* its queues: two with 64 pools, four with 32, eight with 16 */
    {POOLS_64, 3, NIC_DONE, 0x1058, 0x011D8},  /* RDT[7] */
    {POOLS_32, 3, NIC_DONE, 0x1058, 0x01358},  /* RDT[13] */
    {POOLS_64, 32, NIC_DONE, 0x1018, 0x0D018}, /* RDT[64] */
    {POOLS_64, 62, NIC_DONE, 0x1068, 0x0DF68}, /* RXDCTL[125] */
    {POOLS_32, 31, NIC_DONE, 0x20FC, 0x07FFC}, /* TDWBAH[127] */
    {POOLS_16, 15, NIC_DONE, 0x11D8, 0x0DFD8}, /* RDT[127] */
    {POOLS_16, 15, NIC_DONE, 0x21C0, 0x07FC0}, /* TDBAL[127] */
    {POOLS_64, 3, NIC_STRAY, 0x1080, 0},
    {POOLS_32, 3, NIC_STRAY, 0x1100, 0},
    {POOLS_16, 15, NIC_STRAY, 0x1200, 0},
    /* holes: missing queue registers, offsets between registers, and the physical function's own */
    {POOLS_64, 0, NIC_STRAY, 0x100C, 0},
    {POOLS_64, 0, NIC_STRAY, 0x2014, 0},
    {POOLS_64, 0, NIC_STRAY, 0x1019, 0},
    {POOLS_64, 0, NIC_STRAY, 0x0820, 0},
    {POOLS_64, 0, NIC_STRAY, UINT32_MAX, 0},
    /* virtual functions that don't exist */
    {OFF, 0, NIC_NO_GROUP, 0x1018, 0},
    {POOLS_16, 16, NIC_NO_GROUP, 0x1018, 0},
    {POOLS_32, 32, NIC_NO_GROUP, 0x0008, 0},
    {POOLS_64, 63, NIC_NO_GROUP, 0x0820, 0},
    {POOLS_64, 255, NIC_NO_GROUP, 0x0000, 0},
};

#define UNTOUCHED UINT32_C(0xA5A5A5A5)

enum { LINES = sizeof lines / sizeof *lines };

/* Compares nic_vf_address with the table. `others` are further bits of GCR_EXT, which must not matter. */
static void answers_the_table(uint32_t others)
{
    for (size_t k = 0; k < LINES; k++) {
        const struct line *it = &lines[k];
        uint32_t address = UNTOUCHED;
        ANSWERS(it->status, nic_vf_address(it->mode | others, it->function, it->offset, &address));
        CHECK(address == (it->status == NIC_DONE ? it->address : UNTOUCHED));
    }
}

static void counts_queues(void)
{
    static const uint32_t queues[] = {0, 8, 4, 2};
    for (uint32_t word = 0; word < 16; word++)
        CHECK(nic_pool_queues(word) == queues[word % 4]);
}

/* Checks the value that the virtual function reads at an offset without a register: all ones without a pool, otherwise
   0. */
static void is_stray(nic *n, uint8_t function, uint32_t offset, uint8_t status)
{
    uint32_t word = 1;
    ANSWERS(NIC_STRAY, nic_vf_read32(n, function, offset, &word));
    CHECK(status == (word ? NIC_NO_GROUP : NIC_STRAY) && (word == 0 || word == UINT32_MAX));
}

/* Checks that the offset and the physical function's address of the register show the same word after a write by the
   virtual function. Returns whether the offset has a register. */
static bool is_one_register(nic *n, uint32_t mode, uint8_t function, uint32_t offset)
{
    uint32_t address = UNTOUCHED, own = 1, word = 2;
    uint8_t status = nic_vf_address(mode, function, offset, &address);
    if (status != NIC_DONE) {
        is_stray(n, function, offset, status);
        return false;
    }
    if (offset != NIC_VFCTRL) /* (a reset) */
        ANSWERS(NIC_DONE, nic_vf_write32(n, function, offset, (uint32_t)chance()));
    ANSWERS(NIC_DONE, nic_vf_peek32(n, function, offset, &own));
    ANSWERS(NIC_DONE, nic_peek32(n, address, &word));
    CHECK(own == word);
    return true;
}

/* Counts the registers of all virtual functions. Tries each multiple of 4, and the offset after it. */
static unsigned registers_in(nic *n, uint32_t mode)
{
    unsigned count = 0;
    ANSWERS(NIC_DONE, nic_write32(n, NIC_GCR_EXT, mode));
    for (unsigned function = 0; function <= FUNCTIONS; function++)
        for (uint32_t offset = 0; offset <= END; offset += offset % 4 == 1 ? 3 : 1)
            count += is_one_register(n, mode, (uint8_t)function, offset);
    return count;
}

int main(void)
{
    nic n;
    unsigned count[4];
    answers_the_table(0);
    answers_the_table(UINT32_MAX - 3);
    counts_queues();
    ANSWERS(NIC_DONE, nic_open(&n, FUNCTIONS, 1, 1));
    for (uint32_t mode = OFF; mode <= POOLS_64; mode++)
        count[mode] = registers_in(&n, mode);
    nic_close(&n);
    /* 30 registers in a virtual function, 15 in each of its queues, and a word of vectors for every two queues */
    CHECK(count[OFF] == 0 && count[POOLS_16] == 16 * (30 + 8 * 15 + 4));
    CHECK(count[POOLS_32] == 32 * (30 + 4 * 15 + 2) && count[POOLS_64] == 63 * (30 + 2 * 15 + 1));
    printf("%d offsets by hand, %u by accesses\n", LINES, count[POOLS_16] + count[POOLS_32] + count[POOLS_64]);
    return 0;
}
