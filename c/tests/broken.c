/* Checks the effects of an internal fault of the library, with a library of the plain edition that contains a planted
   fault (dev/check_broken). The call and each call after it return BROKEN, another controller is unaffected, and the
   caller gets its memory back, even if it only closes the controller. Prints how many calls returned BROKEN. */
#include "check.h"
#include "nic82599.h"
#include <stdlib.h>
#include <string.h>

static unsigned broken;

/* Counts a status; after the first BROKEN, every status must be BROKEN. */
static void print_status(uint8_t status)
{
    CHECK(!broken || status == NIC_BROKEN);
    broken += status == NIC_BROKEN;
}

static void all_calls(nic *n, uint8_t *own)
{
    static const uint8_t frame[60] = {2};
    nic_kept kept = {0};
    nic_outcome report;
    nic_settling where = {2, 0};
    uint8_t bytes[64];
    uint32_t word;
    uint64_t line;
    size_t count = 1;
    print_status(nic_lend_memory(n, 0x1000, own, 2 * NIC_BLOCK_BYTES));
    print_status(nic_write32(n, NIC_RXCTRL, 1));
    print_status(nic_read32(n, NIC_RXCTRL, &word));
    print_status(nic_vf_peek32(n, 0, 8, &word));
    print_status(nic_lend(n, 0));
    print_status(nic_dma_write(n, 0x1000, frame, sizeof frame));
    print_status(nic_dma_read(n, 0x1000, bytes, sizeof bytes));
    print_status(nic_arrive(n, frame, sizeof frame, &report));
    print_status(nic_rx_step(n, &report));
    print_status(nic_settle(n, 2, &report, 1, &count));
    CHECK(count <= 1);
    print_status(nic_next_step(n, &where, &report));
    print_status(nic_snapshot(n, &kept));
    if (kept.kept)
        print_status(nic_restore(n, &kept));
    nic_drop_snapshot(&kept);
    print_status(nic_install_text(n, (const uint8_t *)"size 64\n", 8, &line));
    print_status(nic_collect(n, bytes, sizeof bytes, &report));
    print_status(nic_take(n, 0));
}

int main(int count, char **words)
{
    nic n, other;
    uint8_t *own = calloc(2, NIC_BLOCK_BYTES);
    CHECK(own && count == 2);
    CHECK(nic_open(&other, 1, 64, 16) == NIC_DONE && nic_open(&n, 1, 64, 16) == NIC_DONE);
    all_calls(&n, own);
    if (strcmp(words[1], "unlend") == 0) {
        uint8_t status = nic_unlend_memory(&n, 0x1000, 2 * NIC_BLOCK_BYTES);
        CHECK(broken ? status != NIC_DONE : status == NIC_DONE || status == NIC_BROKEN);
    }
    nic_close(&n);
    free(own);
    if (broken)
        CHECK(nic_write32(&other, NIC_RXCTRL, 1) == NIC_DONE);
    nic_close(&other);
    printf("%u\n", broken);
    return 0;
}
