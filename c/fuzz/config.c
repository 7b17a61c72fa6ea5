/* Makes accesses to a function's configuration space. An operation is a byte (1, 2 or 4 bytes; read or write; what to
   check after it), two bytes of offset, and four of value. A write must not change a read-only bit, or anything outside
   its bytes. */
#include "input.h"
#include "pci_config.h"

/* Checks a write: it changed only bits that the mask allows, only in the bytes that it addressed, and kept the mask. */
static void check_write(const struct pci_config *before, const struct pci_config *after, unsigned int at,
                        unsigned int bytes)
{
    for (unsigned int k = 0; k < PCI_CONFIG_BYTES; k++) {
        uint8_t changed = before->bytes[k] ^ after->bytes[k];
        MUST(!(changed & ~before->mask[k]));
        MUST(!changed || (k >= at && k < at + bytes));
        MUST(before->mask[k] == after->mask[k]);
    }
}

static void act(struct pci_config *it, struct input *input)
{
    static struct pci_config before;
    uint8_t what = input_byte(input);
    unsigned int bytes = 1u << what % 3, at = input_short(input);
    uint32_t value = input_word(input);
    before = *it;
    if (what & 4) {
        uint32_t word = pci_config_read(it, at, bytes);
        MUST(word == UINT32_MAX || bytes == 4 || word < 1u << 8 * bytes); /* (beyond the space all bits read as 1) */
        MUST(memcmp(before.bytes, it->bytes, sizeof it->bytes) == 0);
    } else {
        pci_config_write(it, at, bytes, value);
        check_write(&before, it, at, bytes);
    }
    if (what & 8)
        pci_takes_reset(it);
    if (what & 16)
        pci_msix_is_on(it);
}

int LLVMFuzzerTestOneInput(const uint8_t *bytes, size_t length)
{
    static struct pci_config config;
    struct input input = {bytes, length, 0};
    pci_config_of_82599(&config, input_byte(&input) % 2, 0xE0000000);
    while (!input_is_over(&input))
        act(&config, &input);
    return 0;
}
