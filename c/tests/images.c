/* An EEPROM image: `images IMAGE TEXT` installs the image from its bytes and from its textual description, and reads
   its words with EERD. */
#include "check.h"

static uint8_t bytes[65536];

static size_t contents(const char *name)
{
    FILE *file = fopen(name, "rb");
    size_t length;
    CHECK(file);
    length = fread(bytes, 1, sizeof bytes, file);
    CHECK(length < sizeof bytes && fclose(file) == 0);
    return length;
}

static uint32_t word_at(nic *n, uint32_t index)
{
    nic_outcome outcome;
    ANSWERS(NIC_DONE, nic_write32(n, NIC_EERD, NIC_EERD_ADDR_IS(index) | NIC_EERD_START));
    ANSWERS(NIC_DONE, nic_eeprom_step(n, &outcome));
    ANSWERS(NIC_IDLE, nic_eeprom_step(n, &outcome));
    CHECK(nic_get(n, NIC_EERD) & NIC_EERD_DONE);
    return nic_field(nic_get(n, NIC_EERD), NIC_EERD_DATA);
}

static void holds_the_image(nic *n, size_t length)
{
    for (uint32_t index = 0; 2 * index < length; index++)
        CHECK(word_at(n, index) == (uint32_t)(bytes[2 * index] | bytes[2 * index + 1] << 8));
}

/* A reset writes what the CSR section of examples/image.eeprom says. */
static void resets(nic *n)
{
    nic_write32(n, NIC_CTRL, NIC_CTRL_RST);
    CHECK(nic_get(n, NIC_FCTRL) == 0x400 && nic_get(n, NIC_MAXFRS) == 0x25800000);
}

int main(int words, char **word)
{
    nic n;
    uint64_t line = 9;
    size_t length;
    CHECK(words == 3);
    ANSWERS(NIC_DONE, nic_open(&n, 0, 1, 1));
    length = contents(word[1]);
    ANSWERS(NIC_DONE, nic_install_image(&n, bytes, length));
    holds_the_image(&n, length);
    resets(&n);
    bytes[0] ^= 1;
    ANSWERS(NIC_IMAGE_BAD_CHECKSUM, nic_install_image(&n, bytes, length));
    bytes[0] ^= 1;
    holds_the_image(&n, length);
    nic_close(&n);
    ANSWERS(NIC_DONE, nic_open(&n, 0, 1, 1));
    length = contents(word[2]);
    ANSWERS(NIC_DONE, nic_install_text(&n, bytes, length, &line));
    CHECK(line == 0);
    length = contents(word[1]);
    holds_the_image(&n, length);
    resets(&n);
    nic_close(&n);
    return 0;
}
