/* What docs/port.md shows besides its example: an address from an EEPROM image, and a handler that keeps frames for
   `receive`. */
#include <stdbool.h>
#include <stdint.h>
#include <string.h>

#include "nic82599.h"

enum { SLOTS = 2, BYTES = 64, BLOCKS = 16 };

static struct {
    uint8_t bytes[BYTES];
    unsigned length;
} waiting[SLOTS];
static unsigned in, out; /* frames kept, and frames returned */

static void keep(void *context, const void *frame, unsigned length)
{
    (void)context;
    if (in - out < SLOTS) {
        waiting[in % SLOTS].length = length;
        memcpy(waiting[in++ % SLOTS].bytes, frame, length);
    }
}

static bool has_its_address(void)
{
    nic n;
    if (nic_open(&n, 0, 64, BLOCKS) != NIC_DONE)
        return false;
    static const char image[] = "size 128\ncsr 0xA200 0x00000002\ncsr 0xA204 0x80000100\n";
    uint64_t line;
    nic_install_text(&n, (const uint8_t *)image, strlen(image), &line);
    nic_write32(&n, NIC_CTRL, NIC_CTRL_RST);
    bool is_there = nic_get(&n, NIC_RAL(0)) == 0x00000002 && nic_get(&n, NIC_RAH(0)) == 0x80000100;
    nic_close(&n);
    return is_there;
}

static bool keeps_what_fits(void)
{
    static const uint8_t frame[60] = {1, 2, 3};
    for (unsigned i = 0; i < SLOTS + 1; i++)
        keep(NULL, frame, sizeof frame);
    return in == SLOTS && waiting[0].length == sizeof frame && memcmp(waiting[1].bytes, frame, sizeof frame) == 0;
}

int main(void)
{
    return has_its_address() && keeps_what_fits() ? 0 : 1;
}
