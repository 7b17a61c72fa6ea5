/* Descriptors of a transmit queue with offload requests for the server: checksums, TSO, tags. The input is a byte with
   the number of descriptors, the 16-byte descriptors, and the bytes of their frames. The queue's ring and the card are
   set up as by a driver. */
#include "guest.h"
#include "input.h"
#include "nic82599.h"

#define SLOTS 64u
#define RING 0x2000u
#define DATA 0x10000u /* start of the frames' bytes; addresses of descriptors follow it */
#define DATA_BYTES (GUEST_BYTES - DATA)

static void set_up(struct guest *it)
{
    guest_greet(it);
    guest_write(it, NIC_DMATXCTL, NIC_DMATXCTL_TE);
    guest_write(it, NIC_HLREG0, NIC_HLREG0_JUMBOEN);
    guest_write(it, NIC_MAXFRS, 9728u << 16);
    guest_write(it, NIC_TDBAL(0), RING);
    guest_write(it, NIC_TDLEN(0), 16 * SLOTS);
    guest_write(it, NIC_TXDCTL(0), NIC_TXDCTL_ENABLE);
}

/* A context's first half isn't an address, and is kept. */
static void put_descriptor(uint8_t *to, struct input *input)
{
    uint64_t halves[2];
    input_take(input, halves, sizeof halves);
    if ((halves[1] & (NIC_TXD_DEXT | NIC_TXD_DTYP)) != (NIC_TXD_DEXT | NIC_TXD_DTYP_IS(2)))
        halves[0] = DATA + halves[0] % DATA_BYTES;
    memcpy(to, halves, sizeof halves);
}

static void act(struct guest *it, void *given)
{
    struct input *input = given;
    unsigned int count = input_byte(input) % SLOTS;
    for (unsigned int slot = 0; slot < count; slot++)
        put_descriptor(it->memory + RING + 16 * slot, input);
    size_t left = input->length - input->at;
    input_take(input, it->memory + DATA, left < DATA_BYTES ? left : DATA_BYTES);
    set_up(it);
    guest_write(it, NIC_TDT(0), count);
}

int LLVMFuzzerTestOneInput(const uint8_t *bytes, size_t length)
{
    static const char *const words[] = {"--wire=none", NULL};
    struct input input = {bytes, length, 0};
    guest_run(words, act, &input);
    return 0;
}
