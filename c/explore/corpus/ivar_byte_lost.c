/* Two threads each set one byte of a register by reading and writing all of it, and one byte is lost. The register
   contains the vectors of four causes. */
#include "corpus.h"

enum { OWN = 2 };

static struct {
    nicx_mutex lock;
} driver;

static const unsigned queues[OWN] = {0, 1};

static const char *bring_up(void)
{
    return NULL;
}

/* Sets the vector of a queue's receive side. */
static void set_up(void *argument)
{
    unsigned queue = *(const unsigned *)argument, shift = 16 * (queue % 2);
#ifdef FIXED
    nicx_lock(&driver.lock);
#endif
    uint32_t others = nicx_read32(NIC_IVAR(queue / 2)) & ~((uint32_t)0xFF << shift);
    nicx_write32(NIC_IVAR(queue / 2), others | (NIC_IVAR_INT_ALLOC_VAL_0 | (queue + 1)) << shift);
#ifdef FIXED
    nicx_unlock(&driver.lock);
#endif
}

static void begin(void)
{
    memset(&driver, 0, sizeof driver);
    for (unsigned k = 0; k < OWN; k++)
        nicx_task(k ? "second" : "first", set_up, (void *)(uintptr_t)&queues[k]);
}

static const char *end(void)
{
    uint32_t word = 0;
    nic_peek32(nicx_device(), NIC_IVAR(0), &word);
    return word == 0x00820081 ? NULL : "a queue lost its vector";
}

DRIVER(.name = "ivar_byte_lost", .queues = 2)
