/* Features that a kernel may not have. */
#ifndef PEER_KERNEL_H
#define PEER_KERNEL_H

#include <errno.h>
#include <linux/aio_abi.h>
#include <stdbool.h>
#include <sys/syscall.h>
#include <unistd.h>

/* Returns whether the kernel supports asynchronous reads, with which the server reads an eventfd's signal without
   waiting. QEMU's user emulation doesn't. The server then works without them, and tests that need them are skipped. */
static inline bool kernel_has_reads(void)
{
    aio_context_t reads = 0;
    if (syscall(SYS_io_setup, 1, &reads) != 0)
        return errno != ENOSYS;
    syscall(SYS_io_destroy, reads);
    return true;
}

#endif
