/* The layout of vfio-user 0.0 messages. All numbers are in the machine's byte order. The public source is QEMU's
   document "vfio-user Protocol Specification" (interop/vfio-user). */
#ifndef VFU_PROTOCOL_H
#define VFU_PROTOCOL_H

#include <stdint.h>

enum vfu_command {
    VFU_VERSION = 1,
    VFU_DMA_MAP,
    VFU_DMA_UNMAP,
    VFU_DEVICE_GET_INFO,
    VFU_DEVICE_GET_REGION_INFO,
    VFU_DEVICE_GET_REGION_IO_FDS,
    VFU_DEVICE_GET_IRQ_INFO,
    VFU_DEVICE_SET_IRQS,
    VFU_REGION_READ,
    VFU_REGION_WRITE,
    VFU_DMA_READ,
    VFU_DMA_WRITE,
    VFU_DEVICE_RESET,
    VFU_DIRTY_PAGES,
    VFU_REGION_WRITE_MULTI,
    VFU_DEVICE_FEATURE,
    VFU_COMMANDS /* one past the last */
};

/* vfu_header.flags */
#define VFU_TYPE 0xFu /* 0: a command; 1: a reply */
#define VFU_REPLY 0x1u
#define VFU_NO_REPLY 0x10u
#define VFU_ERROR 0x20u

struct vfu_header {
    uint16_t id, command;
    uint32_t size; /* in bytes, with this header */
    uint32_t flags, error;
};

#define VFU_MESSAGE_MOST 8192u  /* bytes of a message, with its header */
#define VFU_TRANSFER_MOST 4096u /* bytes of one region access */
#define VFU_FILES_MOST 16       /* file descriptors in one message */
#define VFU_PAGE 4096u
#define VFU_MAPS_MOST 16384 /* ranges of a client's memory */

struct vfu_version {
    uint16_t major, minor; /* followed by a JSON string that ends in a zero byte */
};

/* vfu_dma_map.flags */
#define VFU_MAP_READ 0x1u
#define VFU_MAP_WRITE 0x2u

struct vfu_dma_map {
    uint32_t argsz, flags;
    uint64_t offset, address, size;
};

/* vfu_dma_unmap.flags */
#define VFU_UNMAP_ALL 0x2u

struct vfu_dma_unmap {
    uint32_t argsz, flags;
    uint64_t address, size;
};

struct vfu_device_info {
    uint32_t argsz, flags, regions, irqs;
};
#define VFU_DEVICE_RESETS 0x1u
#define VFU_DEVICE_PCI 0x2u

struct vfu_region_info {
    uint32_t argsz, flags, index, cap;
    uint64_t size, offset;
};
#define VFU_REGION_READABLE 0x1u
#define VFU_REGION_WRITABLE 0x2u

/* regions of a PCI device: its six BARs, the ROM, configuration space, VGA */
#define VFU_REGIONS 9u
#define VFU_CONFIG_REGION 7u

struct vfu_irq_info {
    uint32_t argsz, flags, index, count;
};
#define VFU_IRQ_EVENTFD 0x1u
#define VFU_IRQ_LEVEL 0x6u /* maskable, and masks itself when raised */

/* interrupts of a PCI device: INTx, MSI, MSI-X, errors, requests to release it */
#define VFU_IRQS 5u
#define VFU_INTX 0u
#define VFU_MSI 1u
#define VFU_MSIX 2u

struct vfu_irq_set {
    uint32_t argsz, flags, index, start, count; /* with VFU_SET_BOOL, a byte for each interrupt follows */
};
#define VFU_SET_NONE 0x1u
#define VFU_SET_BOOL 0x2u
#define VFU_SET_EVENTFD 0x4u
#define VFU_SET_DATA 0x7u
#define VFU_SET_MASK 0x08u
#define VFU_SET_UNMASK 0x10u
#define VFU_SET_TRIGGER 0x20u
#define VFU_SET_ACTION 0x38u

struct vfu_access {
    uint64_t offset;
    uint32_t region, count; /* followed by the bytes */
};

struct vfu_write {
    uint64_t offset;
    uint32_t region, count;
    uint8_t data[8];
};

struct vfu_writes {
    uint64_t count; /* followed by this many struct vfu_write */
};

#endif
