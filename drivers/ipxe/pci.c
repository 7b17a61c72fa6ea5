/* One PCI device on one root bridge: configuration space, and DMA memory with addresses equal to bus addresses. */
#include <stdlib.h>
#include <string.h>

#include "efi.h"
#include "pci_config.h"
#include "window.h"

#define PAGE 4096u
#define BUS_NUMBER 1u
#define MEMORY_SPACE 0x0200u
#define BUS_MASTER 0x0400u
#define BELOW_4_GB 0x8000u

static struct pci_config config;

uint64_t pci_accesses(void)
{
    return config.reads + config.writes;
}

/* ---- the device ---- */

static unsigned int width_of(unsigned int width)
{
    return 1u << (width & 3);
}

static CALL read_config(EFI_PCI_IO_PROTOCOL *io, unsigned int width, UINT32 at, UINTN count, void *buffer)
{
    unsigned int bytes = width_of(width);
    (void)io;
    for (UINTN i = 0; i < count; i++) {
        uint32_t value = pci_config_read(&config, (unsigned int)(at + i * bytes), bytes);
        memcpy((uint8_t *)buffer + i * bytes, &value, bytes < sizeof value ? bytes : sizeof value);
    }
    return EFI_SUCCESS;
}

static CALL write_config(EFI_PCI_IO_PROTOCOL *io, unsigned int width, UINT32 at, UINTN count, void *buffer)
{
    unsigned int bytes = width_of(width);
    (void)io;
    for (UINTN i = 0; i < count; i++) {
        uint32_t value = 0;
        memcpy(&value, (uint8_t *)buffer + i * bytes, bytes < sizeof value ? bytes : sizeof value);
        pci_config_write(&config, (unsigned int)(at + i * bytes), bytes, value);
    }
    return EFI_SUCCESS;
}

static CALL locate(EFI_PCI_IO_PROTOCOL *io, UINTN *segment, UINTN *bus, UINTN *device, UINTN *function)
{
    (void)io;
    *segment = *device = *function = 0;
    *bus = BUS_NUMBER;
    return EFI_SUCCESS;
}

static CALL attributes(EFI_PCI_IO_PROTOCOL *io, unsigned int operation, UINT64 asked, UINT64 *result)
{
    (void)io;
    (void)operation;
    (void)asked;
    if (result)
        *result = MEMORY_SPACE | BUS_MASTER | BELOW_4_GB;
    return EFI_SUCCESS;
}

/* Returns one range of memory, whose addresses equal bus addresses, and an end tag. */
static CALL bar_attributes(EFI_PCI_IO_PROTOCOL *io, UINT8 bar, UINT64 *supported, void **resources)
{
    enum { RANGE = 0x8A, RANGE_BYTES = 0x2B, END_AT = 46, END = 0x79, BYTES = 48 };
    uint8_t *list = resources ? calloc(1, BYTES) : NULL;
    (void)io;
    (void)bar;
    if (supported)
        *supported = 0;
    if (!resources)
        return EFI_SUCCESS;
    *resources = list;
    if (!list)
        return EFI_OUT_OF_RESOURCES;
    list[0] = RANGE;
    list[1] = RANGE_BYTES;
    list[END_AT] = END;
    return EFI_SUCCESS;
}

static CALL map(void *io, unsigned int operation, void *host, UINTN *bytes, EFI_PHYSICAL_ADDRESS *bus, void **mapping)
{
    uintptr_t at = (uintptr_t)host;
    (void)io;
    (void)operation;
    *bus = at;
    *mapping = host;
    return at >= LOW_FIRST && at < LOW_END && *bytes <= LOW_END - at ? EFI_SUCCESS : EFI_UNSUPPORTED;
}

static CALL allocate(void *io, unsigned int type, unsigned int of, UINTN pages, void **host, UINT64 asked)
{
    (void)io;
    (void)type;
    (void)of;
    (void)asked;
    *host = pages < LOW_END / PAGE ? low_take(pages * PAGE) : NULL;
    return *host ? EFI_SUCCESS : EFI_OUT_OF_RESOURCES;
}

static CALL nothing(void)
{
    return EFI_SUCCESS;
}

static CALL unsupported(void)
{
    return EFI_UNSUPPORTED;
}

/* ---- the root bridge ---- */

/* Whether a configuration address is the device's. From its low byte up, an address contains register, function, device
   and bus. A register number above 255 is in the high half. */
static bool is_the_device(UINT64 address)
{
    return (address >> 8 & 0xFFFFFF) == BUS_NUMBER << 16;
}

static UINT32 register_of(UINT64 address)
{
    return address >> 32 ? (UINT32)(address >> 32) : (UINT32)(address & 0xFF);
}

static CALL read_root(void *io, unsigned int width, UINT64 address, UINTN count, void *buffer)
{
    (void)io;
    if (is_the_device(address))
        return read_config(NULL, width, register_of(address), count, buffer);
    memset(buffer, 0xFF, count * width_of(width));
    return EFI_SUCCESS;
}

static CALL write_root(void *io, unsigned int width, UINT64 address, UINTN count, void *buffer)
{
    (void)io;
    return is_the_device(address) ? write_config(NULL, width, register_of(address), count, buffer) : EFI_SUCCESS;
}

/* Returns one range of bus numbers, 0 to 255, and an end tag. */
static CALL configuration(void *io, void **resources)
{
    static uint8_t list[48] = {[0] = 0x8A, [1] = 0x2B, [3] = 2, [22] = 255, [39] = 1, [46] = 0x79};
    (void)io;
    *resources = list;
    return EFI_SUCCESS;
}

static EFI_PCI_IO_PROTOCOL device;
static EFI_PCI_ROOT_BRIDGE_IO_PROTOCOL root;

/* The root bridge's ACPI name, followed by function 0 of its slot 0. */
#define ROOT 2, 1, 12, 0, 0xD0, 0x41, 0x03, 0x0A, 0, 0, 0, 0
#define END 0x7F, 0xFF, 4, 0
static uint8_t root_path[] = {ROOT, END};
static uint8_t device_path[] = {ROOT, 1, 1, 6, 0, 0, 1, END};

static void fill(void *table, size_t bytes)
{
    for (void **slot = table; slot < (void **)((uint8_t *)table + bytes); slot++)
        *slot = (void *)unsupported;
}

static void open_device(void)
{
    EFI_HANDLE handle = handle_new();
    fill(&device, sizeof device);
    device.Pci.Read = (void *)read_config;
    device.Pci.Write = (void *)write_config;
    device.GetLocation = (void *)locate;
    device.Attributes = (void *)attributes;
    device.GetBarAttributes = (void *)bar_attributes;
    device.Map = (void *)map;
    device.Unmap = (void *)nothing;
    device.Flush = (void *)nothing;
    device.FreeBuffer = (void *)nothing;
    device.AllocateBuffer = (void *)allocate;
    device.RomSize = 0;
    device.RomImage = NULL;
    handle_add(handle, &efi_pci_io, &device);
    handle_add(handle, &efi_device_path, device_path);
}

static void open_root(void)
{
    EFI_HANDLE handle = handle_new();
    fill(&root, sizeof root);
    root.ParentHandle = NULL;
    root.SegmentNumber = 0;
    root.Pci.Read = (void *)read_root;
    root.Pci.Write = (void *)write_root;
    root.Configuration = (void *)configuration;
    root.Map = (void *)map;
    root.Unmap = (void *)nothing;
    root.Flush = (void *)nothing;
    root.FreeBuffer = (void *)nothing;
    root.AllocateBuffer = (void *)allocate;
    handle_add(handle, &efi_root_bridge, &root);
    handle_add(handle, &efi_device_path, root_path);
}

void pci_open(unsigned int function)
{
    pci_config_of_82599(&config, function, (uintptr_t)window_of(function));
    open_root();
    open_device();
}
