/* Memory: pages shared by application, driver and device, and the process's own pools. */
#ifndef _GNU_SOURCE
#define _GNU_SOURCE /* MAP_FIXED_NOREPLACE */
#endif
#include <stdlib.h>
#include <string.h>
#include <sys/mman.h>

#include "efi.h"
#include "run.h"

#define PAGE 4096u
#define LOW_BYTES (LOW_END - LOW_FIRST)

static uint64_t next_page;

bool low_open(void)
{
    void *wanted = (void *)(uintptr_t)LOW_FIRST;
    void *at = mmap(wanted, LOW_BYTES, PROT_READ | PROT_WRITE | PROT_EXEC,
                    MAP_PRIVATE | MAP_ANONYMOUS | MAP_FIXED_NOREPLACE, -1, 0);
    next_page = LOW_FIRST;
    if (at == wanted)
        return memory_lend(&run_memory, LOW_FIRST, at, LOW_BYTES);
    if (at != MAP_FAILED)
        munmap(at, LOW_BYTES);
    return false;
}

void low_close(void)
{
    munmap((void *)(uintptr_t)LOW_FIRST, LOW_BYTES);
}

void *low_take(size_t bytes)
{
    uint64_t at = next_page;
    if (bytes > LOW_END - at)
        return NULL;
    next_page += (bytes + PAGE - 1) / PAGE * PAGE;
    return (void *)(uintptr_t)at;
}

/* Pages are never freed; there are enough for a run. */
static CALL allocate_pages(EFI_ALLOCATE_TYPE type, EFI_MEMORY_TYPE of, UINTN pages, EFI_PHYSICAL_ADDRESS *at)
{
    (void)of;
    if (type == AllocateAddress || pages > LOW_BYTES / PAGE)
        return EFI_NOT_FOUND;
    *at = (uintptr_t)low_take(pages * PAGE);
    return *at ? EFI_SUCCESS : EFI_OUT_OF_RESOURCES;
}

static CALL free_pages(EFI_PHYSICAL_ADDRESS at, UINTN pages)
{
    (void)at;
    (void)pages;
    return EFI_SUCCESS;
}

static CALL memory_map(UINTN *bytes, EFI_MEMORY_DESCRIPTOR *map, UINTN *key, UINTN *size, UINT32 *version)
{
    UINTN room = *bytes;
    *bytes = *size = sizeof *map;
    *key = *version = 1;
    if (room < sizeof *map)
        return EFI_BUFFER_TOO_SMALL;
    *map = (EFI_MEMORY_DESCRIPTOR){.Type = EfiConventionalMemory,
                                   .PhysicalStart = LOW_FIRST,
                                   .NumberOfPages = LOW_BYTES / PAGE,
                                   .Attribute = EFI_MEMORY_WB};
    return EFI_SUCCESS;
}

static CALL allocate_pool(EFI_MEMORY_TYPE of, UINTN bytes, void **at)
{
    (void)of;
    *at = calloc(1, bytes ? bytes : 1);
    return *at ? EFI_SUCCESS : EFI_OUT_OF_RESOURCES;
}

static CALL free_pool(void *at)
{
    free(at);
    return EFI_SUCCESS;
}

static void EFIAPI copy(void *to, void *from, UINTN bytes)
{
    memmove(to, from, bytes);
}

static void EFIAPI set(void *to, UINTN bytes, UINT8 value)
{
    memset(to, value, bytes);
}

void pools_serve(EFI_BOOT_SERVICES *services)
{
    services->AllocatePages = (void *)allocate_pages;
    services->FreePages = (void *)free_pages;
    services->GetMemoryMap = (void *)memory_map;
    services->AllocatePool = (void *)allocate_pool;
    services->FreePool = (void *)free_pool;
    services->CopyMem = (void *)copy;
    services->SetMem = (void *)set;
}
