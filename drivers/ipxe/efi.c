#ifndef _GNU_SOURCE
#define _GNU_SOURCE /* ucontext */
#endif
#include "efi.h"

#include <string.h>
#include <ucontext.h>

#define STACK_BYTES (4u << 20)
#define REVISION 0x20046 /* UEFI 2.70 */

EFI_SYSTEM_TABLE efi_system;

static EFI_BOOT_SERVICES boot;
static EFI_RUNTIME_SERVICES runtime;
static EFI_LOADED_IMAGE application;

static struct {
    EFI_STATUS(EFIAPI *entry)(EFI_HANDLE, EFI_SYSTEM_TABLE *);
    EFI_HANDLE handle;
    EFI_STATUS status;
} running;

static uint8_t path[] = {4,   4, 24,  0, 'i', 0, 'p', 0, 'x', 0, 'e',  0,    '.', 0,
                         'e', 0, 'f', 0, 'i', 0, 0,   0, 0,   0, 0x7F, 0xFF, 4,   0};

static CALL unsupported(void)
{
    return EFI_UNSUPPORTED;
}

static CALL nothing(void)
{
    return EFI_SUCCESS;
}

/* A fixed time; nothing depends on it. */
static CALL time_of_day(EFI_TIME *time, void *capabilities)
{
    (void)capabilities;
    *time = (EFI_TIME){.Year = 2026, .Month = 1, .Day = 1};
    return EFI_SUCCESS;
}

static void fill(void *first, void *end)
{
    for (void **slot = first; slot < (void **)end; slot++)
        *slot = (void *)unsupported;
}

static void make_tables(const struct efi_setting *setting)
{
    fill(&boot.RaiseTPL, &boot + 1);
    fill(&runtime.GetTime, &runtime + 1);
    boot.Hdr = (EFI_TABLE_HEADER){.Signature = EFI_BOOT_SERVICES_SIGNATURE, .Revision = REVISION};
    runtime.Hdr = (EFI_TABLE_HEADER){.Signature = EFI_RUNTIME_SERVICES_SIGNATURE, .Revision = REVISION};
    efi_system = (EFI_SYSTEM_TABLE){
        .Hdr = {.Signature = EFI_SYSTEM_TABLE_SIGNATURE, .Revision = REVISION, .HeaderSize = sizeof efi_system},
        .FirmwareVendor = (CHAR16 *)u"bench",
        .BootServices = &boot,
        .RuntimeServices = &runtime,
    };
    runtime.GetTime = (void *)time_of_day;
    boot.InstallConfigurationTable = (void *)nothing;
    boot.RegisterProtocolNotify = (void *)nothing;
    handles_serve(&boot);
    events_serve(&boot);
    pools_serve(&boot);
    images_serve(&boot, setting->on_start);
}

static void run(void)
{
    running.status = running.entry(running.handle, &efi_system);
}

/* Runs the application on a stack in low memory, as firmware does: iPXE's barriers write to the address in the lower
   half of the stack pointer. */
static bool run_on_low_stack(void)
{
    static ucontext_t here, there;
    void *stack = low_take(STACK_BYTES);
    if (!stack || getcontext(&there) != 0)
        return false;
    there.uc_stack.ss_sp = stack;
    there.uc_stack.ss_size = STACK_BYTES;
    there.uc_link = &here;
    makecontext(&there, run, 0);
    return swapcontext(&here, &there) == 0;
}

bool efi_run(const struct efi_setting *setting)
{
    void *base, *entry;
    size_t bytes;
    make_tables(setting);
    console_open(setting->keys, setting->is_silent);
    EFI_HANDLE disk = files_open();
    entry = image_load(setting->image, &base, &bytes);
    if (!entry)
        return false;
    application = (EFI_LOADED_IMAGE){.Revision = EFI_IMAGE_INFORMATION_REVISION,
                                     .SystemTable = &efi_system,
                                     .FilePath = (void *)path,
                                     .ImageBase = base,
                                     .ImageSize = bytes,
                                     .ImageCodeType = EfiLoaderCode,
                                     .ImageDataType = EfiLoaderData};
    application.DeviceHandle = disk;
    running.handle = handle_new();
    handle_add(running.handle, &efi_loaded_image, &application);
    handle_add(running.handle, &efi_loaded_path, path);
    memcpy(&running.entry, &entry, sizeof entry);
    bool is_run = run_on_low_stack() && running.status == EFI_SUCCESS;
    events_end();
    handles_end();
    return is_run;
}
