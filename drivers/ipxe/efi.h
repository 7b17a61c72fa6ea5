/* The parts of UEFI that iPXE's drivers need, in this process: handles, events and time, memory, PCI, a console, one
   file, images. It uses the types of the package gnu-efi. */
#ifndef IPXE_EFI_H
#define IPXE_EFI_H

#include <efi.h>
#include <efilib.h>
#include <efipciio.h>
#include <stdbool.h>
#include <stddef.h>
#include <stdint.h>

/* UEFI calls use their own calling convention, whichever one this process uses. */
#define CALL EFI_STATUS EFIAPI

/* Memory shared by application, driver and device. Addresses equal bus addresses. */
#define LOW_FIRST 0x01000000u
#define LOW_END 0x07000000u

/* ---- the environment (efi.c) ---- */

struct efi_setting {
    const char *image;      /* the application's file */
    const char *keys;       /* keys to type at the application's console */
    void (*on_start)(void); /* called when the application starts an image */
    bool is_silent;         /* whether to hide the console's output */
};

/* Runs an application. Returns whether it succeeded: false, with a line on standard error, if it can't be loaded. */
bool efi_run(const struct efi_setting *setting);

extern EFI_SYSTEM_TABLE efi_system;

/* ---- handles (handles.c) ---- */

extern const EFI_GUID efi_pci_io, efi_root_bridge, efi_device_path, efi_loaded_image, efi_loaded_path, efi_file_system,
    efi_driver_binding, efi_console_in, efi_console_out, efi_network;

EFI_HANDLE handle_new(void);
void handle_add(EFI_HANDLE handle, const EFI_GUID *protocol, void *interface);
/* Returns the interface of a protocol on any handle; null if no handle has that protocol. */
void *handle_find(const EFI_GUID *protocol);
void handles_serve(EFI_BOOT_SERVICES *services);
void handles_end(void);

/* ---- time and events (events.c) ---- */

void events_pass(uint64_t microseconds);
void events_serve(EFI_BOOT_SERVICES *services);
void events_end(void);
/* Calls a function at the priority level of applications. */
void events_at_application_level(void (*call)(void));

/* ---- memory (memory.c) ---- */

/* Reserves the shared memory and lends it to the device. */
bool low_open(void);
void low_close(void);
/* Returns zeroed shared memory that begins at a page boundary, or null if none is left. */
void *low_take(size_t bytes);
void pools_serve(EFI_BOOT_SERVICES *services);

/* ---- console (console.c) ---- */

void console_open(const char *keys, bool is_silent);
/* Returns whether a key is available. There is a pause between keys. */
bool console_has_key(void);
/* Its address is the event that a key signals. */
extern char console_event;

/* ---- PCI (pci.c) ---- */

void pci_open(unsigned int function);
uint64_t pci_accesses(void);

/* ---- files and images (files.c, image.c) ---- */

/* Creates a volume that contains the file. Returns its handle. */
EFI_HANDLE files_open(void);
void images_serve(EFI_BOOT_SERVICES *services, void (*on_start)(void));

/* Loads a file's application into shared memory. Returns its entry point, or null with a line on standard error if the
   file isn't an application. */
void *image_load(const char *file, void **base, size_t *bytes);

#endif
