/* Handles and their protocols. */
#include <stdlib.h>
#include <string.h>

#include "efi.h"

struct protocol {
    struct protocol *next;
    EFI_GUID name;
    void *interface;
};

struct handle {
    struct handle *next;
    struct protocol *protocols;
    EFI_DRIVER_BINDING *driver; /* the driver that manages this handle */
};

const EFI_GUID efi_pci_io = {0x4CF5B200, 0x68B8, 0x4CA5, {0x9E, 0xEC, 0xB2, 0x3E, 0x3F, 0x50, 0x02, 0x9A}};
const EFI_GUID efi_root_bridge = {0x2F707EBB, 0x4A1A, 0x11D4, {0x9A, 0x38, 0x00, 0x90, 0x27, 0x3F, 0xC1, 0x4D}};
const EFI_GUID efi_device_path = {0x09576E91, 0x6D3F, 0x11D2, {0x8E, 0x39, 0x00, 0xA0, 0xC9, 0x69, 0x72, 0x3B}};
const EFI_GUID efi_loaded_image = {0x5B1B31A1, 0x9562, 0x11D2, {0x8E, 0x3F, 0x00, 0xA0, 0xC9, 0x69, 0x72, 0x3B}};
const EFI_GUID efi_loaded_path = {0xBC62157E, 0x3E33, 0x4FEC, {0x99, 0x20, 0x2D, 0x3B, 0x36, 0xD7, 0x50, 0xDF}};
const EFI_GUID efi_file_system = {0x964E5B22, 0x6459, 0x11D2, {0x8E, 0x39, 0x00, 0xA0, 0xC9, 0x69, 0x72, 0x3B}};
const EFI_GUID efi_driver_binding = {0x18A031AB, 0xB443, 0x4D1A, {0xA5, 0xC0, 0x0C, 0x09, 0x26, 0x1E, 0x9F, 0x71}};
const EFI_GUID efi_console_in = {0x387477C1, 0x69C7, 0x11D2, {0x8E, 0x39, 0x00, 0xA0, 0xC9, 0x69, 0x72, 0x3B}};
const EFI_GUID efi_console_out = {0x387477C2, 0x69C7, 0x11D2, {0x8E, 0x39, 0x00, 0xA0, 0xC9, 0x69, 0x72, 0x3B}};
const EFI_GUID efi_network = {0xA19832B9, 0xAC25, 0x11D3, {0x9A, 0x2D, 0x00, 0x90, 0x27, 0x3F, 0xC1, 0x4D}};

static struct handle *handles; /* oldest first */

static bool is_same(const EFI_GUID *one, const EFI_GUID *other)
{
    return memcmp(one, other, sizeof *one) == 0;
}

static struct protocol *protocol_of(const struct handle *handle, const EFI_GUID *name)
{
    struct protocol *it = handle ? handle->protocols : NULL;
    while (it && !is_same(&it->name, name))
        it = it->next;
    return it;
}

EFI_HANDLE handle_new(void)
{
    struct handle **end = &handles;
    while (*end)
        end = &(*end)->next;
    return *end = calloc(1, sizeof **end);
}

void handle_add(EFI_HANDLE handle, const EFI_GUID *name, void *interface)
{
    struct handle *to = handle;
    struct protocol *it = to ? calloc(1, sizeof *it) : NULL;
    if (!it)
        return;
    *it = (struct protocol){.next = to->protocols, .name = *name, .interface = interface};
    to->protocols = it;
}

void *handle_find(const EFI_GUID *name)
{
    for (struct handle *handle = handles; handle; handle = handle->next) {
        struct protocol *it = protocol_of(handle, name);
        if (it)
            return it->interface;
    }
    return NULL;
}

void handles_end(void)
{
    while (handles) {
        struct handle *handle = handles;
        handles = handle->next;
        while (handle->protocols) {
            struct protocol *it = handle->protocols;
            handle->protocols = it->next;
            free(it);
        }
        free(handle);
    }
}

/* ---- installing ---- */

static CALL install(EFI_HANDLE *handle, EFI_GUID *name, EFI_INTERFACE_TYPE type, void *interface)
{
    (void)type;
    if (!*handle)
        *handle = handle_new();
    handle_add(*handle, name, interface);
    return *handle ? EFI_SUCCESS : EFI_OUT_OF_RESOURCES;
}

static CALL uninstall(EFI_HANDLE handle, EFI_GUID *name, void *interface)
{
    (void)interface;
    for (struct protocol **at = &((struct handle *)handle)->protocols; *at; at = &(*at)->next) {
        struct protocol *it = *at;
        if (!is_same(&it->name, name))
            continue;
        *at = it->next;
        free(it);
        return EFI_SUCCESS;
    }
    return EFI_NOT_FOUND;
}

static CALL reinstall(EFI_HANDLE handle, EFI_GUID *name, void *former, void *interface)
{
    struct protocol *it = protocol_of(handle, name);
    (void)former;
    if (it)
        it->interface = interface;
    return it ? EFI_SUCCESS : EFI_NOT_FOUND;
}

/* Installs pairs of a name and an interface, up to a null name. */
static CALL install_several(EFI_HANDLE *handle, ...)
{
    __builtin_ms_va_list rest;
    EFI_GUID *name;
    __builtin_ms_va_start(rest, handle);
    while ((name = __builtin_va_arg(rest, EFI_GUID *)))
        install(handle, name, EFI_NATIVE_INTERFACE, __builtin_va_arg(rest, void *));
    __builtin_ms_va_end(rest);
    return EFI_SUCCESS;
}

static CALL uninstall_several(EFI_HANDLE handle, ...)
{
    __builtin_ms_va_list rest;
    EFI_GUID *name;
    __builtin_ms_va_start(rest, handle);
    while ((name = __builtin_va_arg(rest, EFI_GUID *)))
        uninstall(handle, name, __builtin_va_arg(rest, void *));
    __builtin_ms_va_end(rest);
    return EFI_SUCCESS;
}

/* ---- lookup ---- */

static CALL open_protocol(EFI_HANDLE handle, EFI_GUID *name, void **interface, EFI_HANDLE agent, EFI_HANDLE controller,
                          UINT32 how)
{
    struct protocol *it = protocol_of(handle, name);
    (void)agent;
    (void)controller;
    (void)how;
    if (interface)
        *interface = it ? it->interface : NULL;
    return it ? EFI_SUCCESS : EFI_UNSUPPORTED;
}

static CALL close_protocol(EFI_HANDLE handle, EFI_GUID *name, EFI_HANDLE agent, EFI_HANDLE controller)
{
    (void)handle;
    (void)name;
    (void)agent;
    (void)controller;
    return EFI_SUCCESS;
}

static CALL handle_protocol(EFI_HANDLE handle, EFI_GUID *name, void **interface)
{
    return open_protocol(handle, name, interface, NULL, NULL, 0);
}

/* Returns an empty list: no agent has a protocol open. */
static CALL open_information(EFI_HANDLE handle, EFI_GUID *name, EFI_OPEN_PROTOCOL_INFORMATION_ENTRY **entries,
                             UINTN *count)
{
    (void)handle;
    (void)name;
    *count = 0;
    *entries = calloc(1, sizeof **entries);
    return *entries ? EFI_SUCCESS : EFI_OUT_OF_RESOURCES;
}

static CALL protocols_per_handle(EFI_HANDLE handle, EFI_GUID ***names, UINTN *count)
{
    *count = 0;
    for (struct protocol *it = ((struct handle *)handle)->protocols; it; it = it->next)
        ++*count;
    *names = calloc(*count + 1, sizeof **names);
    if (!*names)
        return EFI_OUT_OF_RESOURCES;
    *count = 0;
    for (struct protocol *it = ((struct handle *)handle)->protocols; it; it = it->next)
        (*names)[(*count)++] = &it->name;
    return EFI_SUCCESS;
}

static bool is_sought(const struct handle *handle, EFI_LOCATE_SEARCH_TYPE type, const EFI_GUID *name)
{
    return handle->protocols && (type == AllHandles || (type == ByProtocol && protocol_of(handle, name)));
}

static CALL locate_handle_buffer(EFI_LOCATE_SEARCH_TYPE type, EFI_GUID *name, void *key, UINTN *count,
                                 EFI_HANDLE **found)
{
    UINTN all = 0;
    (void)key;
    for (struct handle *handle = handles; handle; handle = handle->next)
        all++;
    *count = 0;
    *found = calloc(all + 1, sizeof **found);
    if (!*found)
        return EFI_OUT_OF_RESOURCES;
    for (struct handle *handle = handles; handle; handle = handle->next)
        if (is_sought(handle, type, name))
            (*found)[(*count)++] = handle;
    return *count ? EFI_SUCCESS : EFI_NOT_FOUND;
}

static CALL locate_handle(EFI_LOCATE_SEARCH_TYPE type, EFI_GUID *name, void *key, UINTN *bytes, EFI_HANDLE *found)
{
    EFI_HANDLE *all;
    UINTN count, room = *bytes;
    EFI_STATUS status = locate_handle_buffer(type, name, key, &count, &all);
    *bytes = count * sizeof *found;
    if (status == EFI_SUCCESS && room < *bytes)
        status = EFI_BUFFER_TOO_SMALL;
    if (status == EFI_SUCCESS)
        memcpy(found, all, *bytes);
    free(all);
    return status;
}

static CALL locate_protocol(EFI_GUID *name, void *key, void **interface)
{
    (void)key;
    *interface = handle_find(name);
    return *interface ? EFI_SUCCESS : EFI_NOT_FOUND;
}

/* Returns the length of a device path in bytes, without its end node. */
static size_t path_length(const uint8_t *path)
{
    size_t length = 0;
    while (path[length] != END_DEVICE_PATH_TYPE)
        length += path[length + 2] | (size_t)path[length + 3] << 8;
    return length;
}

static CALL locate_device_path(EFI_GUID *name, EFI_DEVICE_PATH **path, EFI_HANDLE *found)
{
    size_t best = 0, whole = path_length((const uint8_t *)*path);
    *found = NULL;
    for (struct handle *handle = handles; handle; handle = handle->next) {
        struct protocol *it = protocol_of(handle, &efi_device_path);
        size_t length = it && protocol_of(handle, name) ? path_length(it->interface) : SIZE_MAX;
        if (length > whole || memcmp(it->interface, *path, length) != 0 || (*found && length <= best))
            continue;
        best = length;
        *found = handle;
    }
    *path = (EFI_DEVICE_PATH *)((uint8_t *)*path + best);
    return *found ? EFI_SUCCESS : EFI_NOT_FOUND;
}

/* ---- drivers ---- */

static CALL connect(EFI_HANDLE handle, EFI_HANDLE *drivers, EFI_DEVICE_PATH *path, BOOLEAN is_recursive)
{
    struct handle *controller = handle;
    (void)drivers;
    (void)path;
    (void)is_recursive;
    if (controller->driver)
        return EFI_SUCCESS;
    for (struct handle *it = handles; it; it = it->next) {
        struct protocol *binding = protocol_of(it, &efi_driver_binding);
        EFI_DRIVER_BINDING *driver = binding ? binding->interface : NULL;
        if (!driver || driver->Supported(driver, controller, NULL) != EFI_SUCCESS ||
            driver->Start(driver, controller, NULL) != EFI_SUCCESS)
            continue;
        controller->driver = driver;
        return EFI_SUCCESS;
    }
    return EFI_NOT_FOUND;
}

static CALL disconnect(EFI_HANDLE handle, EFI_HANDLE driver, EFI_HANDLE child)
{
    struct handle *controller = handle;
    (void)driver;
    (void)child;
    if (controller->driver)
        controller->driver->Stop(controller->driver, controller, 0, NULL);
    controller->driver = NULL;
    return EFI_SUCCESS;
}

void handles_serve(EFI_BOOT_SERVICES *services)
{
    services->InstallProtocolInterface = (void *)install;
    services->UninstallProtocolInterface = (void *)uninstall;
    services->ReinstallProtocolInterface = (void *)reinstall;
    services->InstallMultipleProtocolInterfaces = (void *)install_several;
    services->UninstallMultipleProtocolInterfaces = (void *)uninstall_several;
    services->OpenProtocol = (void *)open_protocol;
    services->CloseProtocol = (void *)close_protocol;
    services->HandleProtocol = (void *)handle_protocol;
    services->OpenProtocolInformation = (void *)open_information;
    services->ProtocolsPerHandle = (void *)protocols_per_handle;
    services->LocateHandle = (void *)locate_handle;
    services->LocateHandleBuffer = (void *)locate_handle_buffer;
    services->LocateProtocol = (void *)locate_protocol;
    services->LocateDevicePath = (void *)locate_device_path;
    services->ConnectController = (void *)connect;
    services->DisconnectController = (void *)disconnect;
}
