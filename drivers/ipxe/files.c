/* The only file that the application may start; starting that file calls the run's own code. */
#include <string.h>

#include "efi.h"

enum { BYTES = 4096 };

static const CHAR16 name[] = u"test.efi";
static const char bytes[BYTES] = "MZ";
static size_t place;
static EFI_FILE_PROTOCOL folder, file;

static CALL open_file(EFI_FILE_PROTOCOL *from, EFI_FILE_PROTOCOL **to, CHAR16 *path, UINT64 mode, UINT64 how)
{
    (void)from;
    (void)mode;
    (void)how;
    while (*path == '/' || *path == '\\')
        path++;
    if (memcmp(path, name, sizeof name) != 0)
        return EFI_NOT_FOUND;
    place = 0;
    *to = &file;
    return EFI_SUCCESS;
}

static CALL close_file(EFI_FILE_PROTOCOL *it)
{
    (void)it;
    return EFI_SUCCESS;
}

static CALL read_file(EFI_FILE_PROTOCOL *it, UINTN *count, void *to)
{
    (void)it;
    if (*count > BYTES - place)
        *count = BYTES - place;
    memcpy(to, bytes + place, *count);
    place += *count;
    return EFI_SUCCESS;
}

static CALL set_place(EFI_FILE_PROTOCOL *it, UINT64 to)
{
    (void)it;
    place = to > BYTES ? BYTES : to;
    return EFI_SUCCESS;
}

static CALL get_place(EFI_FILE_PROTOCOL *it, UINT64 *at)
{
    (void)it;
    *at = place;
    return EFI_SUCCESS;
}

static CALL get_info(EFI_FILE_PROTOCOL *it, EFI_GUID *type, UINTN *count, void *to)
{
    UINTN room = *count;
    EFI_FILE_INFO *info = to;
    (void)it;
    (void)type;
    *count = SIZE_OF_EFI_FILE_INFO + sizeof name;
    if (room < *count)
        return EFI_BUFFER_TOO_SMALL;
    memset(info, 0, *count);
    info->Size = *count;
    info->FileSize = info->PhysicalSize = BYTES;
    memcpy(info->FileName, name, sizeof name);
    return EFI_SUCCESS;
}

static CALL open_volume(void *it, EFI_FILE_PROTOCOL **to)
{
    (void)it;
    *to = &folder;
    return EFI_SUCCESS;
}

static struct {
    UINT64 revision;
    void *open;
} volume = {0x10000, (void *)open_volume};

static uint8_t disk_path[] = {2, 1, 12, 0, 0xD0, 0x41, 0x03, 0x0A, 1, 0, 0, 0, 1, 1, 6, 0, 0, 2, 0x7F, 0xFF, 4, 0};

EFI_HANDLE files_open(void)
{
    EFI_HANDLE disk = handle_new();
    file = (EFI_FILE_PROTOCOL){
        .Revision = 0x10000,
        .Open = (void *)open_file,
        .Close = (void *)close_file,
        .Read = (void *)read_file,
        .SetPosition = (void *)set_place,
        .GetPosition = (void *)get_place,
        .GetInfo = (void *)get_info,
    };
    folder = file;
    handle_add(disk, &efi_file_system, &volume);
    handle_add(disk, &efi_device_path, disk_path);
    return disk;
}
