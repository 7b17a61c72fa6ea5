/* Images: the application, loaded from a file, and the image that it starts, which is the run's own code. */
#include <errno.h>
#include <stdio.h>
#include <stdlib.h>
#include <string.h>

#include "efi.h"

enum { FILE_MOST = 8 << 20, MACHINE_X64 = 0x8664, FORMAT_64 = 0x20B, HEADER = 24, SECTION = 40, RELOCATIONS = 5 };
enum { FIX_32 = 3, FIX_64 = 10, FIX_HEADER = 8 };

/* The `length` bytes at `at`: a file, or an image in memory. */
struct bytes {
    uint8_t *at;
    size_t length;
};

static bool has(struct bytes in, uint64_t at, uint64_t count)
{
    return at <= in.length && count <= in.length - at;
}

/* Reads a 2-, 4- or 8-byte number; 0 if it is out of range. */
static uint64_t number(struct bytes in, uint64_t at, unsigned int count)
{
    uint64_t value = 0;
    if (has(in, at, count))
        memcpy(&value, in.at + at, count);
    return value;
}

/* ---- the application ---- */

static bool read_whole(const char *name, struct bytes *whole)
{
    FILE *file = fopen(name, "rb");
    whole->at = file ? malloc(FILE_MOST) : NULL;
    whole->length = whole->at ? fread(whole->at, 1, FILE_MOST, file) : 0;
    bool is_read = whole->at && !ferror(file) && whole->length > 0 && whole->length < FILE_MOST;
    if (!is_read)
        fprintf(stderr, "efi: %s can't be read: %s\n", name, errno ? strerror(errno) : "it is empty or too long");
    if (file)
        fclose(file);
    return is_read;
}

static bool copy_sections(struct bytes file, uint64_t from, uint64_t count, struct bytes to)
{
    for (uint64_t at = from; count; count--, at += SECTION) {
        uint64_t room = number(file, at + 8, 4), where = number(file, at + 12, 4);
        uint64_t there = number(file, at + 16, 4), source = number(file, at + 20, 4);
        uint64_t length = room && room < there ? room : there;
        if (!has(file, at, SECTION) || !has(file, source, length) || !has(to, where, length))
            return false;
        memcpy(to.at + where, file.at + source, length);
    }
    return true;
}

static bool fix(struct bytes image, uint64_t at, unsigned int kind, uint64_t by)
{
    unsigned int count = kind == FIX_64 ? 8 : kind == FIX_32 ? 4 : 0;
    uint64_t value = number(image, at, count) + by;
    if (!has(image, at, count))
        return false;
    memcpy(image.at + at, &value, count);
    return true;
}

/* Applies the relocations. Each block contains a page's address, the block's length, and two bytes for each relocation
   in that page. */
static bool relocate(struct bytes image, uint64_t at, uint64_t length, uint64_t by)
{
    uint64_t end = at + length;
    while (at < end) {
        uint64_t page = number(image, at, 4), block = number(image, at + 4, 4);
        if (block < FIX_HEADER || !has(image, at, block))
            return false;
        for (uint64_t i = FIX_HEADER; i < block; i += 2) {
            uint64_t entry = number(image, at + i, 2);
            if (!fix(image, page + (entry & 0xFFF), (unsigned int)entry >> 12, by))
                return false;
        }
        at += block;
    }
    return true;
}

static void *load(struct bytes file, struct bytes *image)
{
    uint64_t head = number(file, 0x3C, 4), optional = head + HEADER;
    uint64_t size = number(file, optional + 56, 4), headers = number(file, optional + 60, 4);
    uint64_t base = number(file, optional + 24, 8), list = optional + 112 + 8 * RELOCATIONS;
    uint64_t sections = optional + number(file, head + 20, 2), entry = number(file, optional + 16, 4);
    if (number(file, head + 4, 2) != MACHINE_X64 || number(file, optional, 2) != FORMAT_64 || headers > size ||
        entry >= size || !has(file, 0, headers))
        return NULL;
    *image = (struct bytes){low_take(size), size};
    if (!image->at)
        return NULL;
    memcpy(image->at, file.at, headers);
    if (!copy_sections(file, sections, number(file, head + 6, 2), *image) ||
        !relocate(*image, number(file, list, 4), number(file, list + 4, 4), (uintptr_t)image->at - base))
        return NULL;
    return image->at + entry;
}

void *image_load(const char *name, void **base, size_t *length)
{
    struct bytes file, image = {NULL, 0};
    void *entry = NULL;
    errno = 0;
    if (read_whole(name, &file)) {
        entry = load(file, &image);
        if (!entry)
            fprintf(stderr, "efi: %s isn't a loadable x86-64 application\n", name);
    }
    free(file.at);
    *base = image.at;
    *length = image.length;
    return entry;
}

/* ---- the image that it starts ---- */

static void (*starts)(void);

static CALL load_image(BOOLEAN is_boot, EFI_HANDLE parent, EFI_DEVICE_PATH *path, void *source, UINTN length,
                       EFI_HANDLE *handle)
{
    static EFI_LOADED_IMAGE image;
    (void)is_boot;
    (void)path;
    if (!source || length < 2 || memcmp(source, "MZ", 2) != 0)
        return EFI_LOAD_ERROR;
    image = (EFI_LOADED_IMAGE){.Revision = EFI_IMAGE_INFORMATION_REVISION,
                               .ParentHandle = parent,
                               .SystemTable = &efi_system,
                               .ImageCodeType = EfiLoaderCode,
                               .ImageDataType = EfiLoaderData};
    *handle = handle_new();
    handle_add(*handle, &efi_loaded_image, &image);
    return EFI_SUCCESS;
}

static CALL start_image(EFI_HANDLE handle, UINTN *length, CHAR16 **text)
{
    (void)handle;
    if (length)
        *length = 0;
    if (text)
        *text = NULL;
    events_at_application_level(starts);
    return EFI_SUCCESS;
}

static CALL unload_image(EFI_HANDLE handle)
{
    (void)handle;
    return EFI_SUCCESS;
}

void images_serve(EFI_BOOT_SERVICES *services, void (*on_start)(void))
{
    starts = on_start;
    services->LoadImage = (void *)load_image;
    services->StartImage = (void *)start_image;
    services->UnloadImage = (void *)unload_image;
}
