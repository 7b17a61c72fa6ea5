/* The memory that a client mapped for the device: ranges of DMA addresses. Each range is part of a file mapped into
   this process, or can't be accessed, such as a ROM's range. A file is mapped in a few large pieces, the windows, which
   all ranges of the file share: each further mapping would make the kernel slower when it maps, truncates or unmaps the
   file. An unmapped range can't be accessed any longer. Its memory is returned to the kernel piece by piece, because
   that takes time. */
#ifndef VFU_MEMORY_MAP_H
#define VFU_MEMORY_MAP_H

#include <stdbool.h>
#include <stddef.h>
#include <stdint.h>

#define MEMORY_FILES_MOST 256   /* limit for each client */
#define MEMORY_WINDOWS_MOST 512 /* limit for each client */
#define MEMORY_RETIRED_MOST 64  /* windows that may wait to be unmapped before their client has to wait */

struct memory_window;

struct memory_range {
    uint64_t address, size;
    bool is_readable, is_writable;
    struct memory_window *window; /* null: the range can't be accessed */
    uint64_t offset;              /* start in the window */
};

struct memory_map {
    struct memory_range *ranges; /* sorted by address */
    unsigned int count, room;
    struct memory_window *windows[MEMORY_WINDOWS_MOST];
    unsigned int window_count;
    struct memory_window **retired;
    unsigned int retired_count, retired_room;
    struct memory_file *files[MEMORY_FILES_MOST];
    unsigned int file_count;
    /* bytes of ranges, of windows, and of windows waiting to be unmapped */
    uint64_t bytes, window_bytes, retired_bytes;
    unsigned int owner; /* owner of the files: see closer.h */
};

/* The limits of each client. */
struct memory_limits {
    unsigned int ranges, files, windows;
    /* of all ranges together; a file of this size costs its client nothing, but costs this process address space */
    uint64_t bytes;
    bool trusts_files; /* map any file on a disk; otherwise only the kernel's own memory: memfd, tmpfs, hugetlbfs */
};

void memory_map_limit(const struct memory_limits *limits);
const struct memory_limits *memory_map_limits(void);

void memory_map_begin(struct memory_map *it, unsigned int owner);

/* Adds a range. Returns 0 or an error of errno.h, and the caller keeps the file. EINVAL: an address, size or offset
   isn't a multiple of a page, overflows, or is beyond the end of the file; or the range is writable but has no file
   (file -1). EPERM: the file isn't the kernel's own memory. EACCES: the file isn't open for this access. EMFILE,
   ENOSPC, EFBIG and ENOBUFS: more files, ranges, bytes or windows than a client may have. EEXIST: the range overlaps
   another. Other errors are mmap's. */
int memory_map_add(struct memory_map *it, const struct memory_range *range, int file, uint64_t offset);
/* Removes all ranges inside the given one. Returns 0, or EINVAL if a range crosses its boundary. */
int memory_map_remove(struct memory_map *it, uint64_t address, uint64_t size);
void memory_map_clear(struct memory_map *it);

/* Unmaps a bounded part of the removed memory. Returns whether some remains. */
bool memory_map_give_back(struct memory_map *it);
/* Returns whether too much removed memory is still mapped, so that the client has to wait. */
bool memory_map_is_busy(const struct memory_map *it);
/* Unmaps everything, when the client is gone. */
void memory_map_end(struct memory_map *it);

/* Returns a pointer to the byte at an address, or null if there is none. *length is the wanted number of bytes, and
   becomes the number that is contiguous here. */
void *memory_map_run(const struct memory_map *it, uint64_t address, size_t *length, bool write);

/* Makes this process survive a client that truncates its file: an access beyond the file's end would end this process
   with SIGBUS. After this call, such an access reads zeros instead, and the window from there on can't be accessed any
   longer. Ranges added later get another window. */
bool memory_map_guard(void);
/* Returns how many windows were cut off because a client truncated the file. */
unsigned long memory_map_cuts(void);

#endif
