#define _GNU_SOURCE
#include "memory_map.h"

#include <errno.h>
#include <fcntl.h>
#include <linux/magic.h>
#include <signal.h>
#include <stdlib.h>
#include <string.h>
#include <sys/mman.h>
#include <sys/stat.h>
#include <sys/vfs.h>
#include <unistd.h>

#include "closer.h"
#include "protocol.h"

#define PIECE (UINT64_C(16) << 20) /* bytes unmapped at a time, which takes a few milliseconds if all were used */
#define WINDOWS_A_PIECE 64
#define MAPS_MOST CLOSER_OWNERS
#define GRAINS 16u                       /* maximum per file; a window consists of consecutive grains */
#define GRAIN_LEAST (UINT64_C(16) << 20) /* minimum size of a grain in bytes */
#define WINDOWS_TO_BYTES 2u              /* limit for windows, as a multiple of the bytes that ranges may have */

/* A file with windows. It stays open until its last window is unmapped, so that the memory itself is freed by closing
   the file, which the closer does. */
struct memory_file {
    int file;
    dev_t device;
    ino_t inode;
    uint64_t page; /* page size in bytes */
    unsigned int ranges, windows;
};

/* A piece of a file, mapped once for all ranges in it. A window without ranges is kept for later ranges while its file
   has other ranges and room remains. */
struct memory_window {
    struct memory_file *file;
    uint8_t *at;
    uint64_t offset, size; /* in the file; multiples of its page size */
    uint64_t reach;        /* accessible bytes: fewer than the size after the client truncated the file */
    uint64_t mapped;       /* bytes at `at`: fewer than the size after some were unmapped */
    bool is_writable;
    unsigned int ranges;
};

static struct memory_limits the_limits = {VFU_MAPS_MOST, MEMORY_FILES_MOST, MEMORY_WINDOWS_MOST,
                                          UINT64_MAX / WINDOWS_TO_BYTES, false};
static struct memory_map *maps[MAPS_MOST]; /* all maps with windows, for the SIGBUS handler */

void memory_map_limit(const struct memory_limits *limits)
{
    the_limits = *limits;
}

const struct memory_limits *memory_map_limits(void)
{
    return &the_limits;
}

void memory_map_begin(struct memory_map *it, unsigned int owner)
{
    *it = (struct memory_map){.owner = owner};
}

/* Makes the SIGBUS handler search this map's windows too. */
static bool enroll(struct memory_map *it)
{
    unsigned int i = 0;
    while (i < MAPS_MOST && maps[i] && maps[i] != it)
        i++;
    if (i < MAPS_MOST)
        maps[i] = it;
    return i < MAPS_MOST;
}

/* ---- ranges ---- */

/* Returns the index of the first range whose last byte is at or above the address; it->count if there is none. */
static unsigned int first_after(const struct memory_map *it, uint64_t address)
{
    unsigned int low = 0, high = it->count;
    while (low < high) {
        unsigned int middle = low + (high - low) / 2;
        const struct memory_range *range = &it->ranges[middle];
        if (range->address + (range->size - 1) >= address)
            high = middle;
        else
            low = middle + 1;
    }
    return low;
}

static bool is_page(uint64_t number)
{
    return number % VFU_PAGE == 0;
}

/* ---- files ---- */

/* Finds the file among the files of the client's ranges. */
static struct memory_file *known_file(const struct memory_map *it, const struct stat *about)
{
    for (unsigned int i = 0; i < it->file_count; i++)
        if (it->files[i]->device == about->st_dev && it->files[i]->inode == about->st_ino)
            return it->files[i];
    return NULL;
}

/* Returns the file's page size; only hugetlbfs has huge pages. */
static uint64_t page_of(int file)
{
    struct statfs system;
    if (closer_is_memory(file) && fstatfs(file, &system) == 0 && system.f_type == HUGETLBFS_MAGIC)
        return (uint64_t)system.f_bsize;
    return VFU_PAGE;
}

/* Finds the file among the client's files, or adds it to them. */
static int use_file(struct memory_map *it, int file, const struct stat *about, struct memory_file **used)
{
    *used = known_file(it, about);
    if (*used)
        return 0;
    if (it->file_count >= the_limits.files || it->file_count == MEMORY_FILES_MOST)
        return EMFILE;
    struct memory_file *made = malloc(sizeof *made);
    if (!made)
        return ENOMEM;
    *made = (struct memory_file){fcntl(file, F_DUPFD_CLOEXEC, 0), about->st_dev, about->st_ino, page_of(file), 0, 0};
    if (made->file < 0) {
        free(made);
        return errno;
    }
    it->files[it->file_count++] = made;
    *used = made;
    return 0;
}

/* Closes a file if no range or window of it remains. */
static void leave_file(struct memory_map *it, struct memory_file *file)
{
    if (file->ranges || file->windows)
        return;
    unsigned int place = 0;
    while (it->files[place] != file)
        place++;
    it->files[place] = it->files[--it->file_count];
    closer_close(file->file, it->owner);
    free(file);
}

static uint64_t round_up(uint64_t number, uint64_t unit)
{
    return (number + unit - 1) / unit * unit;
}

static bool make_room(void **all, unsigned int *room, unsigned int count, size_t size)
{
    if (count <= *room)
        return true;
    unsigned int more = 2 * count + 16;
    void *moved = realloc(*all, more * size);
    if (!moved)
        return false;
    *all = moved;
    *room = more;
    return true;
}

/* ---- windows ---- */

/* A range of offsets in a file. */
struct extent {
    uint64_t from, to;
};

/* Extends a piece of a file to whole grains, up to the file's end. */
static struct extent wide(struct extent piece, uint64_t file_bytes, uint64_t page)
{
    uint64_t grain = page > GRAIN_LEAST ? page : GRAIN_LEAST;
    while (grain < file_bytes / GRAINS)
        grain *= 2;
    uint64_t to = round_up(piece.to, grain), end = round_up(file_bytes, page);
    return (struct extent){piece.from / grain * grain, to < end ? to : end};
}

/* Extends a piece of a file only to whole pages. */
static struct extent narrow(struct extent piece, uint64_t page)
{
    return (struct extent){piece.from / page * page, round_up(piece.to, page)};
}

/* Finds a window that contains a whole piece and was never cut off. */
static struct memory_window *known_window(const struct memory_map *it, const struct memory_file *file,
                                          struct extent piece, bool is_writable)
{
    for (unsigned int i = 0; i < it->window_count; i++) {
        struct memory_window *window = it->windows[i];
        if (window->file == file && window->is_writable == is_writable && window->reach == window->size &&
            window->offset <= piece.from && piece.to <= window->offset + window->size)
            return window;
    }
    return NULL;
}

/* Moves a window to the list of those waiting to be unmapped, in which creating the window reserved a slot. */
static void retire(struct memory_map *it, unsigned int place)
{
    struct memory_window *window = it->windows[place];
    it->windows[place] = it->windows[--it->window_count];
    it->retired[it->retired_count++] = window;
    it->window_bytes -= window->size;
    it->retired_bytes += window->size;
}

/* Removes the windows without ranges of one file, or (null) of all files. */
static void retire_idle(struct memory_map *it, const struct memory_file *file)
{
    for (unsigned int i = it->window_count; i-- > 0;)
        if (it->windows[i]->ranges == 0 && (!file || it->windows[i]->file == file))
            retire(it, i);
}

static bool has_room(const struct memory_map *it, struct extent extent)
{
    uint64_t most = the_limits.bytes * WINDOWS_TO_BYTES, bytes = extent.to - extent.from;
    return it->window_count < the_limits.windows && it->window_count < MEMORY_WINDOWS_MOST && bytes <= most &&
           it->window_bytes <= most - bytes;
}

/* Maps a window. Reserves no memory: the pages are the client's, and if huge pages run out, the window is cut off. */
static int make_window(struct memory_map *it, struct memory_file *of, int file, struct extent extent, bool is_writable,
                       struct memory_window **made)
{
    int protection = PROT_READ | (is_writable ? PROT_WRITE : 0);
    uint64_t size = extent.to - extent.from;
    if (!make_room((void **)&it->retired, &it->retired_room, it->retired_count + it->window_count + 1,
                   sizeof(struct memory_window *)))
        return ENOMEM;
    *made = malloc(sizeof **made);
    if (!*made)
        return ENOMEM;
    void *at = mmap(NULL, size, protection, MAP_SHARED | MAP_NORESERVE, file, (off_t)extent.from);
    if (at == MAP_FAILED) {
        int error = errno;
        free(*made);
        return error;
    }
    **made = (struct memory_window){of, at, extent.from, size, size, size, is_writable, 0};
    it->windows[it->window_count++] = *made;
    it->window_bytes += size;
    of->windows++;
    return 0;
}

/* Finds a window for a piece of a file, or creates one that is as large as the limits allow. */
static int use_window(struct memory_map *it, struct memory_file *of, int file, struct extent piece, uint64_t file_bytes,
                      bool is_writable, struct memory_window **used)
{
    struct extent extent = wide(piece, file_bytes, of->page);
    *used = known_window(it, of, piece, is_writable);
    if (*used)
        return 0;
    if (!has_room(it, extent))
        retire_idle(it, NULL);
    if (!has_room(it, extent))
        extent = narrow(piece, of->page);
    return has_room(it, extent) ? make_window(it, of, file, extent, is_writable, used) : ENOBUFS;
}

/* ---- ranges and their files ---- */

/* Checks the file's mode as mmap would for each range. */
static bool is_open_for(int file, bool write)
{
    int mode = fcntl(file, F_GETFL);
    return mode >= 0 && (write ? (mode & O_ACCMODE) == O_RDWR : (mode & O_ACCMODE) != O_WRONLY);
}

static uint64_t bytes_of(const struct memory_range *range)
{
    return round_up(range->size, range->window->file->page);
}

/* Finds a window for a range. The file must contain the whole range. */
static int map_file(struct memory_map *it, struct memory_range *range, int file, uint64_t offset)
{
    struct stat about;
    struct memory_file *of;
    if (!the_limits.trusts_files && !closer_is_memory(file))
        return EPERM;
    if (fstat(file, &about) != 0 || !S_ISREG(about.st_mode) || range->size > (uint64_t)about.st_size ||
        offset > (uint64_t)about.st_size - range->size)
        return EINVAL;
    if (!is_open_for(file, range->is_writable))
        return EACCES;
    if (it->bytes > the_limits.bytes || range->size > the_limits.bytes - it->bytes)
        return EFBIG;
    int error = use_file(it, file, &about, &of);
    if (error)
        return error;
    error = use_window(it, of, file, (struct extent){offset, offset + range->size}, (uint64_t)about.st_size,
                       range->is_writable, &range->window);
    if (error) {
        range->window = NULL;
        leave_file(it, of);
        return error;
    }
    range->offset = offset - range->window->offset;
    range->window->ranges++;
    of->ranges++;
    it->bytes += bytes_of(range);
    return 0;
}

/* Releases a removed range. If it was the last range of its file, the file's windows are released too. */
static void release(struct memory_map *it, const struct memory_range *range)
{
    struct memory_window *window = range->window;
    if (!window)
        return;
    it->bytes -= bytes_of(range);
    window->ranges--;
    if (--window->file->ranges == 0)
        retire_idle(it, window->file);
}

/* ---- requests from clients ---- */

int memory_map_add(struct memory_map *it, const struct memory_range *asked, int file, uint64_t offset)
{
    struct memory_range range = *asked;
    range.window = NULL;
    if (range.size == 0 || !is_page(range.address) || !is_page(range.size) || !is_page(offset) ||
        range.address > UINT64_MAX - (range.size - 1) || (file < 0 && range.is_writable))
        return EINVAL;
    unsigned int place = first_after(it, range.address);
    if (place < it->count && it->ranges[place].address - range.address < range.size)
        return EEXIST;
    if (place < it->count && it->ranges[place].address <= range.address)
        return EEXIST;
    if (it->count >= the_limits.ranges || !enroll(it) ||
        !make_room((void **)&it->ranges, &it->room, it->count + 1, sizeof *it->ranges))
        return ENOSPC;
    int error = file < 0 ? 0 : map_file(it, &range, file, offset);
    if (error)
        return error;
    memmove(it->ranges + place + 1, it->ranges + place, (it->count - place) * sizeof *it->ranges);
    it->ranges[place] = range;
    it->count++;
    return 0;
}

int memory_map_remove(struct memory_map *it, uint64_t address, uint64_t size)
{
    uint64_t last = address + (size - 1);
    if (size == 0 || last < address)
        return EINVAL;
    unsigned int first = first_after(it, address), end = first;
    while (end < it->count && it->ranges[end].address <= last)
        end++;
    if (first == end)
        return 0;
    const struct memory_range *final = &it->ranges[end - 1];
    if (it->ranges[first].address < address || final->address + (final->size - 1) > last)
        return EINVAL;
    for (unsigned int i = first; i < end; i++)
        release(it, &it->ranges[i]);
    memmove(it->ranges + first, it->ranges + end, (it->count - end) * sizeof *it->ranges);
    it->count -= end - first;
    return 0;
}

void memory_map_clear(struct memory_map *it)
{
    for (unsigned int i = 0; i < it->count; i++)
        release(it, &it->ranges[i]);
    it->count = 0;
}

/* ---- unmapping ---- */

/* Unmaps the end of a window, so that no mapping is split in two. Returns the number of bytes. */
static uint64_t shorten(struct memory_window *window, uint64_t most)
{
    uint64_t page = window->file->page;
    uint64_t bytes = most < page ? page : most / page * page;
    if (bytes > window->mapped)
        bytes = window->mapped;
    munmap(window->at + (window->mapped - bytes), bytes);
    window->mapped -= bytes;
    return bytes;
}

static bool give_back(struct memory_map *it, uint64_t most)
{
    uint64_t left = most;
    for (unsigned int i = 0; i < WINDOWS_A_PIECE && it->retired_count && left; i++) {
        struct memory_window *window = it->retired[it->retired_count - 1];
        uint64_t bytes = shorten(window, left);
        left -= bytes < left ? bytes : left;
        it->retired_bytes -= bytes;
        if (window->mapped)
            break;
        window->file->windows--;
        leave_file(it, window->file);
        free(window);
        it->retired_count--;
    }
    return it->retired_count != 0;
}

bool memory_map_give_back(struct memory_map *it)
{
    return give_back(it, PIECE);
}

bool memory_map_is_busy(const struct memory_map *it)
{
    return it->retired_count > MEMORY_RETIRED_MOST || it->retired_bytes > the_limits.bytes;
}

void memory_map_end(struct memory_map *it)
{
    memory_map_clear(it);
    while (give_back(it, UINT64_MAX)) {
    }
    for (unsigned int i = 0; i < MAPS_MOST; i++)
        if (maps[i] == it)
            maps[i] = NULL;
    free(it->ranges);
    free(it->retired);
    memory_map_begin(it, it->owner);
}

void *memory_map_run(const struct memory_map *it, uint64_t address, size_t *length, bool write)
{
    unsigned int place = first_after(it, address);
    if (place == it->count || address < it->ranges[place].address)
        return NULL;
    const struct memory_range *range = &it->ranges[place];
    const struct memory_window *window = range->window;
    uint64_t offset = address - range->address, left = range->size - offset;
    if (!window || range->offset + offset >= window->reach || (write ? !range->is_writable : !range->is_readable))
        return NULL;
    if (left > window->reach - range->offset - offset)
        left = window->reach - range->offset - offset;
    if (*length > left)
        *length = left;
    return window->at + range->offset + offset;
}

/* ---- truncated files ---- */

static volatile sig_atomic_t cuts;

/* Returns the window that contains an address of this process. */
static struct memory_window *window_at(uintptr_t place)
{
    for (unsigned int i = 0; i < MAPS_MOST; i++)
        for (unsigned int k = 0; maps[i] && k < maps[i]->window_count; k++)
            if (place - (uintptr_t)maps[i]->windows[k]->at < maps[i]->windows[k]->size)
                return maps[i]->windows[k];
    return NULL;
}

/* Replaces the rest of a window with zeros, from the page that contains this address. A window then has at most two
   mappings, as the limits assume. The zeros take no memory, because nothing accesses them afterwards. */
static bool cut(struct memory_window *window, uintptr_t place)
{
    uint64_t whole = (place - (uintptr_t)window->at) / window->file->page * window->file->page;
    if (mmap(window->at + whole, window->size - whole, PROT_READ | PROT_WRITE, MAP_PRIVATE | MAP_ANONYMOUS | MAP_FIXED,
             -1, 0) == MAP_FAILED)
        return false;
    if (whole < window->reach)
        window->reach = whole;
    cuts++;
    return true;
}

/* Handles the SIGBUS that a copy out of a window or into one raised. No window changes during such a copy. Any other
   SIGBUS ends the process. */
static void on_bus_error(int number, siginfo_t *about, void *context)
{
    struct memory_window *window = about->si_code == BUS_ADRERR ? window_at((uintptr_t)about->si_addr) : NULL;
    (void)context;
    if (window && cut(window, (uintptr_t)about->si_addr))
        return;
    signal(number, SIG_DFL);
    raise(number);
}

bool memory_map_guard(void)
{
    struct sigaction action = {.sa_sigaction = on_bus_error, .sa_flags = SA_SIGINFO};
    sigemptyset(&action.sa_mask);
    return sigaction(SIGBUS, &action, NULL) == 0;
}

unsigned long memory_map_cuts(void)
{
    return (unsigned long)cuts;
}
