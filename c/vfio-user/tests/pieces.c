/* Checks that the server works in pieces when it unmaps ranges of memory, writes lines and records, and serves
   messages. */
#define _GNU_SOURCE
#include <errno.h>
#include <fcntl.h>
#include <signal.h>
#include <string.h>
#include <sys/mman.h>
#include <sys/socket.h>
#include <sys/stat.h>
#include <unistd.h>

#include "../../tests/check.h"
#include "budget.h"
#include "log.h"
#include "memory_map.h"
#include "output.h"
#include "peer/peer.h"
#include "session.h"

#define PAGE 4096u
#define MEBIBYTE (1u << 20)
#define HUGE_2MB (21u << 26) /* flag of memfd_create for the page size */
#define FILES 250u
#define RANGES 1000u
#define STRIDE (100 * 1024u) /* a multiple of the page size */

static struct memory_map map;

static int add_piece(uint64_t address, uint64_t size, int file, uint64_t offset, bool is_writable)
{
    const struct memory_range range = {
        .address = address, .size = size, .is_readable = true, .is_writable = is_writable};
    return memory_map_add(&map, &range, file, offset);
}

static int add(uint64_t address, uint64_t size, int file)
{
    return add_piece(address, size, file, 0, true);
}

static int memory(uint64_t bytes)
{
    int file = memfd_create("memory", MFD_CLOEXEC);
    CHECK(file >= 0 && ftruncate(file, (off_t)bytes) == 0);
    return file;
}

static unsigned int pieces(void)
{
    unsigned int count = 1;
    while (memory_map_give_back(&map))
        count++;
    return count;
}

/* Returns the number of this process's mappings of the test's memory files. */
static unsigned int mappings(void)
{
    char line[300];
    unsigned int count = 0;
    FILE *file = fopen("/proc/self/maps", "re");
    CHECK(file);
    while (fgets(line, sizeof line, file))
        count += strstr(line, "memfd:memory") != NULL;
    fclose(file);
    return count;
}

/* Checks that a large range is unmapped in pieces of 16 MiB, and ranges of many files in pieces of 64 windows. */
static void ranges(void)
{
    size_t length = PAGE;
    int file = memory(100 * MEBIBYTE);
    memory_map_begin(&map, 0);
    CHECK(add(0, 100 * MEBIBYTE, file) == 0 && memory_map_run(&map, 0, &length, true));
    CHECK(memory_map_remove(&map, 0, 100 * MEBIBYTE) == 0 && !memory_map_run(&map, 0, &length, true));
    CHECK(!memory_map_is_busy(&map) && pieces() == 7 && map.file_count == 0 && mappings() == 0);
    close(file);
    for (uint32_t i = 0; i < FILES; i++) {
        file = memory(PAGE);
        CHECK(add(i * PAGE, PAGE, file) == 0);
        close(file);
    }
    CHECK(map.file_count == FILES && mappings() == FILES);
    memory_map_clear(&map);
    CHECK(memory_map_is_busy(&map) && pieces() == FILES / 64 + 1 && !memory_map_is_busy(&map) && map.file_count == 0);
    memory_map_end(&map);
}

/* Returns the number stored in the file at the start of a range. */
static uint64_t number_at(uint64_t address)
{
    uint64_t number;
    size_t length = PAGE;
    const void *at = memory_map_run(&map, address, &length, false);
    CHECK(at && length == PAGE);
    memcpy(&number, at, sizeof number);
    return number;
}

/* Checks that a file is mapped in a few pieces, however many ranges it has, and that each range shows its own part of
   the file. */
static void shared_windows(void)
{
    size_t length = PAGE;
    int file = memory(100 * MEBIBYTE);
    memory_map_begin(&map, 0);
    for (uint64_t i = 0; i < RANGES; i++) {
        CHECK(pwrite(file, &i, sizeof i, (off_t)(i * STRIDE)) == (ssize_t)sizeof i);
        CHECK(add_piece(i * 2 * PAGE, PAGE, file, i * STRIDE, true) == 0);
    }
    CHECK(map.file_count == 1 && map.count == RANGES && mappings() <= 16);
    CHECK(add_piece(10 * PAGE, PAGE, file, 0, true) == EEXIST && !memory_map_run(&map, PAGE, &length, false));
    for (uint64_t i = 0; i < RANGES; i++)
        CHECK(number_at(i * 2 * PAGE) == i);
    unsigned int before = mappings();
    for (uint64_t i = 1; i < RANGES; i++) {
        CHECK(memory_map_remove(&map, i * 2 * PAGE, PAGE) == 0 && !memory_map_run(&map, i * 2 * PAGE, &length, false));
        CHECK(add_piece(i * 2 * PAGE, PAGE, file, 0, true) == 0 && number_at(i * 2 * PAGE) == 0);
    }
    CHECK(mappings() == before && !memory_map_give_back(&map));
    CHECK(add_piece(PAGE, PAGE, file, STRIDE, false) == 0 && number_at(PAGE) == 1);
    CHECK(!memory_map_run(&map, PAGE, &length, true) && mappings() == before + 1);
    memory_map_clear(&map);
    CHECK(memory_map_give_back(&map));
    pieces();
    CHECK(mappings() == 0 && map.file_count == 0);
    memory_map_end(&map);
    close(file);
}

/* Checks that a file that isn't open for its range's access is refused, whether it is already mapped or not. */
static void open_for(void)
{
    char name[64];
    int file = memory(MEBIBYTE);
    snprintf(name, sizeof name, "/proc/self/fd/%d", file);
    int read_only = open(name, O_RDONLY | O_CLOEXEC), write_only = open(name, O_WRONLY | O_CLOEXEC);
    memory_map_begin(&map, 0);
    for (unsigned int i = 0; i < 2; i++) {
        CHECK(read_only >= 0 && add_piece(i * PAGE, PAGE, read_only, 0, true) == EACCES);
        CHECK(write_only >= 0 && add_piece(i * PAGE, PAGE, write_only, 0, false) == EACCES && map.file_count == i);
        CHECK(add(i * PAGE, PAGE, file) == 0);
    }
    CHECK(add_piece(2 * PAGE, PAGE, read_only, 0, false) == 0);
    memory_map_end(&map);
    close(read_only);
    close(write_only);
    close(file);
}

/* Checks the limit for a client's windows. Windows without ranges are removed to make room for others. The windows
   aren't adjacent in the file, because a kernel that allocates memory upwards lists adjacent mappings as one. */
static void windows_most(void)
{
    const struct memory_limits before = *memory_map_limits();
    struct memory_limits few = before;
    int file = memory(160 * MEBIBYTE), others[2] = {memory(PAGE), memory(PAGE)};
    few.windows = 3;
    memory_map_limit(&few);
    memory_map_begin(&map, 0);
    for (uint64_t i = 0; i < 3; i++)
        CHECK(add_piece(i * PAGE, PAGE, file, i * 32 * MEBIBYTE, true) == 0);
    CHECK(add_piece(3 * PAGE, PAGE, others[0], 0, true) == ENOBUFS && map.file_count == 1);
    CHECK(add_piece(3 * PAGE, PAGE, file, MEBIBYTE, true) == 0);
    CHECK(memory_map_remove(&map, PAGE, 2 * PAGE) == 0 && mappings() == 3);
    CHECK(add_piece(PAGE, PAGE, others[0], 0, true) == 0 && add_piece(2 * PAGE, PAGE, others[1], 0, true) == 0);
    CHECK(add_piece(4 * PAGE, PAGE, file, 32 * MEBIBYTE, true) == ENOBUFS);
    few.windows = before.windows;
    few.bytes = 20 * MEBIBYTE; /* 40 MiB of windows: one wide window, then windows as narrow as the range */
    memory_map_limit(&few);
    memory_map_clear(&map);
    pieces();
    for (uint64_t i = 0; i < 4; i++)
        CHECK(add_piece(i * PAGE, PAGE, file, i * 16 * MEBIBYTE, true) == 0);
    CHECK(map.window_bytes == 32 * MEBIBYTE + 2 * PAGE);
    CHECK(add_piece(64 * PAGE, 21 * MEBIBYTE, file, 0, true) == EFBIG);
    memory_map_end(&map);
    memory_map_limit(&before);
    close(file);
    close(others[0]);
    close(others[1]);
}

/* Checks that a truncated file remains accessible before the page at which it was cut, and isn't accessible from that
   page on. */
static void cut(void)
{
    size_t length = PAGE;
    unsigned long before = memory_map_cuts();
    int file = memory(MEBIBYTE);
    memory_map_begin(&map, 0);
    CHECK(add(0, MEBIBYTE, file) == 0);
    volatile uint8_t *at = memory_map_run(&map, 8 * PAGE, &length, false);
    CHECK(at && length == PAGE && ftruncate(file, 4 * PAGE) == 0);
    CHECK(*at == 0 && memory_map_cuts() == before + 1);
    CHECK(!memory_map_run(&map, 8 * PAGE, &length, false));
    length = MEBIBYTE;
    CHECK(memory_map_run(&map, 0, &length, false) && length == 8 * PAGE);
    at = memory_map_run(&map, 4 * PAGE, &length, true);
    *at = 1;
    length = MEBIBYTE;
    CHECK(memory_map_cuts() == before + 2 && memory_map_run(&map, 0, &length, false) && length == 4 * PAGE);
    CHECK(ftruncate(file, MEBIBYTE) == 0 && !memory_map_run(&map, 4 * PAGE, &length, false));
    CHECK(add_piece(MEBIBYTE, PAGE, file, 4 * PAGE, true) == 0 && memory_map_run(&map, MEBIBYTE, &length, true));
    memory_map_end(&map);
    close(file);
}

/* Checks a file with 2 MiB pages. Returns false if the machine reserves none. */
static bool huge(void)
{
    const uint64_t bytes = 2 * MEBIBYTE;
    size_t length = PAGE;
    int file = memfd_create("huge", MFD_CLOEXEC | MFD_HUGETLB | HUGE_2MB);
    memory_map_begin(&map, 0);
    if (file < 0 || ftruncate(file, (off_t)bytes) != 0 || add(0, PAGE, file) != 0) {
        close(file);
        memory_map_end(&map);
        return false;
    }
    volatile uint8_t *at = memory_map_run(&map, 0, &length, true);
    CHECK(at && ftruncate(file, 0) == 0);
    *at = 1;
    CHECK(!memory_map_run(&map, 0, &length, true));
    memory_map_clear(&map);
    CHECK(pieces() == 1);
    memory_map_end(&map);
    close(file);
    return true;
}

/* Checks that a reader that doesn't read loses whole records, and never gets part of a record. */
static void records(void)
{
    struct output output;
    static uint8_t record[1000], got[1u << 20];
    int ends[2];
    CHECK(pipe(ends) == 0);
    output_begin(&output, ends[1]);
    for (unsigned int i = 0; i < 2000; i++) {
        memset(record, (int)(i % 251) + 1, sizeof record);
        output_put(&output, record, sizeof record);
    }
    CHECK(output.lost > 0 && output.lost < 2000);
    uint64_t lost = output.lost;
    size_t length = 0, all = (2000 - lost) * sizeof record;
    while (length < all) {
        ssize_t now = read(ends[0], got + length, sizeof got - length);
        CHECK(now > 0);
        length += (size_t)now;
        output_flush(&output);
    }
    for (size_t i = 0; i < length; i++)
        CHECK(got[i] == (i / sizeof record) % 251 + 1);
    output_put(&output, record, sizeof record);
    CHECK(output.lost == lost && length == all);
    close(ends[0]);
    output_put(&output, record, sizeof record);
    CHECK(output.error == EPIPE && output.lost == lost);
    output_end(&output, 0);
}

static unsigned int times(const char *text, const char *words)
{
    unsigned int count = 0;
    while ((text = strstr(text, words)) != NULL) {
        text += strlen(words);
        count++;
    }
    return count;
}

/* Checks that the lines of one kind are limited without affecting other kinds, that lines left out are counted, and
   that control characters don't reach a terminal. */
static void lines(void)
{
    static char said[1u << 16];
    int ends[2], errors = dup(STDERR_FILENO);
    uint64_t began = budget_time();
    CHECK(pipe(ends) == 0 && dup2(ends[1], STDERR_FILENO) == STDERR_FILENO);
    close(ends[1]);
    log_open();
    for (unsigned int i = 0; i < 1000; i++)
        log_line(LOG_FAULT, "fault %u \033[2J\n", i);
    log_line(LOG_WIRE, "the wire's");
    log_close();
    CHECK(dup2(errors, STDERR_FILENO) == STDERR_FILENO && close(errors) == 0);
    ssize_t length = read(ends[0], said, sizeof said - 1);
    CHECK(length > 0 && strstr(said, "fault 0 ?[2J?\n") && strstr(said, "the wire's\n"));
    uint64_t seconds = (budget_time() - began) / 1000000 + 1;
    CHECK(times(said, "fault ") <= LOG_AT_ONCE + LOG_A_SECOND * seconds);
    CHECK(strstr(said, " more lines about faults were left out\n"));
    close(ends[0]);
}

/* ---- messages ---- */

static unsigned int resets;

static void slow_reset(void *function)
{
    (void)function;
    resets++;
    usleep(2 * BUDGET_MICROSECONDS);
}

static bool always(void *function)
{
    (void)function;
    return true;
}

/* Checks that slow messages are served one per turn, whatever they cost. */
static void slow_messages(void)
{
    static const struct session_calls calls = {.reset = slow_reset, .may_serve = always};
    static struct session session;
    const struct vfu_version version = {0, 0};
    int ends[2];
    CHECK(socketpair(AF_UNIX, SOCK_STREAM, 0, ends) == 0);
    struct peer peer = {ends[1], 0};
    session_begin(&session, &calls, NULL, 1, false, 0);
    session_open(&session, ends[0]);
    peer_send(&peer, VFU_VERSION, VFU_NO_REPLY, &version, sizeof version, NULL, 0);
    for (unsigned int i = 0; i < 3; i++)
        peer_send(&peer, VFU_DEVICE_RESET, VFU_NO_REPLY, NULL, 0, NULL, 0);
    while (resets < 3) {
        unsigned int before = resets;
        CHECK(session_serve(&session) && session_is_paused(&session) && resets <= before + 1);
    }
    CHECK(session_serve(&session) && !session_is_paused(&session));
    session_close(&session);
    session_end(&session);
    close(ends[1]);
}

int main(void)
{
    signal(SIGPIPE, SIG_IGN);
    CHECK(memory_map_guard());
    ranges();
    shared_windows();
    open_for();
    windows_most();
    cut();
    bool has_huge = huge();
    records();
    lines();
    slow_messages();
    printf("pieces: passed%s\n", has_huge ? "" : "; this machine reserves no huge page, so none was tried");
    return 0;
}
