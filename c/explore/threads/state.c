/* The driver's own memory: its variables, its memory from malloc, and its thread-local variables. Before each schedule
   all of it is restored to what it was after bring_up, so `begin` needn't initialize any of it. */
#define _GNU_SOURCE
#include <errno.h>
#include <link.h>
#include <stdlib.h>
#include <string.h>

#include "form.h"
#include "races.h"
#include "taken.h"
#include "threads.h"

/* --- variables: nic82599_threads.ld groups the variables of the driver's objects --- */

extern char nicxi_data_begin[], nicxi_data_end[], nicxi_bss_begin[], nicxi_bss_end[];

static char *kept_data, *kept_bss;
static struct keys kept_keys;

/* Not instrumented: the copied range includes the redzones between variables, and the address sanitizer would report an
   instrumented access to them. */
#if defined(__clang__) || defined(__GNUC__)
__attribute__((no_sanitize("address")))
#endif
static void
copy(char *to, const char *from, size_t length)
{
    volatile char *out = to;
    const volatile char *in = from;
    size_t k = 0;
    for (; k + 8 <= length && !((uintptr_t)(to + k) & 7) && !((uintptr_t)(from + k) & 7); k += 8)
        *(volatile uint64_t *)(volatile void *)(out + k) = *(const volatile uint64_t *)(const volatile void *)(in + k);
    for (; k < length; k++)
        out[k] = in[k];
}

static char *kept_of(const char *begin, const char *end)
{
    char *kept = malloc((size_t)(end - begin) + 16);
    if (kept)
        copy(kept, begin, (size_t)(end - begin));
    return kept;
}

/* --- thread-local variables: the program's own block is swapped when another task continues --- */

enum { OF_ENGINE = 2 }; /* bytes of the engine's own thread-locals, which hold no values */

static struct {
    char *block;
    const char *image;
    size_t size, image_size;
    char *of[MOST_THREADS];
    char *kept;
} local;

static int find_local(struct dl_phdr_info *info, size_t size, void *unused)
{
    (void)size;
    (void)unused;
    for (int k = 0; k < info->dlpi_phnum; k++)
        if (info->dlpi_phdr[k].p_type == PT_TLS) {
            local.block = info->dlpi_tls_data;
            local.size = info->dlpi_phdr[k].p_memsz;
            local.image = (const char *)(info->dlpi_addr + info->dlpi_phdr[k].p_vaddr);
            local.image_size = info->dlpi_phdr[k].p_filesz;
        }
    return 1; /* the first entry is the program itself */
}

static bool has_local(void)
{
    return local.block && local.size > OF_ENGINE;
}

/* A task starts with the initial values of thread-locals. A whole program's first task starts with the block as it
   is. */
static char *local_of(const struct thread *thread)
{
    char **place = &local.of[nicxi_number(thread)];
    if (!*place)
        *place = malloc(local.size);
    return *place;
}

static void begin_local(void)
{
    if (!has_local())
        return;
    copy(local.block, local.kept, local.size);
    for (uint16_t k = 0; k < NICX_TASKS + NICX_HANDLERS; k++) {
        char *own = local_of(&nicxi.threads[k]);
        if (!own)
            continue;
        memset(own, 0, local.size);
        memcpy(own, local.image, local.image_size);
    }
}

bool nicxi_state_is_local(uint64_t at)
{
    return at - (uintptr_t)local.block < local.size;
}

static int own_errno[MOST_THREADS];

void nicxi_state_goes(const struct thread *from, const struct thread *to)
{
    if (from)
        own_errno[nicxi_number(from)] = errno;
    errno = own_errno[nicxi_number(to)];
    if (!has_local() || !local.of[nicxi_number(to)])
        return;
    if (from && local.of[nicxi_number(from)])
        memcpy(local.of[nicxi_number(from)], local.block, local.size);
    memcpy(local.block, local.of[nicxi_number(to)], local.size);
}

/* --- lifetime --- */

void nicxi_state_open(void)
{
    dl_iterate_phdr(find_local, NULL);
    nicxi_taken_open();
    memset(&nicxi_keys, 0, sizeof nicxi_keys);
}

void nicxi_state_keep(void)
{
    kept_data = kept_of(nicxi_data_begin, nicxi_data_end);
    kept_bss = kept_of(nicxi_bss_begin, nicxi_bss_end);
    kept_keys = nicxi_keys;
    nicxi_taken_keep();
    if (has_local())
        local.kept = kept_of(local.block, local.block + local.size);
}

void nicxi_state_back(void)
{
    if (kept_data)
        copy(nicxi_data_begin, kept_data, (size_t)(nicxi_data_end - nicxi_data_begin));
    if (kept_bss)
        copy(nicxi_bss_begin, kept_bss, (size_t)(nicxi_bss_end - nicxi_bss_begin));
    nicxi_keys = kept_keys;
    nicxi_taken_back();
    memset(own_errno, 0, sizeof own_errno);
    begin_local();
}

static void local_part(struct checkpoint *it, unsigned number)
{
    nicxi_part(it, &own_errno[number], sizeof own_errno[number]);
    if (has_local() && local.of[number])
        nicxi_part(it, local.of[number], local.size);
}

void nicxi_state_part(struct checkpoint *it)
{
    int now = errno;
    nicxi_part(it, nicxi_data_begin, (size_t)(nicxi_data_end - nicxi_data_begin));
    nicxi_part(it, nicxi_bss_begin, (size_t)(nicxi_bss_end - nicxi_bss_begin));
    nicxi_part(it, &nicxi_keys, sizeof nicxi_keys);
    nicxi_taken_part(it);
    if (has_local())
        nicxi_part(it, local.block, local.size);
    for (unsigned k = 0; k < nicxi.tasks; k++)
        local_part(it, k);
    for (unsigned k = NICX_TASKS; k < NICX_TASKS + (unsigned)nicxi.handlers; k++)
        local_part(it, k);
    nicxi_part(it, &now, sizeof now);
    errno = now;
}

void nicxi_state_close(void)
{
    free(kept_data);
    free(kept_bss);
    free(local.kept);
    for (unsigned k = 0; k < MOST_THREADS; k++)
        free(local.of[k]);
    memset(&local, 0, sizeof local);
    kept_data = kept_bss = NULL;
    nicxi_taken_close();
}
