/* Whether a schedule changes nothing but what the search restores: the device, the driver's variables, its memory from
   malloc and its stacks. A function of the C library may change something else: the library's own variables, files, the
   process. So a driver may call only the functions in `leaves_nothing`, which change nothing else, and intercepted
   functions. Of these, the ones marked NOTED aren't replaced. They only note that they were called. */
#define _GNU_SOURCE
#include <elf.h>
#include <link.h>
#include <string.h>

#include "form.h"

bool nicxi_is_outside, nicxi_is_silent;

#ifdef __x86_64__

#define WRAP(name, ours)                                                                                               \
    __asm__(".text\n"                                                                                                  \
            ".p2align 4\n"                                                                                             \
            ".weak __real_" #name "\n"                                                                                 \
            ".globl __wrap_" #name "\n"                                                                                \
            ".type __wrap_" #name ", @function\n"                                                                      \
            "__wrap_" #name ":\n"                                                                                      \
            "    endbr64\n" ours "    jmp *__real_" #name "@GOTPCREL(%rip)\n"                                          \
            ".size __wrap_" #name ", . - __wrap_" #name "\n");
#define NOTED(name) WRAP(name, "    movb $1, nicxi_is_outside(%rip)\n")
#define NOTED_ALOUD(name)                                                                                              \
    WRAP(name, "    cmpb $0, nicxi_is_silent(%rip)\n"                                                                  \
               "    jne 1f\n"                                                                                          \
               "    movb $1, nicxi_is_outside(%rip)\n"                                                                 \
               "1:\n")

/* clang-format off */
/* Functions that the explorer's own library uses too. Others that aren't in `leaves_nothing` are found by name. */
NOTED(__cxa_thread_atexit_impl)
NOTED(access)
NOTED(alarm)
NOTED(atexit)
NOTED(close)
NOTED(dl_iterate_phdr)
NOTED(dprintf)
NOTED(dup2)
NOTED(execlp)
NOTED(fclose)
NOTED(fdopen)
NOTED(feof)
NOTED(ferror)
NOTED(fflush)
NOTED(fgetc)
NOTED(fgets)
NOTED(fopen)
NOTED(fprintf)
NOTED(fputc)
NOTED(fputs)
NOTED(fstat)
NOTED(fstat64)
NOTED(fwrite)
NOTED(getcwd)
NOTED(getrusage)
NOTED(lseek)
NOTED(lseek64)
NOTED(mmap)
NOTED(mmap64)
NOTED(mprotect)
NOTED(munmap)
NOTED(open)
NOTED(open64)
NOTED(pipe)
NOTED(prctl)
NOTED(pthread_atfork)
NOTED(pthread_sigmask)
NOTED(raise)
NOTED(read)
NOTED(readlink)
NOTED(realpath)
NOTED(send)
NOTED(setitimer)
NOTED(setsockopt)
NOTED(sigaction)
NOTED(sigaltstack)
NOTED(socketpair)
NOTED(stat)
NOTED(stat64)
NOTED(statx)
NOTED(strerror)
NOTED(strsignal)
NOTED(write)
NOTED(writev)

/* These print to standard output, which a search of a whole program discards. */
NOTED_ALOUD(printf)
NOTED_ALOUD(putchar)
NOTED_ALOUD(puts)
NOTED_ALOUD(vprintf)
/* clang-format on */

static const char *const intercepted[] = {
#ifndef NICX_NAMES_ONLY
#include "intercepted.inc"
#endif
    "",
};

/* Functions of the C library that only read and write their arguments, and those that a program's start needs. */
static const char *const leaves_nothing[] = {
    "abort",
    "abs",
    "atoi",
    "atol",
    "bcmp",
    "getenv",
    "getpid",
    "gettid",
    "htonl",
    "htons",
    "labs",
    "memchr",
    "memcmp",
    "memcpy",
    "memmove",
    "mempcpy",
    "memrchr",
    "memset",
    "mtx_init",
    "ntohl",
    "ntohs",
    "pthread_attr_destroy",
    "pthread_attr_getdetachstate",
    "pthread_attr_getstacksize",
    "pthread_attr_init",
    "pthread_attr_setdetachstate",
    "pthread_attr_setstacksize",
    "pthread_condattr_destroy",
    "pthread_condattr_init",
    "pthread_condattr_setclock",
    "pthread_equal",
    "pthread_mutex_init",
    "pthread_mutexattr_destroy",
    "pthread_mutexattr_init",
    "pthread_mutexattr_settype",
    "pthread_rwlock_init",
    "pthread_spin_destroy",
    "sigaddset",
    "sigemptyset",
    "snprintf",
    "stpcpy",
    "strcasecmp",
    "strcat",
    "strchr",
    "strchrnul",
    "strcmp",
    "strcpy",
    "strcspn",
    "strlen",
    "strncasecmp",
    "strncat",
    "strncmp",
    "strncpy",
    "strnlen",
    "strpbrk",
    "strrchr",
    "strsep",
    "strspn",
    "strstr",
    "strtod",
    "strtok_r",
    "strtol",
    "strtoll",
    "strtoul",
    "strtoull",
    "sysconf",
    "tolower",
    "toupper",
    "vsnprintf",
    "__assert_fail",
    "__ctype_b_loc",
    "__ctype_tolower_loc",
    "__ctype_toupper_loc",
    "__errno_location",
    "__isoc23_strtol",
    "__isoc23_strtoll",
    "__isoc23_strtoul",
    "__isoc23_strtoull",
    "__memcpy_chk",
    "__memmove_chk",
    "__memset_chk",
    "__snprintf_chk",
    "__stack_chk_fail",
    "__strcat_chk",
    "__strcpy_chk",
    "__strncpy_chk",
    "__tls_get_addr",
    "__vsnprintf_chk",
    /* variables, and what the linker and the compiler add */
    "environ",
    "__environ",
    "stderr",
    "stdout",
    "_ITM_deregisterTMCloneTable",
    "_ITM_registerTMCloneTable",
    "__asan_init",
    "__cxa_atexit",
    "__cxa_demangle",
    "__cxa_finalize",
    "__gmon_start__",
    "__libc_start_main",
    "__register_atfork",
    "nicx_unseen_parts",
};

static bool is_in(const char *name, const char *const *list, size_t count)
{
    size_t k = 0;
    while (k < count && strcmp(list[k], name) != 0)
        k++;
    return k < count;
}

static bool is_harmless(const char *name)
{
    return !strncmp(name, "_Unwind_", 8) || is_in(name, intercepted, sizeof intercepted / sizeof *intercepted) ||
           is_in(name, leaves_nothing, sizeof leaves_nothing / sizeof *leaves_nothing);
}

/* What the program takes from shared libraries: these names come before all others in its table of names. */
struct names {
    const ElfW(Sym) * list;
    const char *text;
    uint32_t count;
};

static struct names imports_of(const struct dl_phdr_info *info, const ElfW(Dyn) * at)
{
    struct names names = {NULL, NULL, 0};
    for (; at->d_tag != DT_NULL; at++) {
        uintptr_t place = at->d_un.d_ptr < info->dlpi_addr ? at->d_un.d_ptr + info->dlpi_addr : at->d_un.d_ptr;
        if (at->d_tag == DT_SYMTAB)
            names.list = (const ElfW(Sym) *)place;
        else if (at->d_tag == DT_STRTAB)
            names.text = (const char *)place;
        else if (at->d_tag == DT_GNU_HASH)
            names.count = ((const uint32_t *)place)[1];
    }
    return names;
}

static bool are_harmless(const struct names *names)
{
    bool are = names->list && names->text && names->count;
    for (uint32_t k = 1; are && k < names->count; k++)
        are = is_harmless(names->text + names->list[k].st_name);
    return are;
}

/* The first entry is the program itself. */
static int look(struct dl_phdr_info *info, size_t size, void *unused)
{
    (void)size;
    (void)unused;
    for (int k = 0; k < info->dlpi_phnum; k++)
        if (info->dlpi_phdr[k].p_type == PT_DYNAMIC) {
            struct names names = imports_of(info, (const ElfW(Dyn) *)(info->dlpi_addr + info->dlpi_phdr[k].p_vaddr));
            return are_harmless(&names) ? 2 : 1;
        }
    return 1;
}

bool nicxi_stays_inside(void)
{
    static int found;
    if (!found)
        found = dl_iterate_phdr(look, NULL);
    return found == 2 && !nicxi_is_outside;
}

#else

bool nicxi_stays_inside(void)
{
    return false;
}

#endif
