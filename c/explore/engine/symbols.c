#define _GNU_SOURCE
#include "symbols.h"

#include "demangle.h"

#include <elf.h>
#include <fcntl.h>
#include <link.h>
#include <signal.h>
#include <stdint.h>
#include <stdio.h>
#include <stdlib.h>
#include <string.h>
#include <sys/mman.h>
#include <sys/socket.h>
#include <sys/stat.h>
#include <sys/time.h>
#include <sys/wait.h>
#include <unistd.h>

/* --- the file that contains an address, and the offset in it --- */

struct module {
    char path[MOST_FILE];
    uintptr_t from, at; /* the address, and its offset in the file */
    bool is_found;
};

/* Formats the path of the program's file, through a descriptor that stays open. Under an emulator of another processor,
   /proc/self/exe is right only in the process that opens it, but another process reads the lines. If the file is
   replaced, the descriptor still refers to the old one. */
static void name_program(char *path, size_t size)
{
    static int own = -1;
    if (own < 0)
        own = open("/proc/self/exe", O_RDONLY | O_CLOEXEC);
    if (own >= 0)
        snprintf(path, size, "/proc/%ld/fd/%d", (long)getpid(), own);
    else
        snprintf(path, size, "/proc/%ld/exe", (long)getpid());
}

static int look_at_module(struct dl_phdr_info *info, size_t size, void *argument)
{
    struct module *module = argument;
    (void)size;
    for (int k = 0; k < info->dlpi_phnum; k++) {
        const ElfW(Phdr) *part = &info->dlpi_phdr[k];
        if (part->p_type != PT_LOAD || module->from - info->dlpi_addr - part->p_vaddr >= part->p_memsz)
            continue;
        module->at = module->from - info->dlpi_addr;
        module->is_found = true;
        if (info->dlpi_name && *info->dlpi_name)
            snprintf(module->path, sizeof module->path, "%s", info->dlpi_name);
        else
            name_program(module->path, sizeof module->path);
        return 1;
    }
    return 0;
}

static bool find_module(const void *address, struct module *module)
{
    memset(module, 0, sizeof *module);
    module->from = (uintptr_t)address;
    dl_iterate_phdr(look_at_module, module);
    return module->is_found;
}

/* --- symbols of a file --- */

struct image {
    const char *bytes;
    size_t size;
    char path[MOST_FILE];
};

static struct image image; /* the file examined last */

static bool open_image(const char *path)
{
    struct stat about;
    if (image.bytes && !strcmp(image.path, path))
        return true;
    if (image.bytes)
        munmap((void *)(uintptr_t)image.bytes, image.size);
    image.bytes = NULL;
    int file = open(path, O_RDONLY | O_CLOEXEC);
    if (file < 0)
        return false;
    void *memory = MAP_FAILED;
    if (fstat(file, &about) == 0 && about.st_size > (off_t)sizeof(ElfW(Ehdr)))
        memory = mmap(NULL, (size_t)about.st_size, PROT_READ, MAP_PRIVATE, file, 0);
    close(file);
    if (memory == MAP_FAILED)
        return false;
    image.bytes = memory;
    image.size = (size_t)about.st_size;
    snprintf(image.path, sizeof image.path, "%s", path);
    return true;
}

/* Returns a part of the file, or null if the file doesn't contain all of it. */
static const void *piece(uint64_t at, uint64_t size)
{
    return at <= image.size && size <= image.size - at ? image.bytes + at : NULL;
}

static const ElfW(Shdr) * sections(uint32_t *count)
{
    const ElfW(Ehdr) *head = piece(0, sizeof *head);
    *count = 0;
    if (!head || memcmp(head->e_ident, ELFMAG, SELFMAG) != 0 || head->e_shentsize != sizeof(ElfW(Shdr)))
        return NULL;
    const ElfW(Shdr) *first = piece(head->e_shoff, (uint64_t)head->e_shnum * sizeof *first);
    if (first)
        *count = head->e_shnum;
    return first;
}

struct symbol {
    uintptr_t at, size;
    const char *name; /* points into the image */
};

/* Finds the smallest symbol of a table that covers an address. */
static bool look_in(const ElfW(Shdr) * table, const ElfW(Shdr) * names, uintptr_t at, struct symbol *found)
{
    const ElfW(Sym) *list = piece(table->sh_offset, table->sh_size);
    const char *text = piece(names->sh_offset, names->sh_size);
    bool any = false;
    if (!list || !text || !names->sh_size || text[names->sh_size - 1])
        return false;
    for (size_t k = 0; k < table->sh_size / sizeof *list; k++) {
        unsigned kind = list[k].st_info & 0xF;
        if ((kind != STT_OBJECT && kind != STT_FUNC) || list[k].st_name >= names->sh_size)
            continue;
        if (at - list[k].st_value >= list[k].st_size || (any && list[k].st_size >= found->size))
            continue;
        found->at = list[k].st_value;
        found->size = list[k].st_size;
        found->name = text + list[k].st_name;
        any = true;
    }
    return any;
}

static bool find_symbol(const void *address, struct module *module, struct symbol *found)
{
    uint32_t count;
    if (!address || !find_module(address, module) || !open_image(module->path))
        return false;
    const ElfW(Shdr) *first = sections(&count);
    for (uint32_t k = 0; k < count; k++)
        if ((first[k].sh_type == SHT_SYMTAB || first[k].sh_type == SHT_DYNSYM) && first[k].sh_link < count &&
            look_in(&first[k], &first[first[k].sh_link], module->at, found))
            return true;
    return false;
}

/* Provided by C++'s library, which only C++ programs contain. In the link form, this function allocates from the
   driver's heap unless it gets a buffer. */
char *__cxa_demangle(const char *symbol, char *room, size_t *size, int *status) __attribute__((weak));

static bool by_library(const char *symbol, char *room, size_t size)
{
    size_t given = 1 << 16;
    int status = -1;
    char *own = __cxa_demangle && !strncmp(symbol, "_Z", 2) ? malloc(given) : NULL;
    const char *name = own ? __cxa_demangle(symbol, own, &given, &status) : NULL;
    if (name && !status)
        snprintf(room, size, "%s", name);
    if (!name || name == own)
        free(own);
    return name && !status;
}

bool nicxi_symbol(const void *address, char *room, size_t size)
{
    struct module module;
    struct symbol found;
    char name[MOST_SYMBOL];
    if (!find_symbol(address, &module, &found))
        return false;
    if (!nicxi_demangle(found.name, name, sizeof name) && !by_library(found.name, name, sizeof name))
        snprintf(name, sizeof name, "%s", found.name);
    if (module.at == found.at)
        snprintf(room, size, "%s", name);
    else
        snprintf(room, size, "%s+0x%lx", name, (unsigned long)(module.at - found.at));
    return true;
}

const void *nicxi_function(const void *address)
{
    struct module module;
    struct symbol found;
    if (!find_symbol(address, &module, &found))
        return NULL;
    return (const char *)address - (module.at - found.at);
}

/* --- lines: from a program that reads debug information, one address at a time --- */

static struct {
    pid_t process;
    FILE *from;
    int to;
    char path[MOST_FILE];
    bool is_absent; /* nothing is known about this file */
} asked;

static void end_asking(void)
{
    int status;
    if (asked.from)
        fclose(asked.from);
    if (asked.process > 0)
        waitpid(asked.process, &status, 0);
    memset(&asked, 0, sizeof asked);
}

void nicxi_symbols_close(void)
{
    end_asking();
    if (image.bytes)
        munmap((void *)(uintptr_t)image.bytes, image.size);
    image.bytes = NULL;
}

static void become(int end, const char *path)
{
    int nowhere = open("/dev/null", O_WRONLY);
    dup2(end, STDIN_FILENO);
    dup2(end, STDOUT_FILENO);
    if (nowhere >= 0)
        dup2(nowhere, STDERR_FILENO);
    execlp("addr2line", "addr2line", "-a", "-f", "-i", "-e", path, (char *)NULL);
    execlp("llvm-symbolizer", "llvm-symbolizer", "--output-style=GNU", "-a", "-f", "-i", "-e", path, (char *)NULL);
    _exit(127);
}

static void begin_asking(const char *path)
{
    int ends[2];
    struct timeval patience = {20, 0};
    end_asking();
    snprintf(asked.path, sizeof asked.path, "%s", path);
    asked.is_absent = true;
    if (socketpair(AF_UNIX, SOCK_STREAM | SOCK_CLOEXEC, 0, ends) != 0)
        return;
    fflush(NULL);
    asked.process = fork();
    if (asked.process == 0)
        become(ends[1], path);
    close(ends[1]);
    setsockopt(ends[0], SOL_SOCKET, SO_RCVTIMEO, &patience, sizeof patience);
    asked.to = ends[0];
    asked.from = fdopen(ends[0], "r");
    asked.is_absent = asked.process < 0 || !asked.from;
    if (!asked.from)
        close(ends[0]);
}

/* Reads a line of a reply, without its newline. */
static bool next_line(char *room, size_t size)
{
    if (!fgets(room, (int)size, asked.from))
        return false;
    room[strcspn(room, "\r\n")] = 0;
    return true;
}

/* Parses "FILE:31" or "FILE:31 (discriminator 2)"; "??:0" is none. */
static bool take_line(const char *text, struct source_line *line)
{
    const char *colon = strrchr(text, ':');
    unsigned long number = colon ? strtoul(colon + 1, NULL, 10) : 0;
    if (!number || *text == '?' || (size_t)(colon - text) >= sizeof line->file)
        return false;
    memcpy(line->file, text, (size_t)(colon - text));
    line->file[colon - text] = 0;
    line->line = (unsigned)number;
    return true;
}

/* Sends the address, then 0: the reply to 0 marks the end of the wanted reply. A reply is a line with the address, then
   pairs of lines with a function and a place. */
static unsigned ask(uintptr_t at, struct source_line *lines, unsigned most)
{
    char text[2 * MOST_FILE], words[64];
    unsigned count = 0;
    int length = snprintf(words, sizeof words, "0x%lx\n0x0\n", (unsigned long)at);
    bool goes_on = send(asked.to, words, (size_t)length, MSG_NOSIGNAL) == length && next_line(text, sizeof text);
    while (goes_on) {
        goes_on = next_line(text, sizeof text);
        if (!goes_on || !strncmp(text, "0x0", 3))
            break;
        goes_on = next_line(text, sizeof text);
        if (goes_on && count < most && take_line(text, &lines[count]))
            count++;
    }
    goes_on = goes_on && next_line(text, sizeof text) && next_line(text, sizeof text);
    asked.is_absent = !goes_on;
    return count;
}

/* Blocks SIGALRM during the lookup: despite SA_RESTART it would interrupt a read with a timeout. */
unsigned nicxi_lines(const void *instruction, struct source_line *lines, unsigned most)
{
    struct module module;
    sigset_t tick, before;
    if (!find_module(instruction, &module))
        return 0;
    sigemptyset(&tick);
    sigaddset(&tick, SIGALRM);
    pthread_sigmask(SIG_BLOCK, &tick, &before);
    if (strcmp(asked.path, module.path) != 0)
        begin_asking(module.path);
    unsigned count = asked.is_absent ? 0 : ask(module.at, lines, most);
    pthread_sigmask(SIG_SETMASK, &before, NULL);
    return count;
}

bool nicxi_source(const struct source_line *line, char *room, size_t size)
{
    char text[1024];
    unsigned number = 1;
    FILE *file = fopen(line->file, "r");
    if (!file)
        return false;
    bool any = fgets(text, sizeof text, file) != NULL;
    while (any && number < line->line) {
        number += text[strcspn(text, "\n")] == '\n';
        any = fgets(text, sizeof text, file) != NULL;
    }
    fclose(file);
    if (!any)
        return false;
    const char *from = text + strspn(text, " \t");
    size_t length = strcspn(from, "\r\n");
    while (length && (from[length - 1] == ' ' || from[length - 1] == '\t'))
        length--;
    snprintf(room, size, "%.*s", (int)length, from);
    return true;
}
