/* Searches a whole program: its `main` is the first task, which starts from the beginning in each schedule. Until it
   creates a thread, or waits, no other thread exists, so its operations until then aren't points. The program runs the
   device's steps itself, through its own calls, as it does without a search. Its arguments follow "--". */
#define _GNU_SOURCE
#include <fcntl.h>
#include <stdio.h>
#include <stdlib.h>
#include <string.h>
#include <sys/wait.h>
#include <unistd.h>

#include "form.h"

int __real_main(int argc, char **argv, char **variables);
int __wrap_main(int argc, char **argv);

enum { STACK = 1 << 20, SCOUT_SECONDS = 20 };

struct sizes {
    uint8_t vfs;
    uint16_t fifo;
    uint32_t blocks;
};

static struct {
    int argc;
    char **argv;
    char name[64];
    int scout; /* file to which the scout process writes which controller the program opens; -1 in other processes */
    bool is_opened;
    char end[64];
    nicx_scenario scenario;
} program = {.scout = -1};

extern char **environ;

static void be_silent(void)
{
    int nowhere = nicxi_is_silent ? -1 : open("/dev/null", O_WRONLY);
    nicxi_is_silent = true;
    if (nowhere < 0)
        return;
    dup2(nowhere, STDOUT_FILENO);
    close(nowhere);
}

/* --- the controller: a scout process finds out once which one the program opens, and ends there --- */

static bool opens(uint8_t vfs, uint16_t fifo, uint32_t blocks, void **device)
{
    struct sizes sizes = {vfs, fifo, blocks};
    const nicx_scenario *scenario = &program.scenario;
    if (program.scout >= 0)
        _exit(write(program.scout, &sizes, sizeof sizes) != (ssize_t)sizeof sizes);
    if (!nicxi_is_ours() || program.is_opened)
        return false;
    if (vfs != scenario->vfs || fifo != scenario->fifo || blocks != scenario->blocks)
        nicxi_misuse("the arguments of nic_open differ from those in the first run: %u, %u, %u", vfs, fifo, blocks);
    program.is_opened = true;
    *device = nicxi.device.device;
    return true;
}

static struct sizes find_sizes(void)
{
    struct sizes sizes = {0, 1, 1};
    int ends[2], status;
    if (pipe(ends) != 0)
        return sizes;
    fflush(NULL);
    pid_t process = fork();
    if (process == 0) {
        program.scout = ends[1];
        be_silent();
        alarm(SCOUT_SECONDS);
        __real_main(program.argc, program.argv, environ);
        _exit(1);
    }
    close(ends[1]);
    if (process > 0 && read(ends[0], &sizes, sizeof sizes) != (ssize_t)sizeof sizes)
        sizes = (struct sizes){0, 1, 1};
    close(ends[0]);
    if (process > 0)
        waitpid(process, &status, 0);
    return sizes;
}

/* --- a schedule --- */

static void end_program(const char *how, int status)
{
    nicxi_program_begins();
    nicxi_call(READY, "exit", NULL); /* others may act until the program ends */
    if (status)
        snprintf(program.end, sizeof program.end, "%s %d", how, status);
    nicxi_cover_thread(0);
    nicxi.is_over = true;
    nicxi_leave();
}

static void ends(int status)
{
    if (nicxi.phase == RUNNING || nicxi_alone)
        end_program("the program exits with status", status);
}

static void run(void *unused)
{
    (void)unused;
    if (nicxi_is_in_search())
        be_silent();
    nicxi_alone = nicxi.self;
    nicxi.self = NULL;
    nicxi.phase = BRINGING_UP;
    end_program("main returns", __real_main(program.argc, program.argv, environ));
}

static const char *bring_up(void)
{
    nicxi.is_program = true;
    return NULL;
}

static void begin(void)
{
    program.is_opened = false;
    program.end[0] = 0;
    nicxi_alone = NULL;
    nicx_task("main", run, NULL);
}

static void part(struct checkpoint *it)
{
    nicxi_part(it, &program.is_opened, sizeof program.is_opened);
    nicxi_part(it, program.end, sizeof program.end);
}

static const char *end(void)
{
    return program.end[0] ? program.end : NULL;
}

/* --- the search --- */

static void take_name(const char *path)
{
    const char *slash = strrchr(path, '/');
    snprintf(program.name, sizeof program.name, "%s", slash ? slash + 1 : path);
    for (char *at = program.name; *at; at++)
        if (!strchr("abcdefghijklmnopqrstuvwxyzABCDEFGHIJKLMNOPQRSTUVWXYZ0123456789_-", *at))
            *at = '-';
}

/* Splits the arguments: the explorer's, and after "--" the program's, preceded by its name. */
static int part_words(int argc, char **argv)
{
    int own = 1;
    while (own < argc && strcmp(argv[own], "--") != 0)
        own++;
    program.argv = calloc((size_t)(argc - own) + 2, sizeof *program.argv);
    if (!program.argv)
        return argc;
    program.argv[program.argc++] = argv[0];
    for (int k = own + 1; k < argc; k++)
        program.argv[program.argc++] = argv[k];
    return own;
}

int __wrap_main(int argc, char **argv)
{
    int words = part_words(argc, argv);
    take_name(argv[0]);
    nicxi_program_opens = opens;
    nicxi_program_ends = ends;
    nicxi_program_part = part;
    struct sizes sizes = find_sizes();
    program.scenario = (nicx_scenario){.name = program.name,
                                       .vfs = sizes.vfs,
                                       .fifo = sizes.fifo,
                                       .blocks = sizes.blocks,
                                       .queues = 128,
                                       .bring_up = bring_up,
                                       .begin = begin,
                                       .end = end,
                                       .stack = STACK};
    return nicx_main(words, argv, &program.scenario);
}
