/* Recordings: `recorder FOLDER`. c/test compares the calls with the recorded lines. */
#define _POSIX_C_SOURCE 200809L
#include <string.h>
#include <sys/wait.h>
#include <unistd.h>

#include "check.h"

static char *folder;

static const char *path_of(const char *name)
{
    static char path[4096];
    snprintf(path, sizeof path, "%s/%s", folder, name);
    return path;
}

/* Returns whether a string equals `form` with the library's edition in place of "%s". */
static bool is_text(const char *text, const char *form)
{
    char want[4096];
    const char *edition = strstr(form, "%s");
    snprintf(want, sizeof want, "%.*s%s%s", edition ? (int)(edition - form) : 0, form, edition ? nic_edition() : "",
             edition ? edition + 2 : form);
    if (strcmp(text, want) != 0)
        fprintf(stderr, "found:\n%s\nexpected:\n%s\n", text, want);
    return strcmp(text, want) == 0;
}

/* Returns whether a file's contents equal this string. A file that doesn't exist counts as empty. */
static bool holds(const char *name, const char *form)
{
    char text[4096];
    FILE *file = fopen(path_of(name), "r");
    if (!file)
        return false;
    size_t length = fread(text, 1, sizeof text - 1, file);
    fclose(file);
    text[length] = 0;
    return is_text(text, form);
}

/* Opens a controller with this many blocks and a separate recording, and closes it. */
static void begin(nic *n, const char *name, uint32_t blocks)
{
    CHECK(nic_record(path_of(name)));
    ANSWERS(NIC_DONE, nic_open(n, 0, 4, blocks));
}

static void finish(nic *n)
{
    nic_close(n);
    CHECK(nic_record(NULL));
}

static bool is_there(const char *name)
{
    return access(path_of(name), F_OK) == 0;
}

#define HEAD                                                                                                           \
    "#: nic vfs 0 fifo 4 blocks 2\n# recorded by the %s library " NIC82599_VERSION "; nicbench run --vfs 0 --fifo 4\n"

#define LENT_HEAD                                                                                                      \
    "#: nic vfs 0 fifo 4 blocks 8\n# recorded by the %s library " NIC82599_VERSION "; nicbench run --vfs 0 --fifo 4\n"

/* Two controllers opened later have a file each, a controller that was already open has none, and null ends all
   recordings. */
static void files(void)
{
    nic early, first, second, late;
    ANSWERS(NIC_DONE, nic_open(&early, 0, 4, 2));
    CHECK(nic_record(path_of("pair")));
    ANSWERS(NIC_DONE, nic_open(&first, 0, 4, 2));
    ANSWERS(NIC_DONE, nic_open(&second, 0, 4, 2));
    ANSWERS(NIC_DONE, nic_write32(&early, NIC_RXCTRL, 1));
    ANSWERS(NIC_DONE, nic_lend(&first, 1));
    ANSWERS(NIC_DONE, nic_lend(&second, 0));
    nic_close(&second);
    CHECK(nic_record(NULL));
    ANSWERS(NIC_DONE, nic_take(&first, 1));
    ANSWERS(NIC_DONE, nic_open(&late, 0, 4, 2));
    CHECK(holds("pair", HEAD "lend 1                       # done\n"));
    CHECK(holds("pair.2", HEAD "lend 0                       # done\n"));
    CHECK(!is_there("pair.3"));
    nic_close(&early);
    nic_close(&first);
    nic_close(&late);
}

#define NOTE_50 "01234567890123456789012345678901234567890123456789"
#define NOTE_200 NOTE_50 NOTE_50 NOTE_50 NOTE_50

/* Snapshots, an image, and refused calls, which scripts can't contain. */
static void beyond_scripts(void)
{
    nic n;
    nic_kept kept, unknown;
    uint64_t line = 0;
    static const char long_text[] = NOTE_200 "and more";
    const uint8_t odd[1] = {0}, text[] = "size 64\n";
    ANSWERS(NIC_DONE, nic_open(&n, 0, 4, 2));
    ANSWERS(NIC_DONE, nic_note(&n, "of a controller that isn't recorded"));
    ANSWERS(NIC_DONE, nic_snapshot(&n, &unknown));
    nic_close(&n);
    begin(&n, "beyond", 2);
    ANSWERS(NIC_DONE, nic_lend_all(&n));
    ANSWERS(NIC_DONE, nic_snapshot(&n, &kept));
    ANSWERS(NIC_DONE, nic_restore(&n, &kept));
    nic_drop_snapshot(&kept);
    ANSWERS(NIC_IMAGE_ODD_LENGTH, nic_install_image(&n, odd, 1));
    ANSWERS(NIC_DONE, nic_install_text(&n, text, sizeof text - 1, &line));
    ANSWERS(NIC_NO_BLOCK, nic_lend(&n, 70000));
    ANSWERS(NIC_DONE, nic_note(&n, "a ring\n\x7F\xC3 # of mine"));
    ANSWERS(NIC_DONE, nic_note(&n, long_text));
    ANSWERS(NIC_DONE, nic_restore(&n, &unknown));
    nic_drop_snapshot(&unknown);
    finish(&n);
    CHECK(holds("beyond", HEAD "#: lend 0 to 1               # done\n"
                               "#: snapshot 1\n"
                               "#: restore 1\n"
                               "#: drop 1\n"
                               "# an EEPROM image: image: odd length\n"
                               "#: text 73697a652036340a\n"
                               "# lend: no block\n"
                               "# note: a ring??? # of mine\n"
                               "# note: " NOTE_200 "\n"
                               "#: restore 0\n"));
}

/* Memory that the caller stored into is poked once before it is read; other memory isn't poked. */
static void in_place(void)
{
    static uint8_t memory[2 * NIC_BLOCK_BYTES];
    uint8_t bytes[4];
    nic n;
    begin(&n, "place", 2);
    ANSWERS(NIC_DONE, nic_lend_memory(&n, 0, memory, sizeof memory));
    memory[17] = 5;
    memory[40] = 6;
    for (unsigned k = 0; k < 2; k++)
        ANSWERS(NIC_DONE, nic_dma_read(&n, 20, bytes, sizeof bytes));
    ANSWERS(NIC_DONE, nic_unlend_memory(&n, NIC_BLOCK_BYTES, NIC_BLOCK_BYTES));
    ANSWERS(NIC_BAD_MEMORY, nic_lend_memory(&n, 1, memory, NIC_BLOCK_BYTES));
    finish(&n);
    CHECK(holds("place", HEAD "#: lend 0 to 1               # done\n#: in place 0 to 1\n"
                              "data d0 00050000000000000000000000000000\n"
                              "poke 0x00010 d0              # done\n"
                              "peek 0x00010 1               # bytes 00050000000000000000000000000000\n"
                              "peek 0x00010 1               # bytes 00050000000000000000000000000000\n"
                              "unlend 1                     # taken 1\n"
                              "# lend: bad memory\n"));
}

/* An empty frame is recorded as a line that is valid in a script. */
static void no_bytes(void)
{
    nic n;
    nic_outcome outcome;
    begin(&n, "empty", 8);
    ANSWERS(NIC_DROPPED, nic_arrive(&n, NULL, 0, &outcome));
    ANSWERS(NIC_DROPPED, nic_arrive(&n, (const uint8_t *)"", 1, &outcome));
    finish(&n);
    CHECK(holds("empty", LENT_HEAD "data d0 00  #: no bytes\n"
                                   "arrive d0                    # dropped off\n"
                                   "data d1 00\n"
                                   "arrive d1                    # dropped off\n"));
}

/* The lines written to a pipe for two lent blocks: a pipe's lines can't be removed. */
static void lent_to_pipe(void)
{
    nic n;
    char text[512];
    int ends[2], kept = dup(STDOUT_FILENO);
    CHECK(kept >= 0 && pipe(ends) == 0 && dup2(ends[1], STDOUT_FILENO) >= 0 && close(ends[1]) == 0);
    CHECK(nic_record("/dev/stdout"));
    CHECK(dup2(kept, STDOUT_FILENO) >= 0 && close(kept) == 0);
    ANSWERS(NIC_DONE, nic_open(&n, 0, 4, 2));
    ANSWERS(NIC_DONE, nic_lend(&n, 0));
    ANSWERS(NIC_DONE, nic_lend(&n, 1));
    finish(&n);
    ssize_t length = read(ends[0], text, sizeof text - 1);
    CHECK(length > 0 && close(ends[0]) == 0);
    text[length] = 0;
    CHECK(is_text(text, HEAD "lend 0                       # done\nlend 1                       # done\n"));
}

/* Blocks lent one after another share one line, whichever calls lend them. The line is in the file after each call. */
static void lent_ranges(void)
{
    nic n;
    begin(&n, "lent", 8);
    ANSWERS(NIC_DONE, nic_lend(&n, 0));
    CHECK(holds("lent", LENT_HEAD "lend 0                       # done\n"));
    ANSWERS(NIC_DONE, nic_lend(&n, 1));
    ANSWERS(NIC_DONE, nic_lend(&n, 2));
    CHECK(holds("lent", LENT_HEAD "#: lend 0 to 2               # done\n"));
    ANSWERS(NIC_DONE, nic_lend(&n, 5)); /* not the next block */
    ANSWERS(NIC_NO_BLOCK, nic_lend(&n, 5));
    ANSWERS(NIC_DONE, nic_lend(&n, 6)); /* another call was made in between */
    ANSWERS(NIC_DONE, nic_lend_all(&n));
    ANSWERS(NIC_DONE, nic_lend_all(&n)); /* no block is left to lend */
    ANSWERS(NIC_DONE, nic_take(&n, 7));
    ANSWERS(NIC_DONE, nic_lend(&n, 7));
    finish(&n);
    CHECK(holds("lent", LENT_HEAD "#: lend 0 to 2               # done\n"
                                  "lend 5                       # done\n"
                                  "lend 5                       # no block\n"
                                  "lend 6                       # done\n"
                                  "#: lend 3 to 4               # done\n"
                                  "lend 7                       # done\n"
                                  "unlend 7                     # taken 7\n"
                                  "lend 7                       # done\n"));
    lent_to_pipe();
}

/* A killed process loses no line, its parent's recording doesn't contain its events, and %p is its process ID. */
static void children(void)
{
    nic n;
    int status = 0;
    char name[64];
    begin(&n, "child.%p", 2);
    pid_t child = fork();
    if (child == 0) {
        nic mine;
        nic_lend(&n, 0);
        if (nic_open(&mine, 0, 4, 2) != NIC_DONE)
            _exit(1);
        nic_lend(&mine, 1);
        abort();
    }
    CHECK(child > 0 && waitpid(child, &status, 0) == child && WIFSIGNALED(status));
    snprintf(name, sizeof name, "child.%ld", (long)child);
    CHECK(holds(name, HEAD "lend 1                       # done\n"));
    snprintf(name, sizeof name, "child.%ld", (long)getpid());
    CHECK(holds(name, HEAD));
    finish(&n);
}

/* A path that can't be written is reported, and everything continues. */
static void bad_path(void)
{
    nic n;
    CHECK(!nic_record(path_of("nowhere/file")));
    ANSWERS(NIC_DONE, nic_open(&n, 0, 4, 2));
    ANSWERS(NIC_DONE, nic_lend(&n, 0));
    nic_close(&n);
}

int main(int words, char **word)
{
    CHECK(words == 2);
    folder = word[1];
    files();
    beyond_scripts();
    in_place();
    lent_ranges();
    no_bytes();
    children();
    bad_path();
    return 0;
}
