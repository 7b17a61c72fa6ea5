/* Tries the inputs in files and folders, one after another, for a compiler without a fuzzer: `TARGET PATH..`. */
#define _GNU_SOURCE
#include <dirent.h>
#include <errno.h>
#include <stdio.h>
#include <stdlib.h>
#include <string.h>
#include <sys/stat.h>

#include "input.h"

#define INPUT_MOST (1u << 20)

static unsigned int tried;

static void refuse(const char *path)
{
    fprintf(stderr, "%s: %s\n", path, strerror(errno));
    exit(2);
}

static void try_file(const char *path)
{
    static uint8_t bytes[INPUT_MOST];
    FILE *file = fopen(path, "rb");
    if (!file)
        refuse(path);
    size_t length = fread(bytes, 1, sizeof bytes, file);
    fclose(file);
    /* (of the exact size, so that a sanitizer sees reads past it) */
    uint8_t *exact = malloc(length ? length : 1);
    if (!exact)
        refuse(path);
    memcpy(exact, bytes, length);
    fprintf(stderr, "%s\n", path);
    LLVMFuzzerTestOneInput(exact, length);
    free(exact);
    tried++;
}

static int is_visible(const struct dirent *entry)
{
    return entry->d_name[0] != '.';
}

static void try_folder(const char *path)
{
    struct dirent **entries;
    int count = scandir(path, &entries, is_visible, alphasort);
    if (count < 0)
        refuse(path);
    for (int k = 0; k < count; k++) {
        char *name;
        if (asprintf(&name, "%s/%s", path, entries[k]->d_name) < 0)
            refuse(path);
        try_file(name);
        free(name);
        free(entries[k]);
    }
    free(entries);
}

int main(int count, char **words)
{
    for (int k = 1; k < count; k++) {
        struct stat about;
        if (stat(words[k], &about) != 0)
            refuse(words[k]);
        if (S_ISDIR(about.st_mode))
            try_folder(words[k]);
        else
            try_file(words[k]);
    }
    printf("%u inputs\n", tried);
    return 0;
}
