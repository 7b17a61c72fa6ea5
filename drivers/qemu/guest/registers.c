/* Runs in a guest: accesses a card's register many times through BAR 0, and prints how long that took.

     registers DEVICE OFFSET COUNT         COUNT reads of 4 bytes
     registers DEVICE OFFSET COUNT WORD    COUNT writes of this value, and a read after them

   DEVICE has the form 0000:01:00.0. All numbers but COUNT are hexadecimal. */
#include <errno.h>
#include <fcntl.h>
#include <stdint.h>
#include <stdio.h>
#include <stdlib.h>
#include <string.h>
#include <sys/mman.h>
#include <time.h>

#define BYTES 0x20000u

static double now(void)
{
    struct timespec time;
    clock_gettime(CLOCK_MONOTONIC, &time);
    return (double)time.tv_sec + (double)time.tv_nsec / 1e9;
}

static volatile uint32_t *registers_of(const char *device)
{
    char name[256];
    snprintf(name, sizeof name, "/sys/bus/pci/devices/%s/resource0", device);
    int file = open(name, O_RDWR | O_SYNC);
    void *at = file < 0 ? MAP_FAILED : mmap(NULL, BYTES, PROT_READ | PROT_WRITE, MAP_SHARED, file, 0);
    return at == MAP_FAILED ? NULL : at;
}

int main(int count, char **words)
{
    volatile uint32_t *registers = count > 3 ? registers_of(words[1]) : NULL;
    if (!registers) {
        fprintf(stderr, "registers: arguments are missing, or the card can't be opened: %s\n", strerror(errno));
        return 2;
    }
    unsigned long offset = strtoul(words[2], NULL, 16), many = strtoul(words[3], NULL, 10);
    uint32_t word = count > 4 ? (uint32_t)strtoul(words[4], NULL, 16) : 0;
    if (offset >= BYTES)
        return 2;
    double began = now();
    for (unsigned long i = 0; i < many; i++) {
        if (count > 4)
            registers[offset / 4] = word;
        else
            (void)registers[offset / 4];
    }
    (void)registers[offset / 4];
    printf("registers: %lu %s in %.3f s\n", many, count > 4 ? "writes" : "reads", now() - began);
    return 0;
}
