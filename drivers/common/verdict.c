#ifndef _POSIX_C_SOURCE
#define _POSIX_C_SOURCE 200809L /* clock_gettime */
#endif
#include "verdict.h"

#include <ctype.h>
#include <errno.h>
#include <inttypes.h>
#include <stdarg.h>
#include <stdio.h>
#include <stdlib.h>
#include <time.h>

#define PROBLEMS_MOST 20

static unsigned int problem_count, hidden_count;

static void print(const char *what, const char *format, va_list rest)
{
    fprintf(stderr, "%s: ", what);
    vfprintf(stderr, format, rest);
    fprintf(stderr, "\n");
}

void problem(const char *format, ...)
{
    va_list rest;
    va_start(rest, format);
    if (++problem_count > PROBLEMS_MOST)
        hidden_count++;
    else
        print("wrong", format, rest);
    va_end(rest);
}

void wrong_total(const char *format, ...)
{
    va_list rest;
    va_start(rest, format);
    problem_count++;
    print("wrong", format, rest);
    va_end(rest);
}

void reason(const char *format, ...)
{
    va_list rest;
    va_start(rest, format);
    print("why", format, rest);
    va_end(rest);
}

unsigned int problems(void)
{
    return problem_count;
}

bool same(const char *what, uint64_t reported, uint64_t counted)
{
    if (reported != counted)
        wrong_total("%s: reported %" PRIu64 ", counted %" PRIu64, what, reported, counted);
    return reported == counted;
}

bool all_of(const char *what, uint64_t count, uint64_t wanted)
{
    if (count != wanted)
        wrong_total("%" PRIu64 " of %" PRIu64 " %s", count, wanted, what);
    return count == wanted;
}

int verdict(void)
{
    if (hidden_count)
        fprintf(stderr, "wrong: %u more problems aren't printed\n", hidden_count);
    printf(problem_count ? "problems found: %u\n" : "nothing is wrong\n", problem_count);
    fflush(stdout);
    return problem_count ? 1 : 0;
}

bool read_number(const char *word, unsigned long least, unsigned long most, unsigned int *number)
{
    char *end;
    if (!isdigit((unsigned char)*word))
        return false;
    errno = 0;
    unsigned long value = strtoul(word, &end, 10);
    if (errno != 0 || *end || value < least || value > most)
        return false;
    *number = (unsigned int)value;
    return true;
}

bool read_device(const char *word, uint16_t *device)
{
    char *end;
    unsigned long id = strtoul(word, &end, 16);
    *device = (uint16_t)id;
    return *word && !*end && id > 0 && id <= UINT16_MAX;
}

double seconds(void)
{
    static double first = -1;
    struct timespec now;
    clock_gettime(CLOCK_MONOTONIC, &now);
    double at = (double)now.tv_sec + (double)now.tv_nsec / 1e9;
    if (first < 0)
        first = at;
    return at - first;
}
