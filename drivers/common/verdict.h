/* A run's verdict (the problems found and the status), and parsing of its arguments. */
#ifndef DRIVERS_VERDICT_H
#define DRIVERS_VERDICT_H

#include <stdbool.h>
#include <stdint.h>

/* Reports a problem on standard error. Only the first twenty problems are printed; all are counted. wrong_total reports
   a problem that is always printed, for a run's totals, which come last. */
void problem(const char *format, ...) __attribute__((format(printf, 1, 2)));
void wrong_total(const char *format, ...) __attribute__((format(printf, 1, 2)));
unsigned int problems(void);

/* Prints what caused the problems so far, on standard error, even if some of them weren't printed. */
void reason(const char *format, ...) __attribute__((format(printf, 1, 2)));

/* Returns whether a reported count equals the run's own count. If it doesn't, reports a problem. */
bool same(const char *what, uint64_t reported, uint64_t counted);

/* Returns whether a count is the wanted number. If it isn't, reports a problem: "0 of 20 frames came back". */
bool all_of(const char *what, uint64_t count, uint64_t wanted);

/* Prints "nothing is wrong", or the number of problems. Returns the run's status, 0 or 1. */
int verdict(void);

/* Parses a decimal number from `least` to `most`. Returns false for anything else, including trailing characters. */
bool read_number(const char *word, unsigned long least, unsigned long most, unsigned int *number);

/* Parses a PCI device ID such as "10fb". Returns false if it isn't one. */
bool read_device(const char *word, uint16_t *device);

/* Returns the elapsed seconds since the first call. */
double seconds(void);

#endif
