/* A driver in one file, together with the program that searches its schedules. */
#ifndef EXPLORE_DRIVER_H
#define EXPLORE_DRIVER_H

#include "nic82599_explore.h"

/* Threads without an argument call their parameter `unused`. */
#pragma GCC diagnostic ignored "-Wunused-parameter"
/* Arguments of SCENARIO override its own initializers. */
#ifdef __clang__
#pragma clang diagnostic ignored "-Winitializer-overrides"
#else
#pragma GCC diagnostic ignored "-Woverride-init"
#endif

/* A scenario from the file's bring_up, begin and end, plus further initializers. */
#define SCENARIO(...)                                                                                                  \
    {                                                                                                                  \
        .fifo = 64, .blocks = 16, .queues = 1, .bring_up = bring_up, .begin = begin, .end = end, __VA_ARGS__,          \
    }

/* Ends each file: builds a program from its scenario. */
#define DRIVER(...)                                                                                                    \
    static const nicx_scenario scenario = SCENARIO(__VA_ARGS__);                                                       \
                                                                                                                       \
    int main(int argc, char **argv)                                                                                    \
    {                                                                                                                  \
        return nicx_main(argc, argv, &scenario);                                                                       \
    }

#endif
