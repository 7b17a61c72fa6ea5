/* A test with several modes, chosen by its first argument, which precedes the search's arguments. */
#ifndef TEST_MODES_H
#define TEST_MODES_H

#include <string.h>

#include "../driver.h"

static const char *mode;

static inline bool is(const char *name)
{
    return !strcmp(mode, name);
}

/* An entry in a test's table: what a mode does. */
struct mode {
    const char *name;
    void (*run)(void);
};

static inline void run_mode(const struct mode *modes, size_t count)
{
    for (size_t k = 0; k < count; k++)
        if (is(modes[k].name))
            modes[k].run();
}

static inline int search_in_mode(int argc, char **argv, const nicx_scenario *scenario)
{
    argv[argc > 1] = argv[0];
    return nicx_main(argc - (argc > 1), argv + (argc > 1), scenario);
}

/* Ends a test with its default mode and its scenario, which may depend on the mode. */
#define MODES(usual, ...)                                                                                              \
    int main(int argc, char **argv)                                                                                    \
    {                                                                                                                  \
        mode = argc > 1 ? argv[1] : (usual);                                                                           \
        const nicx_scenario scenario = SCENARIO(__VA_ARGS__);                                                          \
        return search_in_mode(argc, argv, &scenario);                                                                  \
    }

#endif
