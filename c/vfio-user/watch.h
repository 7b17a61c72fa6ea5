/* Register accesses at which the device is held, like a debugger's breakpoints. */
#ifndef VFU_WATCH_H
#define VFU_WATCH_H

#include <stdbool.h>
#include <stdint.h>

#define WATCH_PLACES 8
#define WATCH_TEXT 48

struct watch_place {
    char text[WATCH_TEXT]; /* as requested: "w TDT[0]" */
    unsigned int function; /* on the bus: 0 for the physical function, v + 1 for virtual function v */
    bool is_write;
    uint32_t offset;
    uint64_t times; /* how often the device was held at this place */
};

struct watch {
    struct watch_place places[WATCH_PLACES];
    unsigned int count;
    const struct watch_place *met; /* place that was hit and not yet reported; null: none */
    uint32_t word;                 /* the value written there */
};

/* Adds a place, written like a script's access: "w TDT[0]", "r EICR", "vw 1 VFTDT[0]", "vr 0 0x0100". Returns null, or
   why the place is refused. */
const char *watch_add(struct watch *it, const char *words, unsigned int functions);
void watch_clear(struct watch *it);
/* Returns whether an access is at one of the places. */
bool watch_meets(struct watch *it, unsigned int function, bool is_write, uint32_t offset, uint32_t word);

#endif
