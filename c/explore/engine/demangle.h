/* Demangles the names of Rust functions and variables, in rustc's older mangling (_ZN..17h..E) and its newer one
   (_R..). Leaves out generic arguments, lifetimes and hashes. Leaves C++ names alone. */
#ifndef NICX_DEMANGLE_H
#define NICX_DEMANGLE_H

#include <stdbool.h>
#include <stddef.h>

/* Returns whether the symbol is a Rust name that fits into `room`. If so, stores the name there in the form
   "race::poll". */
bool nicxi_demangle(const char *symbol, char *room, size_t size);

#endif
