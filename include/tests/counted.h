/* The C library's allocation, counted. Link counted.c with -Wl,--wrap=malloc,--wrap=calloc,--wrap=realloc,--wrap=free. */
#ifndef COUNTED_H
#define COUNTED_H

#include <stdint.h>
#include <stdio.h>
#include <stdlib.h>

/* Calls of malloc, calloc and realloc, and of free with a block, since the start. */
extern unsigned long allocations, frees;

/* Blocks that were allocated and aren't freed. */
extern unsigned long blocks;

/* The allocation of this number and all later ones fail. 0 for none. */
extern unsigned long failing;

/* Reads the file that is the program's first argument, and ends the program if it can't. */
uint8_t *read_argument(int argc, char **argv, size_t *length);

#endif
