// Which blocks of the archive's machine code have run.
#ifndef BLOCKS_H
#define BLOCKS_H

#include <stddef.h>
#include <stdint.h>

enum { MOST_BLOCKS = 1 << 13 };

// One byte for each block, 1 when it has run for the first time.
extern uint8_t block_runs[MOST_BLOCKS];

// Puts a breakpoint at every block that the file names (blocks.py writes it). A breakpoint is gone once it was met.
void watch_blocks(const char *file);

// Prints how many blocks have run, by function where some have not.
void print_blocks(void);

#endif
