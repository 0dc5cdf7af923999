// The archive is not instrumented, so its blocks are watched from outside: the first byte of each is replaced by a breakpoint
// instruction. The signal's handler notes the block, puts the byte back and goes on there. Each block stops the run just once.
#define _GNU_SOURCE
#include "blocks.h"

#include <signal.h>
#include <stdbool.h>
#include <stdio.h>
#include <stdlib.h>
#include <string.h>
#include <sys/mman.h>
#include <ucontext.h>
#include <unistd.h>

#include "../../c/cairo_m.h"
#include "lent.h"

enum { BREAKPOINT = 0xCC, LONGEST_NAME = 64 };

struct block {
    uint8_t *at;
    uint8_t byte;
    bool met;
    char function[LONGEST_NAME];
};

FEATURES uint8_t block_runs[MOST_BLOCKS];

static struct block blocks[MOST_BLOCKS];
static size_t block_count;

static int by_address(const void *a, const void *b) {
    const struct block *x = a, *y = b;
    return (x->at > y->at) - (x->at < y->at);
}

static void meet(int number, siginfo_t *info, void *context) {
    (void)number;
    (void)info;
    greg_t *registers = ((ucontext_t *)context)->uc_mcontext.gregs;
    uint8_t *at = (uint8_t *)(uintptr_t)registers[REG_RIP] - 1;
    size_t low = 0, high = block_count;
    while (low < high) {
        size_t middle = (low + high) / 2;
        if (blocks[middle].at < at)
            low = middle + 1;
        else
            high = middle;
    }
    if (low == block_count || blocks[low].at != at)
        fail("a breakpoint that is not ours");
    *at = blocks[low].byte;
    blocks[low].met = true;
    block_runs[low] = 1;
    registers[REG_RIP]--;
}

void watch_blocks(const char *file) {
    FILE *in = fopen(file, "r");
    if (in == NULL)
        fail("no file of blocks");
    long offset;
    char function[LONGEST_NAME];
    while (fscanf(in, "%ld %63s", &offset, function) == 2) {
        if (block_count == MOST_BLOCKS)
            fail("too many blocks");
        struct block *b = &blocks[block_count++];
        b->at = (uint8_t *)(uintptr_t)cairo_m_read + offset;
        memcpy(b->function, function, sizeof function);
    }
    fclose(in);
    if (block_count == 0)
        fail("no blocks");
    qsort(blocks, block_count, sizeof blocks[0], by_address);

    struct sigaction action = {.sa_sigaction = meet, .sa_flags = SA_SIGINFO};
    uintptr_t page = (uintptr_t)sysconf(_SC_PAGESIZE);
    uint8_t *first = (uint8_t *)((uintptr_t)blocks[0].at / page * page);
    size_t size = (size_t)(blocks[block_count - 1].at - first) + 1;
    if (sigaction(SIGTRAP, &action, NULL) != 0 || mprotect(first, size, PROT_READ | PROT_WRITE | PROT_EXEC) != 0)
        fail("the blocks cannot be watched");
    for (size_t i = 0; i < block_count; i++) {
        blocks[i].byte = *blocks[i].at;
        *blocks[i].at = BREAKPOINT;
    }
}

void print_blocks(void) {
    size_t all = 0;
    for (size_t i = 0; i < block_count; i++)
        all += blocks[i].met;
    printf("fuzz: %zu of %zu blocks of the archive have run\n", all, block_count);
    for (size_t i = 0, next; i < block_count; i = next) {
        size_t met = 0;
        for (next = i; next < block_count && strcmp(blocks[next].function, blocks[i].function) == 0; next++)
            met += blocks[next].met;
        if (met == next - i)
            continue;
        printf("fuzz:   %s: %zu of %zu, not at", blocks[i].function, met, next - i);
        for (size_t j = i; j < next; j++)
            if (!blocks[j].met)
                printf(" +0x%zx", (size_t)(blocks[j].at - blocks[i].at));
        printf("\n");
    }
}
