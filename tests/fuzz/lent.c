#define _GNU_SOURCE
#include "lent.h"

#include <stdio.h>
#include <stdlib.h>
#include <string.h>
#include <sys/mman.h>
#include <unistd.h>

enum { GUARD = 0x5C, GUARD_SIZE = 1024 };

void fail(const char *words) {
    fprintf(stderr, "fuzz: %s\n", words);
    abort();
}

struct lent make(size_t room) {
    size_t page = (size_t)sysconf(_SC_PAGESIZE);
    size_t whole = (room + GUARD_SIZE + page - 1) / page * page;
    uint8_t *at = mmap(NULL, whole + 2 * page, PROT_NONE, MAP_PRIVATE | MAP_ANONYMOUS, -1, 0);
    if (at == MAP_FAILED || mprotect(at + page, whole, PROT_READ | PROT_WRITE) != 0)
        fail("no memory");
    return (struct lent){.pages = at + page, .bytes = at + page, .room = whole};
}

static uint8_t *guard(const struct lent *b) { return b->way == BEGINS ? b->bytes + b->size : b->bytes - GUARD_SIZE; }

static void place(struct lent *b, size_t size, enum way way) {
    b->size = size;
    b->way = way;
    if (way == ON_HEAP) {
        b->bytes = malloc(size);
        if (b->bytes == NULL)
            fail("no memory");
        return;
    }
    if (size + GUARD_SIZE > b->room)
        fail("too large a buffer");
    b->bytes = way == ENDS ? b->pages + b->room - size : b->pages;
    memset(guard(b), GUARD, GUARD_SIZE);
}

void lend(struct lent *b, size_t size, enum way way, uint8_t garbage) {
    place(b, size, way);
    if (way != ON_HEAP)
        memset(b->bytes, garbage | 1, size);
}

void lend_bytes(struct lent *b, const uint8_t *bytes, size_t size, enum way way) {
    place(b, size, way);
    memcpy(b->bytes, bytes, size);
}

void give_back(struct lent *b) {
    if (b->way == ON_HEAP) {
        free(b->bytes);
        return;
    }
    uint8_t guards[GUARD_SIZE];
    memset(guards, GUARD, GUARD_SIZE);
    if (memcmp(guard(b), guards, GUARD_SIZE) != 0)
        fail("a byte outside a buffer was written");
}

void give_back_bytes(struct lent *b, const uint8_t *bytes) {
    if (memcmp(b->bytes, bytes, b->size) != 0)
        fail("what is only read was written");
    give_back(b);
}
