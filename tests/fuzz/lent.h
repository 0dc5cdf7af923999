// Buffers at their exact size, lent to an entry of the archive.
#ifndef LENT_H
#define LENT_H

#include <stdbool.h>
#include <stddef.h>
#include <stdint.h>

// Where a buffer stands.
//   ENDS     it ends right before a page that may not be touched, guard bytes before it
//   BEGINS   it begins right after such a page, guard bytes after it
//   ON_HEAP  malloc has given it, for valgrind: nothing is put in it, so that a use of what it held is seen
enum way { ENDS, BEGINS, ON_HEAP };

struct lent {
    uint8_t *pages, *bytes;
    size_t room, size;
    enum way way;
};

// A buffer of up to `room` bytes; none is lent yet.
struct lent make(size_t room);

// Lends `size` bytes full of other bytes, which `garbage` chooses.
void lend(struct lent *b, size_t size, enum way way, uint8_t garbage);
void lend_bytes(struct lent *b, const uint8_t *bytes, size_t size, enum way way);

// Takes it back: the guard bytes have to be there. `give_back_bytes` compares what was only read.
void give_back(struct lent *b);
void give_back_bytes(struct lent *b, const uint8_t *bytes);

// Prints the words and ends the run with a signal, so that a fuzzer keeps the input.
_Noreturn void fail(const char *words);

// For bytes that libFuzzer takes as features of an input, where they are not zero; it clears them.
#define FEATURES __attribute__((section("__libfuzzer_extra_counters")))

#endif
