// The fuzzer: libFuzzer calls these.
//
// Inputs are kept for what is new in them: edges of the checks, blocks of the archive (blocks.c, where FUZZ_BLOCKS names a file), and
// what they were seen to do (the bytes marked FEATURES).
#include <stdlib.h>
#include <string.h>

#include "blocks.h"
#include "fuzz.h"

int LLVMFuzzerInitialize(int *words, char ***word);
int LLVMFuzzerTestOneInput(const uint8_t *input, size_t size);
size_t LLVMFuzzerCustomMutator(uint8_t *input, size_t size, size_t most, unsigned seed);
size_t LLVMFuzzerMutate(uint8_t *input, size_t size, size_t most);

int LLVMFuzzerInitialize(int *words, char ***word) {
    (void)words;
    (void)word;
    const char *blocks = getenv("FUZZ_BLOCKS");
    if (blocks != NULL) {
        watch_blocks(blocks);
        atexit(print_blocks);
    }
    return 0;
}

int LLVMFuzzerTestOneInput(const uint8_t *input, size_t size) {
    try_input(input, size);
    return 0;
}

// ---- changes by whole tokens

// splitmix64
static uint64_t state;

static size_t below(size_t bound) {
    uint64_t mixed = state += 0x9E3779B97F4A7C15;
    mixed = (mixed ^ (mixed >> 30)) * 0xBF58476D1CE4E5B9;
    mixed = (mixed ^ (mixed >> 27)) * 0x94D049BB133111EB;
    return (size_t)((mixed ^ (mixed >> 31)) % bound);
}

static const char *const parts[] = {
    "as", "const", "else", "false", "fn", "if", "let", "new", "return", "struct", "true", "while", "loop", "for", "in", "break",
    "continue", "use", "!", "&&", "||", "&", "|", "^", "==", "!=", "<=", ">=", "<", ">", "+", "-", "*", "/", "%", "=", "->", "(", ")",
    "{", "}", "[", "]", ",", ";", ":", "::", ".", "a", "felt", "u32", "bool", "T", "_x9", "0", "1", "7u32", "8felt", "9u8", "0x1felt",
    "0b12", "0o17", "0X1F", "0b101", "0B1u32", "0O7felt", "0xFu8", "18446744073709551615", "18446744073709551616",
    "99999999999999999999felt2", "// c\n", "//", "\xC3\xA9", "\xF0\x9F\x8E\xAC", "@", "#", "()", "(,)", "(a, b)", "(a,)", "[1; 3]",
    "[1; 0b11]", "[1, 2]", "a[0]", "a.0", "a.0x1", "a.b", "f()", "T { }", "T { x: 1 }", "new T[1]", "a as felt", "-a", "!a",
    "let a = 1;", "let (a, (b, c)): T = d;", "const A: T* = 1;", "const A: [T; 0x3] = 1;", "return;", "return a;", "a = b;", "a;",
    "{ }", "if (a) { }", "if a == b { } else { }", "loop break;", "while (a) continue;", "for (let i = 0; i < 9; i = i + 1) { }",
    "fn f() { }", "fn f(a: T, b: [felt; 3]) -> (T, T*) { }", "struct S { x: T, }", "use a::b;", "use a::b::{c, d};", "const A = 1;"};

enum { PARTS = sizeof parts / sizeof parts[0] };

// What sort of token a byte is of; marks stand alone.
static int sort(uint8_t c) {
    if ((c >= 'a' && c <= 'z') || (c >= 'A' && c <= 'Z') || (c >= '0' && c <= '9') || c == '_' || c >= 0x80)
        return 1;
    return c == ' ' || c == '\n' || c == '\t' || c == '\r' ? 2 : 0;
}

// A place between two tokens, at `from` or later.
static size_t border(const uint8_t *text, size_t length, size_t from) {
    size_t at = from + below(length - from + 1);
    while (at < length && at > from && sort(text[at]) != 0 && sort(text[at]) == sort(text[at - 1]))
        at++;
    return at;
}

// Puts bytes in the place of text[from..to].
static size_t replace(uint8_t *text, size_t length, size_t most, size_t from, size_t to, const uint8_t *bytes, size_t size) {
    if (length - (to - from) + size > most)
        return length;
    memmove(text + from + size, text + to, length - to);
    memcpy(text + from, bytes, size);
    return length - (to - from) + size;
}

size_t LLVMFuzzerCustomMutator(uint8_t *input, size_t size, size_t most, unsigned seed) {
    static uint8_t taken[1 << 17];
    state = seed;
    if (size <= HEAD || most <= HEAD || below(3) == 0)
        return LLVMFuzzerMutate(input, size, most);
    uint8_t *text = input + HEAD;
    size_t length = size - HEAD, from = border(text, length, 0), to = from;
    if (below(4) != 0 && from < length)
        to = border(text, from + below(length - from) % 40 + 1, from);
    switch (below(6)) {
    case 0: // another table size
        input[below(HEAD)] = (uint8_t)below(below(8) == 0 ? 256 : 0xF8);
        break;
    case 1: // gone
        length = replace(text, length, most - HEAD, from, to, taken, 0);
        break;
    case 2: { // a copy of it elsewhere
        size_t at = border(text, length, 0);
        memcpy(taken, text + from, to - from);
        length = replace(text, length, most - HEAD, at, at, taken, to - from);
        break;
    }
    case 3: { // in brackets, some times
        static const char *const pairs[] = {"()", "[]", "{}", "(,", "f)", "!;", "-*"};
        const char *pair = pairs[below(7)];
        for (size_t n = below(4) == 0 ? below(70) : 1; n > 0; n--) {
            length = replace(text, length, most - HEAD, to, to, (const uint8_t *)pair + 1, 1);
            length = replace(text, length, most - HEAD, from, from, (const uint8_t *)pair, 1);
            to = to + 1 < length ? to + 1 : length;
        }
        break;
    }
    default: { // another part for it
        const char *part = parts[below(PARTS)];
        length = replace(text, length, most - HEAD, from, to, (const uint8_t *)part, strlen(part));
        break;
    }
    }
    return HEAD + length;
}
