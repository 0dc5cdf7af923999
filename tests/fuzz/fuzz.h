// One input of the fuzzer through every entry of the archive.
#ifndef FUZZ_H
#define FUZZ_H

#include "lent.h"

// An input is this many bytes that choose the sizes of tables and the like, then the text.
enum { HEAD = 8 };

// Puts an input through every entry and holds the answers to what 01 says. Tables at ENDS and at BEGINS have to give one answer.
void try_input(const uint8_t *input, size_t size);

// The same with buffers of malloc alone.
void try_input_on_heap(const uint8_t *input, size_t size);

// What an input was seen to do, a byte for each: its outcome with the number of tokens and of diagnostics; where it is accepted, the
// tokens that stand side by side; where reading stopped, the token there and the one before it; and of a node that was hit, its place
// and its length.
enum { OUTCOMES = 12, BITS = 17, NEIGHBOURS = 51 };
extern uint8_t tokens_seen[OUTCOMES * BITS], diagnostics_seen[OUTCOMES * BITS], neighbours_seen[NEIGHBOURS * NEIGHBOURS];
extern uint8_t stops_seen[NEIGHBOURS * NEIGHBOURS], hits_seen[BITS * BITS];

#endif
