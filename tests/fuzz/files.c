// Puts files through the checks of the fuzzer, one after the other.
//
//     files [-heap] [-texts] [-blocks BLOCKS] FILE..
//
//   -heap     buffers of malloc alone, for valgrind
//   -texts    a file is a text, and is tried with a number of heads; else it is an input with its head
//   -blocks   says at the end which blocks of the archive have run, where blocks.py has written BLOCKS
#include <stdio.h>
#include <stdlib.h>
#include <string.h>

#include "blocks.h"
#include "fuzz.h"

enum { ROOM = 1 << 17 };

static const uint8_t heads[][HEAD] = {
    {0, 0, 0, 0, 0x00, 0, 1, 5},           // exact room for all
    {1, 0, 1, 1, 0xFF, 0, 11, 200},        // a byte less for tokens and diagnostics
    {56, 1, 9, 16, 0x5A, 0, 2, 33},        // a byte less for nodes
    {6, 6, 6, 6, 0xA5, 0, 255, 255},       // as many entries as bytes
    {3 + 8 * 15, 59, 3, 3, 0x21, 0, 0, 0}, // an entry more, and odd bytes
    {2, 2, 2, 2, 0x80, 0, 27, 1},          // none
};

int main(int words, char **word) {
    static uint8_t input[HEAD + ROOM];
    bool heap = false, texts = false, blocks = false;
    int at = 1;
    for (; at < words && word[at][0] == '-'; at++) {
        if (strcmp(word[at], "-heap") == 0) {
            heap = true;
        } else if (strcmp(word[at], "-texts") == 0) {
            texts = true;
        } else if (strcmp(word[at], "-blocks") == 0 && at + 1 < words) {
            blocks = true;
            watch_blocks(word[++at]);
        } else {
            fputs("usage: files [-heap] [-texts] [-blocks BLOCKS] FILE..\n", stderr);
            return 2;
        }
    }
    size_t tries = 0;
    for (int i = at; i < words; i++) {
        FILE *in = fopen(word[i], "rb");
        if (in == NULL) {
            fprintf(stderr, "files: no file %s\n", word[i]);
            return 2;
        }
        size_t n = fread(input + HEAD, 1, ROOM, in);
        fclose(in);
        for (size_t j = 0; j < (texts ? sizeof heads / sizeof heads[0] : 1); j++, tries++) {
            const uint8_t *bytes = input + HEAD;
            size_t size = n;
            if (texts) {
                memcpy(input, heads[j], HEAD);
                bytes = input;
                size += HEAD;
            }
            (heap ? try_input_on_heap : try_input)(bytes, size);
        }
    }
    printf("files: %d files, %zu inputs, all as owed\n", words - at, tries);
    if (blocks)
        print_blocks();
    return 0;
}
