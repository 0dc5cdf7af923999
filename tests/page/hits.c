// What the C entries say of a text, for tests/page/drive.py to hold the page to.
//
//     hits FILE < OFFSETS        the outcome and the counts of tokens, nodes and diagnostics; the listing; then, for each offset,
//                                the hit test's outcome, whether a node is found, and its place
//     hits tables SEED COUNT     so many tables made by chance, a line each: the text's length, the number of nodes, the first offset
//                                and the number of offsets; start and end of each node; and the three answers for each offset
//
// As the desk does, it reads at most 65,536 bytes of a file.
#include <inttypes.h>
#include <stdio.h>
#include <stdlib.h>
#include <string.h>

#include "../../c/cairo_m.h"

static unsigned char text[CAIRO_M_LONGEST_TEXT + 1];
static cairo_m_token tokens[CAIRO_M_LONGEST_TEXT];
static cairo_m_node nodes[CAIRO_M_LONGEST_TEXT];
static cairo_m_diagnostic diagnostics[CAIRO_M_LONGEST_TEXT];
static char listing[CAIRO_M_LIST_BOUND(CAIRO_M_LONGEST_TEXT)];

static void print_answer(size_t offset, size_t length, const void *table, size_t size, char end) {
    uint8_t found = 2;
    size_t place = 99;
    uint32_t outcome = cairo_m_hit_test(offset, length, table, size, &found, &place);
    printf("%u %u %zu%c", outcome, found, place, end);
}

static int file(const char *name) {
    FILE *in = fopen(name, "rb");
    if (in == NULL) {
        perror(name);
        return 2;
    }
    size_t length = fread(text, 1, sizeof text, in), token_count, node_count, diagnostic_count, size;
    fclose(in);
    cairo_m_record none;
    uint32_t outcome = cairo_m_read(text, length, tokens, sizeof tokens, nodes, sizeof nodes, diagnostics, sizeof diagnostics,
                                    &token_count, &node_count, &diagnostic_count, &none, 0);
    printf("%u %zu %zu %zu\n", outcome, token_count, node_count, diagnostic_count);
    size_t nodes_size = node_count * sizeof *nodes, diagnostics_size = diagnostic_count * sizeof *diagnostics;
    uint32_t listed = outcome == CAIRO_M_ACCEPTED
                          ? cairo_m_list(nodes, nodes_size, listing, sizeof listing, &size)
                          : cairo_m_list_refused(outcome, diagnostics, diagnostics_size, listing, sizeof listing, &size);
    if (listed != CAIRO_M_ACCEPTED) {
        fprintf(stderr, "hits: %s: the listing is refused as %u\n", name, listed);
        return 2;
    }
    printf("%.*s\n", (int)size, listing);
    for (size_t offset; scanf("%zu", &offset) == 1;)
        print_answer(offset, length, nodes, nodes_size, '\n');
    return 0;
}

static uint64_t state;

// xorshift64*
static unsigned below(unsigned limit) {
    state ^= state >> 12;
    state ^= state << 25;
    state ^= state >> 27;
    return (unsigned)((state * UINT64_C(2685821657736338717) >> 33) % limit);
}

// No trees: short spans that are equal, empty or reversed, near 0 and near the largest offset, and bytes behind the last whole
// entry that would be a hit.
static void one_table(void) {
    enum { NODES = 12, PLACES = 24 };
    unsigned count = below(NODES + 1), first = below(2) ? 0 : CAIRO_M_LONGEST_TEXT + 1 - PLACES, width = 1 + below(PLACES - 1);
    size_t length = first + below(PLACES + 4), offsets = PLACES + 5;
    memset(nodes, 0xFF, (NODES + 1) * sizeof *nodes);
    printf("%zu %u %u %zu", length, count, first, offsets);
    for (unsigned i = 0; i <= count; i++) {
        nodes[i].start = (uint16_t)(first + below(width));
        nodes[i].end = (uint16_t)(first + below(width + 1));
        if (i < count)
            printf(" %u %u", nodes[i].start, nodes[i].end);
    }
    putchar(' ');
    for (size_t i = 0; i < offsets; i++)
        print_answer(first + i, length, nodes, count * sizeof *nodes + below(sizeof *nodes), i + 1 < offsets ? ' ' : '\n');
}

int main(int words, char **word) {
    if (words == 2)
        return file(word[1]);
    if (words != 4 || strcmp(word[1], "tables") != 0) {
        fputs("usage: hits FILE < OFFSETS | hits tables SEED COUNT\n", stderr);
        return 2;
    }
    state = strtoull(word[2], NULL, 10);
    for (unsigned long i = strtoul(word[3], NULL, 10); i > 0; i--)
        one_table();
    return 0;
}
