// Measures cairo_m_lex on texts of several kinds, with a token table of just the size needed and with one of 65,536 entries.
#define _DEFAULT_SOURCE
#include <stdint.h>
#include <stdio.h>
#include <stdlib.h>
#include <string.h>
#include <time.h>

uint32_t cairo_m_lex(const uint8_t *text, size_t len, uint8_t *tokens, size_t tokens_len, uint8_t *diagnostics,
                     size_t diagnostics_len, size_t *token_count, size_t *diagnostic_count);

enum { LENGTH = 60000, ROUNDS = 11, MOST_ENTRIES = 65536, DIAGNOSTICS = 1024 };

static char text[LENGTH + 4096];
static size_t length;
static uint8_t tokens[MOST_ENTRIES * 16], diagnostics[DIAGNOSTICS * 8];

// splitmix64
static uint64_t state;

static unsigned below(unsigned bound) {
    uint64_t mixed = state += 0x9E3779B97F4A7C15;
    mixed = (mixed ^ (mixed >> 30)) * 0xBF58476D1CE4E5B9;
    mixed = (mixed ^ (mixed >> 27)) * 0x94D049BB133111EB;
    return (unsigned)((mixed ^ (mixed >> 31)) % bound);
}

static void add(const char *words) {
    size_t n = strlen(words);
    memcpy(text + length, words, n);
    length += n;
}

#define ADDF(...) (length += (size_t)sprintf(text + length, __VA_ARGS__))

static void code(void) {
    static const char *const names[] = {"total", "index", "balance", "left_child", "n", "acc", "limit", "next_value"};
    for (unsigned i = 0; length < LENGTH; i++) {
        const char *a = names[below(8)], *b = names[below(8)];
        ADDF("// Adds up the entries of table %u, from the first one to the limit.\n", i);
        ADDF("fn sum_%u(%s: felt, items: felt*, limit: u32) -> felt {\n", i, a);
        ADDF("    let %s_%u: felt = %u;\n    let step = 0x%xu32;\n", b, i, below(100000), below(65536));
        ADDF("    while (%s_%u != limit) {\n", b, i);
        ADDF("        if (%s == %ufelt && step <= limit) {\n            %s_%u = %s_%u + items[%u] * 2;\n", a, below(50), b, i, b, i, below(16));
        ADDF("        } else {\n            return helper_%u(%s, step);\n        }\n    }\n    return %s_%u;\n}\n\n", i, a, b, i);
        ADDF("struct Point%u { x: felt, y: u32, inner: (felt, felt) }\n\nconst LIMIT_%u: felt = %u;\n\n", i, i, below(1000000));
    }
}

static void marks(void) {
    static const char *const all[] = {"!", "&&", "||", "&", "|", "^", "==", "!=", "<=", ">=", "<", ">", "+", "-", "*", "/",
                                      "%", "=", "->", "(", ")", "{", "}", "[", "]", ",", ";", ":", "::", "."};
    while (length < LENGTH) {
        const char *mark = all[below(30)];
        // a second stroke would begin a comment
        if (below(16) == 0 || (length > 0 && text[length - 1] == '/' && mark[0] == '/'))
            add(below(4) ? " " : "\n");
        add(mark);
    }
}

static void numerals(void) {
    while (length < LENGTH) {
        switch (below(6)) {
        case 0: ADDF("0x%x", below(1u << 31)); break;
        case 1: ADDF("%ufelt", below(1000)); break;
        case 2: ADDF("0x%Xu32", below(65536)); break;
        case 3: ADDF("1844674407370955%04u", below(1000)); break;
        default: ADDF("%u", below(1u << (1 + below(30)))); break;
        }
        add(" ");
    }
}

static void two_bytes(void) {
    while (length < LENGTH) {
        add("// ");
        for (unsigned i = 0; i < 40; i++)
            ADDF("%c%c", 0xC3, 0x80 + below(64));
        add("\n");
    }
}

static void names(void) {
    while (length < LENGTH) {
        for (unsigned i = 0, n = 20 + below(60); i < n; i++)
            ADDF("%c", "abcdefghijklmnopqrstuvwxyz_ABCDEFGHIJKLMNOPQRSTUVWXYZ0123456789"[below(i == 0 ? 53 : 63)]);
        add(" ");
    }
}

static void spaces(void) {
    while (length < LENGTH)
        add(below(8) ? "    " : "\n\t\r\n");
}

static double seconds(void) {
    struct timespec now;
    clock_gettime(CLOCK_MONOTONIC, &now);
    return (double)now.tv_sec + 1e-9 * (double)now.tv_nsec;
}

static int upward(const void *a, const void *b) {
    double x = *(const double *)a, y = *(const double *)b;
    return (x > y) - (x < y);
}

static double measure(size_t entries) {
    double rates[ROUNDS];
    size_t token_count = 0, diagnostic_count = 0;
    for (int round = 0; round < ROUNDS; round++) {
        double start = seconds(), spent = 0;
        size_t calls = 0;
        for (; spent < 0.03; calls++, spent = seconds() - start)
            if (cairo_m_lex((uint8_t *)text, length, tokens, entries * 16, diagnostics, sizeof diagnostics, &token_count, &diagnostic_count) != 0) {
                fprintf(stderr, "bench: the text was refused\n");
                exit(1);
            }
        rates[round] = (double)calls * (double)length / spent / 1e6;
    }
    qsort(rates, ROUNDS, sizeof rates[0], upward);
    return rates[ROUNDS / 2];
}

int main(void) {
    static const struct {
        const char *name;
        void (*fill)(void);
    } kinds[] = {{"code", code}, {"marks", marks}, {"numerals", numerals}, {"two-byte comments", two_bytes}, {"long names", names}, {"white space", spaces}};
    printf("%-18s %8s %8s %14s %14s\n", "text", "bytes", "tokens", "exact table", "65,536 entries");
    for (size_t i = 0; i < sizeof kinds / sizeof kinds[0]; i++) {
        size_t token_count = 0, diagnostic_count = 0;
        length = 0;
        state = i;
        kinds[i].fill();
        cairo_m_lex((uint8_t *)text, length, tokens, 0, diagnostics, 0, &token_count, &diagnostic_count);
        printf("%-18s %8zu %8zu %9.0f MB/s", kinds[i].name, length, token_count, measure(token_count));
        printf(" %9.0f MB/s\n", measure(MOST_ENTRIES));
    }
    return 0;
}
