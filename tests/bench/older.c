// The speed of this tree's library against an older one, on texts full of constants.
//
//     tests/bench/older OLD.a [ROUNDS]
//
// Both stand in this one program; the older one's global symbols begin with `older_`. Before a text is timed, it is put through both
// with tables that take every text and with tables of the exact size, and outcome, counts and every byte of the tables are compared,
// those past what is lent as well. A difference or a refusal ends the run with status 1.
//
// As in compare.rs, one round times a batch of calls of each in turn, so that a change of the machine's speed meets both alike. A
// time is the median of the rounds; a ratio is the median of the rounds' ratios older / this, above 1 where this one is faster.
#define _POSIX_C_SOURCE 200809L
#include <inttypes.h>
#include <stdbool.h>
#include <stdio.h>
#include <stdlib.h>
#include <string.h>
#include <time.h>

#include "../../c/cairo_m.h"

// PAD bytes before the code of both: where a loop stands moves its speed.
#if defined(PAD) && PAD > 0
#define WORDS_OF(what) #what
#define WORDS(what) WORDS_OF(what)
__asm__(".pushsection .text.pad,\"ax\",@progbits\n.zero " WORDS(PAD) "\n.popsection");
#endif

enum { LENGTH = 60000, MOST_ROUNDS = 9999, UNTOUCHED = 0xAA };

typedef uint32_t lex_entry(const void *text, size_t length, void *tokens, size_t tokens_size, void *diagnostics,
                           size_t diagnostics_size, size_t *token_count, size_t *diagnostic_count);
typedef uint32_t read_entry(const void *text, size_t length, void *tokens, size_t tokens_size, void *nodes, size_t nodes_size,
                            void *diagnostics, size_t diagnostics_size, size_t *token_count, size_t *node_count,
                            size_t *diagnostic_count, cairo_m_record *list, size_t list_length);

lex_entry older_cairo_m_lex;
read_entry older_cairo_m_read;

enum { OLDER, THIS, SIDES };
enum job { LEXING, READING };

static lex_entry *const lexers[SIDES] = {older_cairo_m_lex, cairo_m_lex};
static read_entry *const readers[SIDES] = {older_cairo_m_read, cairo_m_read};

// ---- texts

enum { PART = 100 };

static char text[LENGTH];
static size_t length;

// Numbers that look random: splitmix64, as `mixed` in compare.rs.
static uint64_t mixed(uint64_t i) {
    uint64_t n = (i + 1) * UINT64_C(0x9E3779B97F4A7C15);
    n = (n ^ (n >> 30)) * UINT64_C(0xBF58476D1CE4E5B9);
    n = (n ^ (n >> 27)) * UINT64_C(0x94D049BB133111EB);
    return n ^ (n >> 31);
}

// Of 1 to 7 decimal digits, each number of digits as often.
static uint64_t short_number(uint64_t i) {
    uint64_t low = 1;
    for (uint64_t more = mixed(i + 1000000) % 7; more > 0; more--)
        low *= 10;
    return low == 1 ? mixed(i) % 10 : low + mixed(i) % (9 * low);
}

// Of up to so many bits, each number of bits as often.
static uint64_t wide_number(uint64_t i, unsigned bits) { return mixed(i) >> (64 - bits + mixed(i + 1000000) % bits); }

static const char *after(uint64_t i) { return i % 8 == 7 ? ",\n" : ", "; }

static void short_decimal(char *part, uint64_t i) { snprintf(part, PART, "%" PRIu64 "%s", short_number(i), after(i)); }

static void wide_decimal(char *part, uint64_t i) { snprintf(part, PART, "%" PRIu64 "%s", wide_number(i, 63), after(i)); }

static void hexadecimal(char *part, uint64_t i) { snprintf(part, PART, "0x%" PRIx64 "%s", wide_number(i, 64), after(i)); }

static void decimal_with_suffix(char *part, uint64_t i) {
    static const char *const suffixes[] = {"", "felt", "u32"};
    snprintf(part, PART, "%" PRIu64 "%s%s", short_number(i), suffixes[mixed(i + 2000000) % 3], after(i));
}

static void hexadecimal_with_felt(char *part, uint64_t i) {
    snprintf(part, PART, "0x%" PRIx64 "felt%s", wide_number(i, 64), after(i));
}

static const char *binary(uint64_t n) {
    static char digits[65];
    char *at = digits + 64;
    do
        *--at = (char)('0' + n % 2);
    while (n /= 2);
    return at;
}

// compare.rs's `numeral`, whose text is its `numerals`, byte for byte.
static void numeral(char *part, uint64_t i) {
    uint64_t n = mixed(i) >> (mixed(i + 1000000) % 60);
    switch (i % 6) {
    case 0: snprintf(part, PART, "0x%" PRIx64 ", ", n); break;
    case 1: snprintf(part, PART, "%" PRIu64 "felt, ", n % 1000); break;
    case 2: snprintf(part, PART, "0b%su32,\n", binary(n % 65536)); break;
    case 3: snprintf(part, PART, "0o%" PRIo64 ", ", n); break;
    default: snprintf(part, PART, "%" PRIu64 ", ", n); break;
    }
}

static const struct kind {
    const char *name;
    void (*constant)(char *part, uint64_t i);
} kinds[] = {
    {"decimals of 1 to 7 digits", short_decimal},
    {"decimals below 2^63", wide_decimal},
    {"hexadecimal below 2^64", hexadecimal},
    {"decimals, `felt`, `u32` or none", decimal_with_suffix},
    {"hexadecimal, `felt`", hexadecimal_with_felt},
    {"numerals", numeral},
};

static void add(const char *words) {
    size_t n = strlen(words);
    memcpy(text + length, words, n);
    length += n;
}

// An array of constants, as many as there is room for.
static void fill(const struct kind *kind) {
    static const char head[] = "const A = [\n", foot[] = "0];\n";
    char part[PART];
    length = 0;
    add(head);
    for (uint64_t i = 0;; i++) {
        kind->constant(part, i);
        if (length + strlen(part) + strlen(foot) > LENGTH)
            break;
        add(part);
    }
    add(foot);
}

// ---- calls

// Sizes in bytes of what is lent.
struct room {
    size_t tokens, nodes, diagnostics;
};

struct answer {
    uint32_t outcome;
    size_t tokens, nodes, diagnostics;
};

static const struct room every_text = {CAIRO_M_LONGEST_TEXT * sizeof(cairo_m_token), CAIRO_M_LONGEST_TEXT * sizeof(cairo_m_node),
                                       CAIRO_M_LONGEST_TEXT * sizeof(cairo_m_diagnostic)};

static struct tables {
    cairo_m_token tokens[CAIRO_M_LONGEST_TEXT];
    cairo_m_node nodes[CAIRO_M_LONGEST_TEXT];
    cairo_m_diagnostic diagnostics[CAIRO_M_LONGEST_TEXT];
} tables[SIDES];

static struct answer call(int side, enum job job, struct tables *t, struct room room) {
    struct answer said = {0};
    if (job == LEXING) {
        said.outcome = lexers[side](text, length, t->tokens, room.tokens, t->diagnostics, room.diagnostics, &said.tokens,
                                    &said.diagnostics);
    } else {
        cairo_m_record none[1];
        said.outcome = readers[side](text, length, t->tokens, room.tokens, t->nodes, room.nodes, t->diagnostics, room.diagnostics,
                                     &said.tokens, &said.nodes, &said.diagnostics, none, 0);
    }
    return said;
}

// ---- comparison

enum { MESSAGE = 250 };

static _Noreturn void stop(const char *name, enum job job, const char *words) {
    fprintf(stderr, "older: %s: %s: %s\n", name, job == LEXING ? "lexing" : "reading", words);
    exit(1);
}

static void same_bytes(const char *name, enum job job, const char *table, const void *older, const void *ours, size_t size) {
    const unsigned char *a = older, *b = ours;
    char words[MESSAGE];
    for (size_t i = 0; i < size; i++)
        if (a[i] != b[i]) {
            snprintf(words, MESSAGE, "%s differ first at byte %zu: older %u, this %u", table, i, (unsigned)a[i], (unsigned)b[i]);
            stop(name, job, words);
        }
}

// What both answer: it has to be the same, and an acceptance.
static struct answer compare(const char *name, enum job job, struct room room) {
    char words[MESSAGE];
    struct answer said[SIDES];
    for (int side = 0; side < SIDES; side++) {
        memset(&tables[side], UNTOUCHED, sizeof tables[side]);
        said[side] = call(side, job, &tables[side], room);
    }
    const struct answer *a = &said[OLDER], *b = &said[THIS];
    if (a->outcome != b->outcome || a->tokens != b->tokens || a->nodes != b->nodes || a->diagnostics != b->diagnostics) {
        snprintf(words, MESSAGE, "outcome, tokens, nodes, diagnostics: older %" PRIu32 " %zu %zu %zu, this %" PRIu32 " %zu %zu %zu",
                 a->outcome, a->tokens, a->nodes, a->diagnostics, b->outcome, b->tokens, b->nodes, b->diagnostics);
        stop(name, job, words);
    }
    const struct tables *older = &tables[OLDER], *ours = &tables[THIS];
    same_bytes(name, job, "tokens", older->tokens, ours->tokens, sizeof ours->tokens);
    same_bytes(name, job, "nodes", older->nodes, ours->nodes, sizeof ours->nodes);
    same_bytes(name, job, "diagnostics", older->diagnostics, ours->diagnostics, sizeof ours->diagnostics);
    if (b->outcome != CAIRO_M_ACCEPTED) {
        snprintf(words, MESSAGE, "refused by both with outcome %" PRIu32, b->outcome);
        stop(name, job, words);
    }
    return *b;
}

// ---- times

struct figures {
    double times[SIDES]; // of a call, in microseconds
    double ratio;
};

static double seconds(void) {
    struct timespec now;
    clock_gettime(CLOCK_MONOTONIC, &now);
    return (double)now.tv_sec + 1e-9 * (double)now.tv_nsec;
}

static int upward(const void *a, const void *b) {
    double x = *(const double *)a, y = *(const double *)b;
    return (x > y) - (x < y);
}

static double median(double *numbers, size_t count) {
    qsort(numbers, count, sizeof *numbers, upward);
    return numbers[count / 2];
}

// Both fill the same tables.
static struct figures measure(enum job job, struct room room, size_t rounds) {
    static const double batch = 0.004;
    static double times[SIDES][MOST_ROUNDS], ratios[MOST_ROUNDS];
    size_t repeats[SIDES] = {0};
    for (int side = 0; side < SIDES; side++) {
        double start = seconds();
        while (seconds() - start < batch) {
            call(side, job, &tables[THIS], room);
            repeats[side]++;
        }
    }
    for (size_t round = 0; round < rounds; round++) {
        for (int side = 0; side < SIDES; side++) {
            double start = seconds();
            for (size_t i = 0; i < repeats[side]; i++)
                call(side, job, &tables[THIS], room);
            times[side][round] = (seconds() - start) / (double)repeats[side] * 1e6;
        }
        ratios[round] = times[OLDER][round] / times[THIS][round];
    }
    struct figures figures = {.ratio = median(ratios, rounds)};
    for (int side = 0; side < SIDES; side++)
        figures.times[side] = median(times[side], rounds);
    return figures;
}

int main(int count, char **words) {
    char *end = NULL;
    unsigned long rounds = count == 2 ? strtoul(words[1], &end, 10) : 0;
    if (rounds < 1 || rounds > MOST_ROUNDS || *end != '\0') {
        fprintf(stderr, "usage: older ROUNDS, from 1 to %d\n", MOST_ROUNDS);
        return 2;
    }
    printf("| Text | Bytes | Tokens | Lexing: older, µs | this, µs | ratio | Reading: older, µs | this, µs | ratio |\n");
    printf("|---|--:|--:|--:|--:|--:|--:|--:|--:|\n");
    for (size_t i = 0; i < sizeof kinds / sizeof kinds[0]; i++) {
        struct figures figures[2];
        size_t tokens = 0;
        fill(&kinds[i]);
        for (enum job job = LEXING; job <= READING; job++) {
            struct answer said = compare(kinds[i].name, job, every_text);
            struct room exact = {said.tokens * sizeof(cairo_m_token), said.nodes * sizeof(cairo_m_node),
                                 said.diagnostics * sizeof(cairo_m_diagnostic)};
            compare(kinds[i].name, job, exact);
            figures[job] = measure(job, exact, rounds);
            tokens = said.tokens;
        }
        printf("| %s | %zu | %zu ", kinds[i].name, length, tokens);
        for (enum job job = LEXING; job <= READING; job++)
            printf("| %.1f | %.1f | %.2f ", figures[job].times[OLDER], figures[job].times[THIS], figures[job].ratio);
        printf("|\n");
    }
    return 0;
}
