// Runs the cases of crates/lexer_cases through the C entries and prints the answers in the same form.
// Every buffer stands once right before and once right after a page that may not be touched, with guard bytes on its other side.
#define _DEFAULT_SOURCE
#include <stdint.h>
#include <stdio.h>
#include <stdlib.h>
#include <string.h>
#include <sys/mman.h>
#include <unistd.h>

uint32_t cairo_m_lex(const uint8_t *text, size_t len, uint8_t *tokens, size_t tokens_len, uint8_t *diagnostics,
                     size_t diagnostics_len, size_t *token_count, size_t *diagnostic_count);
uint32_t cairo_m_numeral(const uint8_t *spelling, size_t len, uint64_t *value, uint8_t *suffix, uint8_t *base, uint8_t *reason);

enum { GUARD = 0x5C, POISON = 0xAA, LONGEST_TEXT = 1 << 17, LARGEST_TABLE = 1 << 14 };

// A buffer lent to an entry, and the pages around it.
struct lent {
    uint8_t *pages, *bytes;
    size_t room, size;
};

static void stop(const char *words, size_t line) {
    fprintf(stderr, "entries: line %zu: %s\n", line, words);
    exit(1);
}

static struct lent make(size_t room) {
    size_t page = (size_t)sysconf(_SC_PAGESIZE);
    size_t whole = (room + page - 1) / page * page;
    uint8_t *at = mmap(NULL, whole + 2 * page, PROT_NONE, MAP_PRIVATE | MAP_ANONYMOUS, -1, 0);
    if (at == MAP_FAILED || mprotect(at + page, whole, PROT_READ | PROT_WRITE) != 0)
        stop("no memory", 0);
    return (struct lent){.pages = at + page, .room = whole};
}

// The buffer ends with the pages (way 0) or begins with them (way 1).
static void lend(struct lent *b, size_t size, int way) {
    memset(b->pages, GUARD, b->room);
    b->bytes = way == 0 ? b->pages + b->room - size : b->pages;
    b->size = size;
    memset(b->bytes, POISON, size);
}

static void see_guards(const struct lent *b, size_t line) {
    for (size_t i = 0; i < b->room; i++)
        if ((b->pages + i < b->bytes || b->pages + i >= b->bytes + b->size) && b->pages[i] != GUARD)
            stop("a byte outside a buffer was written", line);
}

static unsigned two(const uint8_t *p) { return p[0] | (unsigned)p[1] << 8; }

static uint64_t eight(const uint8_t *p) {
    uint64_t value = 0;
    for (int i = 7; i >= 0; i--)
        value = value << 8 | p[i];
    return value;
}

static size_t nonzero(const uint8_t *p, const uint8_t *end) {
    size_t count = 0;
    for (; p < end; p++)
        count += *p != 0;
    return count;
}

static size_t least(size_t a, size_t b) { return a < b ? a : b; }

// Two hexadecimal digits for a byte, `XX*N.` for a byte N times; anything else ends the text.
static size_t read_bytes(const char *at, uint8_t *text) {
    size_t n = 0;
    unsigned byte = 0;
    int used = 0;
    for (;;) {
        if (*at == '*') {
            char *end;
            for (size_t more = strtoul(at + 1, &end, 10); more > 1 && n < LONGEST_TEXT; more--)
                text[n++] = (uint8_t)byte;
            at = end + 1;
        } else if (n < LONGEST_TEXT && sscanf(at, "%2x%n", &byte, &used) == 1 && used == 2) {
            text[n++] = (uint8_t)byte;
            at += 2;
        } else {
            return n;
        }
    }
}

static struct lent text_room, token_room, diagnostic_room, count_room, count_room_2, suffix_room, base_room, reason_room;

static void lend_text(const uint8_t *text, size_t n, int way) {
    lend(&text_room, n, way);
    memcpy(text_room.bytes, text, n);
}

static void see_text(const uint8_t *text, size_t n, size_t line) {
    see_guards(&text_room, line);
    if (memcmp(text_room.bytes, text, n) != 0)
        stop("the text was changed", line);
}

static void lex(FILE *out, const uint8_t *text, size_t n, size_t token_bytes, size_t diagnostic_bytes, int way, size_t line) {
    lend_text(text, n, way);
    lend(&token_room, token_bytes, way);
    lend(&diagnostic_room, diagnostic_bytes, way);
    lend(&count_room, sizeof(size_t), way);
    lend(&count_room_2, sizeof(size_t), way);
    uint8_t *t = token_room.bytes, *d = diagnostic_room.bytes;
    size_t *token_count = (size_t *)count_room.bytes, *diagnostic_count = (size_t *)count_room_2.bytes;
    uint32_t outcome = cairo_m_lex(text_room.bytes, n, t, token_bytes, d, diagnostic_bytes, token_count, diagnostic_count);
    see_text(text, n, line);
    see_guards(&token_room, line);
    see_guards(&diagnostic_room, line);
    see_guards(&count_room, line);
    see_guards(&count_room_2, line);

    size_t tokens = outcome == 0 ? least(*token_count, token_bytes / 16) : 0;
    size_t diagnostics = outcome == 3 ? least(*diagnostic_count, diagnostic_bytes / 8) : 0;
    size_t token_stray = nonzero(t + 16 * tokens, t + token_bytes);
    size_t diagnostic_stray = nonzero(d + 8 * diagnostics, d + diagnostic_bytes);
    for (size_t i = 0; i < tokens; i++)
        token_stray += t[16 * i + 7] != 0;
    for (size_t i = 0; i < diagnostics; i++)
        diagnostic_stray += nonzero(d + 8 * i + 5, d + 8 * i + 8);
    fprintf(out, "l %u %zu %zu %zu %zu", outcome, *token_count, *diagnostic_count, token_stray, diagnostic_stray);
    for (size_t i = 0; i < tokens; i++, t += 16)
        fprintf(out, " t%u,%u,%u,%u,%llu,%u", t[0], t[1], two(t + 2), two(t + 4), (unsigned long long)eight(t + 8), t[6]);
    for (size_t i = 0; i < diagnostics; i++, d += 8)
        fprintf(out, " d%u,%u,%u", two(d), two(d + 2), d[4]);
    fputc('\n', out);
}

static void numeral(FILE *out, const uint8_t *text, size_t n, int way, size_t line) {
    lend_text(text, n, way);
    lend(&count_room, 8, way);
    lend(&suffix_room, 1, way);
    lend(&base_room, 1, way);
    lend(&reason_room, 1, way);
    uint64_t *value = (uint64_t *)count_room.bytes;
    uint8_t *suffix = suffix_room.bytes, *base = base_room.bytes, *reason = reason_room.bytes;
    uint32_t outcome = cairo_m_numeral(text_room.bytes, n, value, suffix, base, reason);
    see_text(text, n, line);
    see_guards(&count_room, line);
    see_guards(&suffix_room, line);
    see_guards(&base_room, line);
    see_guards(&reason_room, line);
    fprintf(out, "n %u %llu %u %u %u", outcome, (unsigned long long)*value, *suffix, *base, *reason);
    if (outcome == 0)
        fprintf(out, " number %llu %u %u\n", (unsigned long long)*value, *suffix, *base);
    else if (outcome == 3)
        fprintf(out, " lexical %u\n", *reason);
    else
        fputs(outcome == 1 ? " long\n" : " spelling\n", out);
}

int main(int words, char **word) {
    FILE *in = words == 2 ? fopen(word[1], "r") : NULL;
    if (!in)
        stop("usage: entries FILE", 0);
    text_room = make(LONGEST_TEXT);
    token_room = make(LARGEST_TABLE);
    diagnostic_room = make(LARGEST_TABLE);
    count_room = make(1);
    count_room_2 = make(1);
    suffix_room = make(1);
    base_room = make(1);
    reason_room = make(1);
    static uint8_t text[LONGEST_TEXT];
    char *line = NULL;
    size_t space = 0, number = 0;
    while (getline(&line, &space, in) > 0) {
        number++;
        size_t token_bytes = 0, diagnostic_bytes = 0;
        int start = 0;
        if (line[0] == '#')
            fputs(line, stdout);
        if (line[0] != 'l' && line[0] != 'n')
            continue;
        if (line[0] == 'l' && sscanf(line, "l %zu %zu %n", &token_bytes, &diagnostic_bytes, &start) != 2)
            stop("no case", number);
        if (token_bytes > LARGEST_TABLE || diagnostic_bytes > LARGEST_TABLE)
            stop("too large a table", number);
        size_t n = read_bytes(line[0] == 'l' ? line + start : line + 2, text);
        char *said[2];
        size_t length[2];
        for (int way = 0; way < 2; way++) {
            FILE *out = open_memstream(&said[way], &length[way]);
            if (line[0] == 'l')
                lex(out, text, n, token_bytes, diagnostic_bytes, way, number);
            else
                numeral(out, text, n, way, number);
            fclose(out);
        }
        if (strcmp(said[0], said[1]) != 0)
            stop("two calls gave two answers", number);
        fputs(said[0], stdout);
        free(said[0]);
        free(said[1]);
    }
    return 0;
}
