// Replays the cases of reading_expected.py through the C entries for reading, spelling, listing and the hit test.
//
//     reading CASES OWED   compare; a case with another answer is printed, and the exit status is 1
//     reading CASES        print the answers, line by line as OWED has them
//     reading CASES N      print the tables of the reading on line N
//
// Every buffer is lent twice at its exact size: once it ends right before a page that may not be touched, once it begins right after
// one. On its open side stand guard bytes. Tables are full of other bytes before a call, and what is only read is compared after it.
// All calls are made on one small stack; how much of it was used is printed for each part of the cases, and does not grow with a text.
#define _GNU_SOURCE
#include <pthread.h>
#include <signal.h>
#include <stdbool.h>
#include <stdio.h>
#include <stdlib.h>
#include <string.h>
#include <sys/mman.h>
#include <unistd.h>

#include "../../c/cairo_m.h"

enum { GUARD = 0x5C, POISON = 0xAA, UNUSED = 0xA5, GUARD_SIZE = 4096, STACK = 512 * 1024, LONGEST_JSON = 200, MOST_SHOWN = 20 };

// More than the longest text, so that longer ones can be tried, and room for as many entries as it has bytes.
enum { TEXT_ROOM = 1 << 17, TABLE_ROOM = 1 << 21, OUT_ROOM = 1 << 23, BASES = 64 };

static size_t line_number;

static void stop(const char *words) {
    fprintf(stderr, "reading: line %zu: %s\n", line_number, words);
    exit(1);
}

// ---- buffers that are lent

struct lent {
    uint8_t *pages, *bytes;
    size_t room, size;
};

static struct lent make(size_t room) {
    size_t page = (size_t)sysconf(_SC_PAGESIZE);
    size_t whole = (room + GUARD_SIZE + page - 1) / page * page;
    uint8_t *at = mmap(NULL, whole + 2 * page, PROT_NONE, MAP_PRIVATE | MAP_ANONYMOUS, -1, 0);
    if (at == MAP_FAILED || mprotect(at + page, whole, PROT_READ | PROT_WRITE) != 0)
        stop("no memory");
    return (struct lent){.pages = at + page, .bytes = at + page, .room = whole};
}

// Where the guard bytes stand: before a buffer that ends with the pages, else after it.
static uint8_t *guard(const struct lent *b) { return b->bytes == b->pages ? b->bytes + b->size : b->bytes - GUARD_SIZE; }

// The buffer ends with the pages (way 0) or begins with them (way 1).
static void lend(struct lent *b, size_t size, int way) {
    if (size + GUARD_SIZE > b->room)
        stop("too large a buffer");
    b->bytes = way == 0 ? b->pages + b->room - size : b->pages;
    b->size = size;
    memset(b->bytes, POISON, size);
    memset(guard(b), GUARD, GUARD_SIZE);
}

static void lend_bytes(struct lent *b, const uint8_t *bytes, size_t size, int way) {
    lend(b, size, way);
    memcpy(b->bytes, bytes, size);
}

static void see_guard(const struct lent *b) {
    const uint8_t *at = guard(b);
    for (size_t i = 0; i < GUARD_SIZE; i++)
        if (at[i] != GUARD)
            stop("a byte outside a buffer was written");
}

static void see_unchanged(const struct lent *b, const uint8_t *bytes) {
    see_guard(b);
    if (memcmp(b->bytes, bytes, b->size) != 0)
        stop("what is only read was written");
}

// ---- answers

static uint32_t crc_table[256];

static void make_crc_table(void) {
    for (uint32_t i = 0; i < 256; i++) {
        uint32_t c = i;
        for (int bit = 0; bit < 8; bit++)
            c = c >> 1 ^ (c & 1 ? 0xEDB88320U : 0);
        crc_table[i] = c;
    }
}

static uint32_t crc(const uint8_t *bytes, size_t size) {
    uint32_t c = 0xFFFFFFFFU;
    for (size_t i = 0; i < size; i++)
        c = crc_table[(c ^ bytes[i]) & 0xFF] ^ c >> 8;
    return c ^ 0xFFFFFFFFU;
}

// The CRC of all bytes, `-` if all are zero.
static void print_crc(FILE *out, const uint8_t *bytes, size_t size) {
    for (size_t i = 0; i < size; i++)
        if (bytes[i] != 0) {
            fprintf(out, " %08x", crc(bytes, size));
            return;
        }
    fputs(" -", out);
}

static void print_json(FILE *out, const uint8_t *json, size_t size) {
    if (size > LONGEST_JSON)
        fprintf(out, " %zu:%08x", size, crc(json, size));
    else
        fprintf(out, " %.*s", size > 0 ? (int)size : 1, size > 0 ? (const char *)json : "-");
}

static bool all_zero(const uint8_t *bytes, size_t size) {
    for (size_t i = 0; i < size; i++)
        if (bytes[i] != 0)
            return false;
    return true;
}

// ---- texts

static uint8_t *bases[BASES];
static size_t base_sizes[BASES], base_count;

// The text at the end of a line; see reading_expected.py for how it is spelled.
static size_t read_text(const char *at, uint8_t *text) {
    size_t n = 0, run_from = 0, run_times = 0;
    int used;
    while (*at != '\0' && *at != '\n') {
        size_t base, from, to;
        unsigned byte;
        if (n + 1 >= TEXT_ROOM)
            stop("too long a text");
        if (*at != '\\') {
            text[n++] = (uint8_t)*at++;
        } else if (at[1] == '\\' || at[1] == 'n') {
            text[n++] = at[1] == 'n' ? '\n' : '\\';
            at += 2;
        } else if (at[1] == 'x' && sscanf(at + 2, "%2x%n", &byte, &used) == 1 && used == 2) {
            text[n++] = (uint8_t)byte;
            at += 4;
        } else if (at[1] == '*' && sscanf(at + 2, "%zu(%n", &run_times, &used) == 1) {
            run_from = n;
            at += 2 + used;
        } else if (at[1] == ')' && run_times > 0) {
            size_t part = n - run_from;
            if (run_from + part * run_times >= TEXT_ROOM)
                stop("too long a text");
            for (; run_times > 1; run_times--, n += part)
                memcpy(text + n, text + run_from, part);
            run_times = 0;
            at += 2;
        } else if (at[1] == '<' && sscanf(at + 2, "%zu:%zu:%zu>%n", &base, &from, &to, &used) == 3) {
            if (base >= base_count || from > to || to > base_sizes[base] || n + to - from >= TEXT_ROOM)
                stop("no such part");
            memcpy(text + n, bases[base] + from, to - from);
            n += to - from;
            at += 2 + used;
        } else {
            stop("no text");
        }
    }
    return n;
}

static void keep_base(const uint8_t *text, size_t n) {
    if (base_count == BASES)
        stop("too many texts that others take parts of");
    bases[base_count] = malloc(n + 1);
    if (bases[base_count] == NULL)
        stop("no memory");
    memcpy(bases[base_count], text, n);
    base_sizes[base_count++] = n;
}

// ---- the entries

static struct lent text_room, token_room, node_room, diagnostic_room, list_room, count_rooms[3], out_room, byte_room;

// A listing at its exact room; with a byte less it has to be refused. The entry is called with the room and answers the size.
typedef uint32_t listing(const void *of, size_t room, size_t *size);

static size_t list_at(listing *entry, const void *of, size_t room, int way, uint32_t *outcome) {
    lend(&out_room, room, way);
    lend(&count_rooms[0], sizeof(size_t), way);
    *outcome = entry(of, room, (size_t *)count_rooms[0].bytes);
    see_guard(&out_room);
    see_guard(&count_rooms[0]);
    return *(size_t *)count_rooms[0].bytes;
}

static void list_exactly(FILE *out, listing *entry, const void *of, size_t bound, int way) {
    uint32_t outcome;
    size_t size = list_at(entry, of, bound, way, &outcome);
    if (outcome != 0 || size > bound || size == 0 || !all_zero(out_room.bytes + size, bound - size))
        stop("a listing with room for all is not accepted, or is not zero after its text");
    uint32_t first = crc(out_room.bytes, size);
    if (list_at(entry, of, size - 1, way, &outcome) != 0 || outcome != CAIRO_M_OUTPUT_ROOM || !all_zero(out_room.bytes, size - 1))
        stop("a listing with a byte less than it needs is not refused, or not all zero");
    if (list_at(entry, of, size, way, &outcome) != size || outcome != 0 || crc(out_room.bytes, size) != first)
        stop("a listing at its exact room is another one");
    print_json(out, out_room.bytes, size);
}

struct nodes {
    const void *nodes;
    size_t size;
};

static uint32_t list_nodes(const void *of, size_t room, size_t *size) {
    const struct nodes *n = of;
    return cairo_m_list(n->nodes, n->size, out_room.bytes, room, size);
}

struct refusal {
    uint32_t outcome;
    const void *diagnostics;
    size_t size;
};

static uint32_t list_refusal(const void *of, size_t room, size_t *size) {
    const struct refusal *r = of;
    return cairo_m_list_refused(r->outcome, r->diagnostics, r->size, out_room.bytes, room, size);
}

static size_t least(size_t a, size_t b) { return a < b ? a : b; }

static void print_spellings(FILE *out, const uint8_t *text, size_t n, const uint8_t *nodes, size_t count) {
    static uint8_t spellings[2 * TEXT_ROOM];
    size_t size = 0;
    for (size_t i = 0; i < count; i++) {
        cairo_m_node node;
        memcpy(&node, nodes + i * sizeof node, sizeof node);
        size_t length = cairo_m_spelling(text, n, node.kind, node.start, node.end);
        if (node.kind != CAIRO_M_NODE_NAME && node.kind != CAIRO_M_NODE_NAMED && node.kind != CAIRO_M_NODE_IDENTIFIER) {
            if (length != 0)
                stop("a node of another kind has a spelling");
            continue;
        }
        if (length > n || node.start > n - length || size + length + 1 > sizeof spellings)
            stop("a spelling is not within the text");
        memcpy(spellings + size, text + node.start, length);
        size += length;
        spellings[size++] = '\n';
    }
    print_crc(out, spellings, size);
}

static void print_entries(FILE *out, size_t tokens, size_t nodes, size_t diagnostics) {
    for (size_t i = 0; i < tokens; i++) {
        cairo_m_token t;
        memcpy(&t, token_room.bytes + i * sizeof t, sizeof t);
        fprintf(out, "t %u,%u,%u,%u,%llu,%u\n", t.kind, t.suffix, t.start, t.end, (unsigned long long)t.value, t.base);
    }
    for (size_t i = 0; i < nodes; i++) {
        cairo_m_node n;
        memcpy(&n, node_room.bytes + i * sizeof n, sizeof n);
        fprintf(out, "n %u,%u,%u,%u,%llu,%u\n", n.kind, n.start, n.end, n.children, (unsigned long long)n.value, n.base);
    }
    for (size_t i = 0; i < diagnostics; i++) {
        cairo_m_diagnostic d;
        memcpy(&d, diagnostic_room.bytes + i * sizeof d, sizeof d);
        fprintf(out, "d %u,%u,%u\n", d.start, d.end, d.reason);
    }
}

// A reading; the tables stay lent, and the three counts are handed out.
static uint32_t read_at(const uint8_t *text, size_t n, const size_t *sizes, int way, size_t *counts) {
    lend_bytes(&text_room, text, n, way);
    lend(&token_room, sizes[0], way);
    lend(&node_room, sizes[1], way);
    lend(&diagnostic_room, sizes[2], way);
    lend(&list_room, sizes[3] * sizeof(cairo_m_record), way);
    for (int i = 0; i < 3; i++)
        lend(&count_rooms[i], sizeof(size_t), way);
    uint32_t outcome = cairo_m_read(text_room.bytes, n, token_room.bytes, sizes[0], node_room.bytes, sizes[1], diagnostic_room.bytes,
                                    sizes[2], (size_t *)count_rooms[0].bytes, (size_t *)count_rooms[1].bytes,
                                    (size_t *)count_rooms[2].bytes, (cairo_m_record *)list_room.bytes, sizes[3]);
    see_unchanged(&text_room, text);
    see_guard(&token_room);
    see_guard(&node_room);
    see_guard(&diagnostic_room);
    see_guard(&list_room);
    for (int i = 0; i < 3; i++) {
        see_guard(&count_rooms[i]);
        memcpy(&counts[i], count_rooms[i].bytes, sizeof(size_t));
    }
    return outcome;
}

static void read_case(FILE *out, const uint8_t *text, size_t n, const size_t *sizes, int way, bool entries) {
    size_t counts[3];
    uint32_t outcome = read_at(text, n, sizes, way, counts);
    // the padding of a record is left open
    for (size_t i = 0; i < sizes[3]; i++)
        list_room.bytes[6 * i + 5] = 0;
    size_t nodes = outcome == CAIRO_M_ACCEPTED ? least(counts[1], sizes[1] / 16) : 0;
    size_t diagnostics = least(counts[2], sizes[2] / 8);
    fprintf(out, "r %u %zu %zu %zu", outcome, counts[0], counts[1], counts[2]);
    print_crc(out, token_room.bytes, sizes[0]);
    print_crc(out, node_room.bytes, sizes[1]);
    print_crc(out, diagnostic_room.bytes, sizes[2]);
    print_crc(out, list_room.bytes, list_room.size);
    print_spellings(out, text_room.bytes, n, node_room.bytes, nodes);
    uint32_t node_crc = crc(node_room.bytes, sizes[1]), diagnostic_crc = crc(diagnostic_room.bytes, sizes[2]);
    if (outcome == CAIRO_M_ACCEPTED)
        list_exactly(out, list_nodes, &(struct nodes){node_room.bytes, 16 * nodes}, CAIRO_M_LIST_BOUND(nodes), way);
    else
        list_exactly(out, list_refusal, &(struct refusal){outcome, diagnostic_room.bytes, 8 * diagnostics},
                     CAIRO_M_LIST_REFUSED_BOUND(diagnostics), way);
    see_unchanged(&text_room, text);
    see_guard(&node_room);
    see_guard(&diagnostic_room);
    if (crc(node_room.bytes, sizes[1]) != node_crc || crc(diagnostic_room.bytes, sizes[2]) != diagnostic_crc)
        stop("a listing has changed what it lists");
    fputc('\n', out);
    if (entries)
        print_entries(out, outcome == CAIRO_M_ACCEPTED ? least(counts[0], sizes[0] / 16) : 0, nodes, diagnostics);
}

static void spelling_case(FILE *out, const uint8_t *text, size_t n, const size_t *of, int way) {
    lend_bytes(&text_room, text, n, way);
    size_t length = cairo_m_spelling(text_room.bytes, n, (uint8_t)of[0], (uint16_t)of[1], (uint16_t)of[2]);
    see_unchanged(&text_room, text);
    fprintf(out, "s %zu\n", length);
}

static void listing_case(FILE *out, const uint8_t *entries, size_t out_size, size_t size, int way) {
    uint32_t outcome;
    lend_bytes(&node_room, entries, size, way);
    size_t said = list_at(list_nodes, &(struct nodes){node_room.bytes, size}, out_size, way, &outcome);
    see_unchanged(&node_room, entries);
    fprintf(out, "j %u %zu", outcome, said);
    print_crc(out, out_room.bytes, out_size);
    print_json(out, out_room.bytes, least(said, out_size));
    fputc('\n', out);
}

static void refusal_case(FILE *out, const uint8_t *entries, size_t out_size, size_t size, uint32_t of, int way) {
    uint32_t outcome;
    lend_bytes(&diagnostic_room, entries, size, way);
    size_t said = list_at(list_refusal, &(struct refusal){of, diagnostic_room.bytes, size}, out_size, way, &outcome);
    see_unchanged(&diagnostic_room, entries);
    fprintf(out, "k %u %zu", outcome, said);
    print_crc(out, out_room.bytes, out_size);
    print_json(out, out_room.bytes, least(said, out_size));
    fputc('\n', out);
}

// ---- the hit test

struct hit {
    uint32_t outcome;
    uint8_t found;
    size_t place;
};

// In the node table as it is lent.
static struct hit hit_at(size_t offset, size_t length, int way) {
    struct hit hit;
    lend(&byte_room, sizeof hit.found, way);
    lend(&count_rooms[0], sizeof hit.place, way);
    hit.outcome = cairo_m_hit_test(offset, length, node_room.bytes, node_room.size, byte_room.bytes, (size_t *)count_rooms[0].bytes);
    see_guard(&node_room);
    see_guard(&byte_room);
    see_guard(&count_rooms[0]);
    hit.found = *byte_room.bytes;
    memcpy(&hit.place, count_rooms[0].bytes, sizeof hit.place);
    return hit;
}

static void hit_case(FILE *out, const uint8_t *entries, size_t offset, size_t length, size_t size, int way) {
    lend_bytes(&node_room, entries, size, way);
    struct hit hit = hit_at(offset, length, way);
    see_unchanged(&node_room, entries);
    fprintf(out, "h %u %u %zu\n", hit.outcome, hit.found, hit.place);
}

// A place, `-` for nobody or `!` for a refusal; anything else has its three numbers.
static void print_hit(FILE *out, struct hit hit, size_t times) {
    if (hit.outcome == CAIRO_M_ACCEPTED && hit.found == 1)
        fprintf(out, "%zu", hit.place);
    else if ((hit.outcome == CAIRO_M_ACCEPTED || hit.outcome == CAIRO_M_OFFSET) && hit.found == 0 && hit.place == 0)
        fputc(hit.outcome == CAIRO_M_ACCEPTED ? '-' : '!', out);
    else
        fprintf(out, "%u/%u/%zu", hit.outcome, hit.found, hit.place);
    if (times > 1)
        fprintf(out, "*%zu", times);
}

static bool same_hit(struct hit a, struct hit b) { return a.outcome == b.outcome && a.found == b.found && a.place == b.place; }

// A reading, then hit tests at the offsets 0, step and so on up to the length + 1, in the table that it left.
static void hits_case(FILE *out, const uint8_t *text, size_t n, const size_t *of, int way, bool entries) {
    size_t counts[3], sizes[4] = {of[0], of[1], 0, 0}, step = of[2], times = 1, said_size;
    char *said;
    if (step == 0)
        stop("no step");
    uint32_t outcome = read_at(text, n, sizes, way, counts), node_crc = crc(node_room.bytes, sizes[1]);
    FILE *list = open_memstream(&said, &said_size);
    if (list == NULL)
        stop("no memory");
    struct hit last = hit_at(0, n, way);
    for (size_t offset = step; offset < n + 2; offset += step) {
        struct hit next = hit_at(offset, n, way);
        if (!same_hit(last, next)) {
            print_hit(list, last, times);
            fputc(',', list);
            times = 0;
        }
        last = next;
        times++;
    }
    print_hit(list, last, times);
    fclose(list);
    if (crc(node_room.bytes, sizes[1]) != node_crc)
        stop("a hit test has changed the nodes");
    fprintf(out, "H %u", outcome);
    print_json(out, (const uint8_t *)said, said_size);
    fputc('\n', out);
    free(said);
    if (entries && outcome == CAIRO_M_ACCEPTED)
        print_entries(out, least(counts[0], sizes[0] / 16), least(counts[1], sizes[1] / 16), 0);
}

// ---- the lines of the case file

// Entries of a node table, each `*N` times, the last cut off where the size ends, then other bytes up to the size.
static void read_nodes(const char *at, uint8_t *table, size_t size) {
    size_t n = 0;
    memset(table, POISON, size);
    while (*at == ' ') {
        unsigned kind, start, end, children, base;
        unsigned long long value;
        size_t times = 1;
        int used, more = 0;
        if (sscanf(at, " %u,%u,%u,%u,%llu,%u%n", &kind, &start, &end, &children, &value, &base, &used) != 6)
            stop("no entry");
        at += used;
        if (*at == '*' && sscanf(at, "*%zu%n", &times, &more) == 1)
            at += more;
        cairo_m_node node = {(uint8_t)kind, (uint8_t)base, (uint16_t)start, (uint16_t)end, (uint16_t)children, value};
        for (; times > 0; times--, n += sizeof node) {
            if (n >= size)
                stop("too many entries");
            memcpy(table + n, &node, least(sizeof node, size - n));
        }
    }
}

static void read_diagnostics(const char *at, uint8_t *table, size_t size) {
    size_t n = 0;
    memset(table, POISON, size);
    while (*at == ' ') {
        unsigned start, end, reason;
        int used;
        if (sscanf(at, " %u,%u,%u%n", &start, &end, &reason, &used) != 3 || n + sizeof(cairo_m_diagnostic) > size)
            stop("no entry");
        at += used;
        cairo_m_diagnostic d = {(uint16_t)start, (uint16_t)end, (uint8_t)reason, {0, 0, 0}};
        memcpy(table + n, &d, sizeof d);
        n += sizeof d;
    }
}

static void answer(FILE *out, const char *line, int way, bool entries) {
    static uint8_t text[TEXT_ROOM], table[TABLE_ROOM];
    size_t of[4] = {0}, n;
    unsigned outcome;
    int start = -1;
    if (line[0] == '#') {
        fputs(line, out);
    } else if (line[0] == 'b') {
        if (way == 0)
            keep_base(text, read_text(line + 2, text));
        fputs("b\n", out);
    } else if (sscanf(line, "r %zu %zu %zu %zu%n", &of[0], &of[1], &of[2], &of[3], &start) == 4) {
        n = read_text(line + start + 1, text);
        read_case(out, text, n, of, way, entries);
    } else if (sscanf(line, "s %zu %zu %zu%n", &of[0], &of[1], &of[2], &start) == 3) {
        n = read_text(line + start + 1, text);
        spelling_case(out, text, n, of, way);
    } else if (sscanf(line, "j %zu %zu%n", &of[0], &of[1], &start) == 2 && of[1] <= TABLE_ROOM) {
        read_nodes(line + start, table, of[1]);
        listing_case(out, table, of[0], of[1], way);
    } else if (sscanf(line, "k %zu %zu %u%n", &of[0], &of[1], &outcome, &start) == 3 && of[1] <= TABLE_ROOM) {
        read_diagnostics(line + start, table, of[1]);
        refusal_case(out, table, of[0], of[1], outcome, way);
    } else if (sscanf(line, "h %zu %zu %zu%n", &of[0], &of[1], &of[2], &start) == 3 && of[2] <= TABLE_ROOM) {
        read_nodes(line + start, table, of[2]);
        hit_case(out, table, of[0], of[1], of[2], way);
    } else if (sscanf(line, "H %zu %zu %zu%n", &of[0], &of[1], &of[2], &start) == 3) {
        n = read_text(line + start + 1, text);
        hits_case(out, text, n, of, way, entries);
    } else {
        stop("no case");
    }
}

// ---- the run

static uint8_t *stack;

static size_t stack_used(void) {
    size_t unused = 0;
    while (unused < STACK && stack[unused] == UNUSED)
        unused++;
    return STACK - unused;
}

// Marks the stack as unused, up to a little below the caller's frame.
static void mark_stack(void) {
    uint8_t here;
    memset(stack, UNUSED, (size_t)((uintptr_t)&here - (uintptr_t)stack) - 4096);
}

// A page around a buffer was touched, or the stack was not enough.
static void fault(int number) {
    dprintf(STDERR_FILENO, "reading: line %zu: signal %d, memory that was not lent\n", line_number, number);
    _exit(1);
}

static void catch_faults(void) {
    static uint8_t other_stack[1 << 16];
    stack_t other = {.ss_sp = other_stack, .ss_size = sizeof other_stack};
    struct sigaction action = {.sa_handler = fault, .sa_flags = SA_ONSTACK};
    if (sigaltstack(&other, NULL) != 0 || sigaction(SIGSEGV, &action, NULL) != 0 || sigaction(SIGBUS, &action, NULL) != 0)
        stop("no signal handler");
}

static const char *cases_name, *owed_name;
static size_t only, differing;

static void see_part(const char *title, size_t count) {
    if (owed_name != NULL && count > 0)
        printf("reading: %.*s: %zu cases, %zu bytes of stack\n", (int)strcspn(title, "\n"), title, count, stack_used());
    mark_stack();
}

static void compare(const char *line, const char *owed, const char *said) {
    if (strcmp(owed, said) == 0)
        return;
    if (++differing <= MOST_SHOWN)
        printf("reading: line %zu: %.300s%s  owed %s  said %s", line_number, line, strlen(line) > 300 ? "..\n" : "", owed, said);
}

static void *run(void *unused) {
    FILE *cases = fopen(cases_name, "r"), *owed = owed_name != NULL ? fopen(owed_name, "r") : NULL;
    if (cases == NULL || (owed_name != NULL && owed == NULL))
        stop("no such file");
    char *line = NULL, *wanted = NULL, title[100] = "cases";
    size_t space = 0, wanted_space = 0, count = 0, all = 0;
    mark_stack();
    catch_faults();
    while (getline(&line, &space, cases) > 0) {
        line_number++;
        if (line[0] == '#') {
            see_part(title, count);
            snprintf(title, sizeof title, "%s", line + 2);
            count = 0;
        }
        count += line[0] != '#' && line[0] != 'b';
        all += line[0] != '#' && line[0] != 'b';
        if (only != 0 && line[0] != 'b' && line_number != only)
            continue;
        char *said[2];
        size_t length[2];
        for (int way = 0; way < 2; way++) {
            FILE *out = open_memstream(&said[way], &length[way]);
            if (out == NULL)
                stop("no memory");
            answer(out, line, way, only != 0);
            fclose(out);
        }
        if (strcmp(said[0], said[1]) != 0)
            stop("two calls gave two answers");
        if (owed != NULL) {
            if (getline(&wanted, &wanted_space, owed) <= 0)
                stop("nothing is owed");
            compare(line, wanted, said[0]);
        } else if (only == 0 || line_number == only) {
            fputs(said[0], stdout);
        }
        free(said[0]);
        free(said[1]);
    }
    see_part(title, count);
    if (owed != NULL && getline(&wanted, &wanted_space, owed) > 0)
        stop("more is owed");
    if (owed != NULL)
        printf("reading: %zu cases, %zu with another answer, no guard touched\n", all, differing);
    free(line);
    free(wanted);
    fclose(cases);
    if (owed != NULL)
        fclose(owed);
    return unused;
}

int main(int words, char **word) {
    if (words < 2 || words > 3) {
        fputs("usage: reading CASES [OWED | N]\n", stderr);
        return 2;
    }
    cases_name = word[1];
    only = words == 3 ? strtoul(word[2], NULL, 10) : 0;
    owed_name = words == 3 && only == 0 ? word[2] : NULL;
    make_crc_table();
    text_room = make(TEXT_ROOM);
    token_room = make(TABLE_ROOM);
    node_room = make(TABLE_ROOM);
    diagnostic_room = make(TABLE_ROOM);
    list_room = make(TABLE_ROOM);
    out_room = make(OUT_ROOM);
    for (int i = 0; i < 3; i++)
        count_rooms[i] = make(sizeof(size_t));
    byte_room = make(1);

    size_t page = (size_t)sysconf(_SC_PAGESIZE);
    uint8_t *pages = mmap(NULL, STACK + page, PROT_NONE, MAP_PRIVATE | MAP_ANONYMOUS, -1, 0);
    pthread_attr_t attributes;
    pthread_t thread;
    if (pages == MAP_FAILED || mprotect(pages + page, STACK, PROT_READ | PROT_WRITE) != 0)
        stop("no memory");
    stack = pages + page;
    if (pthread_attr_init(&attributes) != 0 || pthread_attr_setstack(&attributes, stack, STACK) != 0 ||
        pthread_create(&thread, &attributes, run, NULL) != 0 || pthread_join(thread, NULL) != 0)
        stop("no thread");
    return differing == 0 ? 0 : 1;
}
