// What is held of each input:
//
// * A reading with room for every text has an outcome that its text allows; its tokens, nodes and diagnostics are well formed
// (tree.c).
// * A reading, and a lexing, with tables of any other size has the outcome, the counts and the entries that follow from it: 01's
// order
//   of outcomes, no entry of a refused text, as many diagnostics as there is room for, zero for every byte that is left.
// * Outcome 7 has one diagnostic, at a token or at the end of the text. A text that ends with that token stops there too; one that
//   ends before it stops at its end, unless it is then derived or too deep.
// * The numeral entry agrees with each numeral of the text, and with the text as a spelling.
// * Where the reader of tests/differential is linked in, a reading with room for every text has its answer, byte for byte.
// * A listing parses back to the numbers that were listed, needs just the room that it takes, and is zero after it.
// * A hit test, in the tree and in the text's bytes as a node table, is refused just at or past the length. The node that it names
//   contains the offset, no other one that does is shorter, and none as short is earlier; it says nobody only if there is none.
// * No byte outside a buffer is touched, what is only read is not changed, and what a buffer held before does not matter.
#include "fuzz.h"

#include <inttypes.h>
#include <stdio.h>
#include <stdlib.h>
#include <string.h>

#include "../../c/cairo_m.h"
#include "tree.h"

// Somewhat more than the longest text, so that longer ones are tried.
enum { TEXT_ROOM = CAIRO_M_LONGEST_TEXT + 5000, TABLE_ROOM = 16 * TEXT_ROOM, OUT_ROOM = 62 * TEXT_ROOM };

struct answer {
    uint32_t outcome;
    size_t token_count, node_count, diagnostic_count;
};

struct sizes {
    size_t tokens, nodes, diagnostics, records;
};

static struct lent text_room, token_room, node_room, diagnostic_room, list_room, out_room, count_rooms[3], byte_rooms[3];

static void make_rooms(void) {
    if (text_room.pages != NULL)
        return;
    text_room = make(TEXT_ROOM);
    token_room = make(TABLE_ROOM);
    node_room = make(TABLE_ROOM);
    diagnostic_room = make(TABLE_ROOM);
    list_room = make(TABLE_ROOM);
    out_room = make(OUT_ROOM);
    for (int i = 0; i < 3; i++)
        count_rooms[i] = make(sizeof(size_t));
    for (int i = 0; i < 3; i++)
        byte_rooms[i] = make(1);
}

FEATURES uint8_t tokens_seen[OUTCOMES * BITS];
FEATURES uint8_t diagnostics_seen[OUTCOMES * BITS];
FEATURES uint8_t neighbours_seen[NEIGHBOURS * NEIGHBOURS];
FEATURES uint8_t stops_seen[NEIGHBOURS * NEIGHBOURS];
FEATURES uint8_t hits_seen[BITS * BITS];

static size_t least(size_t a, size_t b) { return a < b ? a : b; }

static bool is_zero(const uint8_t *bytes, size_t size) {
    return size == 0 || (bytes[0] == 0 && memcmp(bytes, bytes + 1, size - 1) == 0);
}

static void hold(bool holds, const char *words) {
    if (!holds)
        fail(words);
}

// Entries, then zero.
static void hold_table(const struct lent *b, const void *entries, size_t size, const char *words) {
    hold(memcmp(b->bytes, entries, size) == 0 && is_zero(b->bytes + size, b->size - size), words);
}

// The reader of tests/differential, where it is linked in.
__attribute__((weak)) uint32_t reference_read(const void *text, size_t length, void *tokens, size_t tokens_size, void *nodes,
                                              size_t nodes_size, void *diagnostics, size_t diagnostics_size, size_t *counts);

// ---- the text with room for all: what every other answer follows from

static struct {
    struct answer lexed, read;
    cairo_m_token tokens[CAIRO_M_LONGEST_TEXT];
    cairo_m_node nodes[CAIRO_M_LONGEST_TEXT];
    cairo_m_diagnostic diagnostics[CAIRO_M_LONGEST_TEXT];
} whole;

static size_t count_at(int i) {
    size_t count;
    memcpy(&count, count_rooms[i].bytes, sizeof count);
    return count;
}

// A call; the tables stay lent until `give_tables_back`.
static struct answer call_lex(const uint8_t *text, size_t length, struct sizes sizes, enum way way, uint8_t garbage) {
    lend_bytes(&text_room, text, length, way);
    lend(&token_room, sizes.tokens, way, garbage);
    lend(&diagnostic_room, sizes.diagnostics, way, garbage);
    for (int i = 0; i < 2; i++)
        lend(&count_rooms[i], sizeof(size_t), way, garbage);
    struct answer a = {0};
    a.outcome = cairo_m_lex(text_room.bytes, length, token_room.bytes, sizes.tokens, diagnostic_room.bytes, sizes.diagnostics,
                            (size_t *)count_rooms[0].bytes, (size_t *)count_rooms[1].bytes);
    a.token_count = count_at(0);
    a.diagnostic_count = count_at(1);
    for (int i = 0; i < 2; i++)
        give_back(&count_rooms[i]);
    give_back_bytes(&text_room, text);
    return a;
}

static struct answer call_read(const uint8_t *text, size_t length, struct sizes sizes, enum way way, uint8_t garbage) {
    lend_bytes(&text_room, text, length, way);
    lend(&token_room, sizes.tokens, way, garbage);
    lend(&node_room, sizes.nodes, way, garbage);
    lend(&diagnostic_room, sizes.diagnostics, way, garbage);
    lend(&list_room, sizes.records * sizeof(cairo_m_record), way, garbage);
    for (int i = 0; i < 3; i++)
        lend(&count_rooms[i], sizeof(size_t), way, garbage);
    struct answer a = {0};
    a.outcome =
        cairo_m_read(text_room.bytes, length, token_room.bytes, sizes.tokens, node_room.bytes, sizes.nodes, diagnostic_room.bytes,
                     sizes.diagnostics, (size_t *)count_rooms[0].bytes, (size_t *)count_rooms[1].bytes,
                     (size_t *)count_rooms[2].bytes, (cairo_m_record *)list_room.bytes, sizes.records);
    a.token_count = count_at(0);
    a.node_count = count_at(1);
    a.diagnostic_count = count_at(2);
    for (int i = 0; i < 3; i++)
        give_back(&count_rooms[i]);
    give_back_bytes(&text_room, text);
    return a;
}

static void give_tables_back(bool read) {
    give_back(&token_room);
    give_back(&diagnostic_room);
    if (read) {
        give_back(&node_room);
        give_back(&list_room);
    }
}

// As many entries as the text has bytes, which is enough.
static struct sizes sizes_for_all(size_t length) {
    size_t most = least(length, CAIRO_M_LONGEST_TEXT);
    return (struct sizes){most * sizeof(cairo_m_token), most * sizeof(cairo_m_node), most * sizeof(cairo_m_diagnostic), most};
}

// RFC 3629
static size_t character(const uint8_t *at, size_t left) {
    static const struct {
        uint8_t first, last, low, high, size;
    } forms[] = {{0x00, 0x7F, 0, 0, 1},       {0xC2, 0xDF, 0x80, 0xBF, 2}, {0xE0, 0xE0, 0xA0, 0xBF, 3},
                 {0xE1, 0xEC, 0x80, 0xBF, 3}, {0xED, 0xED, 0x80, 0x9F, 3}, {0xEE, 0xEF, 0x80, 0xBF, 3},
                 {0xF0, 0xF0, 0x90, 0xBF, 4}, {0xF1, 0xF3, 0x80, 0xBF, 4}, {0xF4, 0xF4, 0x80, 0x8F, 4}};
    for (size_t i = 0; i < sizeof forms / sizeof forms[0]; i++) {
        if (at[0] < forms[i].first || at[0] > forms[i].last)
            continue;
        if (forms[i].size > left || (forms[i].size > 1 && (at[1] < forms[i].low || at[1] > forms[i].high)))
            return 0;
        for (size_t j = 2; j < forms[i].size; j++)
            if (at[j] < 0x80 || at[j] > 0xBF)
                return 0;
        return forms[i].size;
    }
    return 0;
}

static bool is_utf8(const uint8_t *text, size_t length) {
    for (size_t at = 0, size; at < length; at += size)
        if ((size = character(text + at, length - at)) == 0)
            return false;
    return true;
}

struct numeral {
    uint32_t outcome;
    uint64_t value;
    uint8_t suffix, base, reason;
};

static struct numeral call_numeral(const uint8_t *spelling, size_t length, enum way way, uint8_t garbage) {
    struct numeral n;
    lend_bytes(&text_room, spelling, length, way);
    lend(&count_rooms[0], sizeof n.value, way, garbage);
    for (int i = 0; i < 3; i++)
        lend(&byte_rooms[i], 1, way, garbage);
    n.outcome = cairo_m_numeral(text_room.bytes, length, (uint64_t *)count_rooms[0].bytes, byte_rooms[0].bytes, byte_rooms[1].bytes,
                                byte_rooms[2].bytes);
    memcpy(&n.value, count_rooms[0].bytes, sizeof n.value);
    n.suffix = *byte_rooms[0].bytes;
    n.base = *byte_rooms[1].bytes;
    n.reason = *byte_rooms[2].bytes;
    give_back(&count_rooms[0]);
    for (int i = 0; i < 3; i++)
        give_back(&byte_rooms[i]);
    give_back_bytes(&text_room, spelling);
    return n;
}

// The place among the tokens where reading stopped, which is their number if that was at the end.
static size_t stop_place(void) {
    size_t at = 0;
    while (at < whole.lexed.token_count && whole.tokens[at].start != whole.diagnostics[0].start)
        at++;
    return at;
}

// The outcome of the front of a text; if it has no derivation either, it stops as is owed.
static uint32_t read_front(const uint8_t *text, size_t length, cairo_m_diagnostic owed, enum way way, uint8_t garbage) {
    struct answer said = call_read(text, length, sizes_for_all(length), way, garbage);
    if (said.outcome == CAIRO_M_SYNTAX)
        hold(said.diagnostic_count == 1 && memcmp(diagnostic_room.bytes, &owed, sizeof owed) == 0,
             "the front of a text stops elsewhere");
    give_tables_back(true);
    return said.outcome;
}

// No attempt looks further than at the first token that none takes, so what comes after it is of no account.
static void check_stop(const uint8_t *text, size_t length, enum way way, uint8_t garbage) {
    cairo_m_diagnostic d = whole.diagnostics[0];
    hold(whole.read.diagnostic_count == 1 && d.reason == CAIRO_M_REASON_STOP && is_zero(d.zero, 3),
         "a text without a derivation has other diagnostics");
    size_t at = stop_place();
    if (at == whole.lexed.token_count) {
        hold(d.start == length && d.end == length, "reading stopped at no token and not at the end");
        return;
    }
    hold(d.end == whole.tokens[at].end, "reading stopped at a part of a token");
    hold(read_front(text, d.end, d, way, garbage) == CAIRO_M_SYNTAX, "a text hangs on what no attempt looked at");
    d.end = d.start;
    uint32_t outcome = read_front(text, d.start, d, way, garbage);
    hold(outcome != CAIRO_M_LEXICAL && outcome != CAIRO_M_ENCODING, "the front of a text has other tokens");
}

static void check_diagnostics(const uint8_t *text, size_t length, uint32_t outcome, enum way way, uint8_t garbage) {
    size_t at = 0;
    for (size_t i = 0; i < whole.read.diagnostic_count; i++) {
        const cairo_m_diagnostic *d = &whole.diagnostics[i];
        hold(d->start >= at && d->start < d->end && d->end <= length && is_zero(d->zero, 3), "a diagnostic is out of place");
        at = d->end;
        size_t size = d->end - d->start;
        if (d->reason == CAIRO_M_REASON_CHARACTER) {
            hold(outcome == CAIRO_M_LEXICAL && character(text + d->start, length - d->start) == size,
                 "a diagnostic is no character");
            continue;
        }
        struct numeral n = call_numeral(text + d->start, size, way, garbage);
        if (outcome == CAIRO_M_LEXICAL)
            hold(n.outcome == CAIRO_M_LEXICAL && n.reason == d->reason && n.value == 0 && n.suffix == 0 && n.base == 0,
                 "a diagnostic is no wrong numeral");
        else
            hold(d->reason == CAIRO_M_REASON_SUFFIX && n.outcome == 0 && n.suffix == CAIRO_M_SUFFIX_OTHER && n.base != 0,
                 "a diagnostic is no suffix");
    }
}

static void check_numerals(const uint8_t *text, size_t length, enum way way, uint8_t garbage) {
    for (size_t i = 0; i < whole.lexed.token_count; i++) {
        const cairo_m_token *t = &whole.tokens[i];
        if (t->kind != CAIRO_M_TOKEN_LITERAL_NUMBER)
            continue;
        struct numeral n = call_numeral(text + t->start, t->end - t->start, way, garbage);
        hold(n.outcome == 0 && n.value == t->value && n.suffix == t->suffix && n.base == t->base && n.reason == 0,
             "a numeral says another value");
    }
    // the text as a spelling
    struct numeral n = call_numeral(text, length, way, garbage);
    const cairo_m_token *t = &whole.tokens[0];
    const cairo_m_diagnostic *d = &whole.diagnostics[0];
    if (length > CAIRO_M_LONGEST_TEXT)
        hold(n.outcome == CAIRO_M_LONG, "a long spelling has another outcome");
    else if (whole.lexed.token_count == 1 && t->kind == CAIRO_M_TOKEN_LITERAL_NUMBER && t->start == 0 && t->end == length)
        hold(n.outcome == 0, "a text that is a numeral is not one");
    else if (whole.lexed.diagnostic_count == 1 && d->reason != CAIRO_M_REASON_CHARACTER && d->start == 0 && d->end == length)
        hold(n.outcome == CAIRO_M_LEXICAL && n.reason == d->reason, "a text that is a wrong numeral is not one");
    else
        hold(n.outcome == CAIRO_M_SPELLING, "a text that is no numeral is one");
    hold(n.outcome == 0 || (n.value == 0 && n.suffix == 0 && n.base == 0), "a refused numeral has a value");
    hold((n.reason != 0) == (n.outcome == CAIRO_M_LEXICAL), "a numeral has a reason that its outcome has not");
}

static void check_outcome(const uint8_t *text, size_t length) {
    uint32_t outcome = whole.read.outcome, lexed = whole.lexed.outcome;
    hold(outcome == 0 || outcome == 1 || outcome == 2 || outcome == 3 || outcome == 5 || outcome == 7 || outcome == 8,
         "a reading with room for all has an outcome that it cannot have");
    hold((outcome == CAIRO_M_LONG) == (length > CAIRO_M_LONGEST_TEXT), "the length and outcome 1 disagree");
    hold(outcome == CAIRO_M_LONG || (outcome == CAIRO_M_ENCODING) == !is_utf8(text, length), "the bytes and outcome 2 disagree");
    hold(lexed == (outcome <= CAIRO_M_LEXICAL ? outcome : 0), "reading and lexing disagree");
    hold((whole.lexed.diagnostic_count > 0) == (lexed == CAIRO_M_LEXICAL), "lexing has diagnostics that its outcome has not");
    bool told = outcome == CAIRO_M_LEXICAL || outcome == CAIRO_M_SYNTAX || outcome == CAIRO_M_SUFFIX;
    hold((whole.read.diagnostic_count > 0) == told, "reading has diagnostics that its outcome has not");
    hold(whole.lexed.token_count == 0 || lexed == 0, "a text refused by lexing has tokens");
    hold(whole.read.token_count == (outcome == 0 ? whole.lexed.token_count : 0), "reading and lexing have other counts of tokens");
    hold(whole.read.node_count == 0 || outcome == 0, "a refused text has nodes");
}

static size_t bits(size_t n) {
    size_t count = 0;
    for (; n > 0; n >>= 1)
        count++;
    return count;
}

static void note(void) {
    uint32_t outcome = whole.read.outcome;
    tokens_seen[outcome * BITS + bits(whole.lexed.token_count)] = 1;
    diagnostics_seen[outcome * BITS + bits(whole.read.diagnostic_count)] = 1;
    for (size_t i = 1; outcome == 0 && i < whole.lexed.token_count; i++)
        neighbours_seen[whole.tokens[i - 1].kind * NEIGHBOURS + whole.tokens[i].kind] = 1;
    if (outcome == CAIRO_M_SYNTAX) {
        size_t at = stop_place(), count = whole.lexed.token_count;
        stops_seen[(at > 0 ? whole.tokens[at - 1].kind : 0) * NEIGHBOURS + (at < count ? whole.tokens[at].kind : 0)] = 1;
    }
}

static void compare_with_reference(const uint8_t *text, size_t length) {
    static uint8_t tokens[TABLE_ROOM], nodes[TABLE_ROOM], diagnostics[TABLE_ROOM];
    struct sizes sizes = sizes_for_all(length);
    size_t counts[3];
    uint32_t outcome =
        reference_read(text, length, tokens, sizes.tokens, nodes, sizes.nodes, diagnostics, sizes.diagnostics, counts);
    hold(outcome == whole.read.outcome, "the reference has another outcome");
    hold(counts[0] == whole.read.token_count && counts[1] == whole.read.node_count && counts[2] == whole.read.diagnostic_count,
         "the reference has other counts");
    hold(memcmp(tokens, whole.tokens, counts[0] * sizeof(cairo_m_token)) == 0, "the reference has other tokens");
    hold(memcmp(nodes, whole.nodes, counts[1] * sizeof(cairo_m_node)) == 0, "the reference has other nodes");
    hold(memcmp(diagnostics, whole.diagnostics, counts[2] * sizeof(cairo_m_diagnostic)) == 0,
         "the reference has other diagnostics");
}

// Reads with room for all and keeps the tables.
static void read_whole(const uint8_t *text, size_t length, enum way way, uint8_t garbage) {
    struct sizes sizes = sizes_for_all(length);
    size_t most = sizes.records;
    whole.lexed = call_lex(text, length, sizes, way, garbage);
    hold(whole.lexed.token_count <= most && whole.lexed.diagnostic_count <= most, "more tokens or errors than bytes");
    size_t token_bytes = whole.lexed.token_count * sizeof(cairo_m_token);
    size_t lexed_diagnostic_bytes = whole.lexed.diagnostic_count * sizeof(cairo_m_diagnostic);
    memcpy(whole.tokens, token_room.bytes, token_bytes);
    memcpy(whole.diagnostics, diagnostic_room.bytes, lexed_diagnostic_bytes);
    hold_table(&token_room, whole.tokens, token_bytes, "lexing leaves bytes in the token table");
    hold_table(&diagnostic_room, whole.diagnostics, lexed_diagnostic_bytes, "lexing leaves bytes in the diagnostic table");
    give_tables_back(false);

    whole.read = call_read(text, length, sizes, way, (uint8_t)~garbage);
    hold(whole.read.node_count <= whole.lexed.token_count && whole.read.diagnostic_count <= most, "more nodes than tokens");
    check_outcome(text, length);
    hold_table(&token_room, whole.tokens, whole.read.outcome == 0 ? token_bytes : 0, "reading has another token table than lexing");
    if (whole.lexed.outcome == 0)
        memcpy(whole.diagnostics, diagnostic_room.bytes, whole.read.diagnostic_count * sizeof(cairo_m_diagnostic));
    hold(whole.lexed.outcome == 0 || whole.lexed.diagnostic_count == whole.read.diagnostic_count,
         "reading and lexing count other errors");
    hold_table(&diagnostic_room, whole.diagnostics, whole.read.diagnostic_count * sizeof(cairo_m_diagnostic),
               "reading has another diagnostic table than lexing");
    memcpy(whole.nodes, node_room.bytes, whole.read.node_count * sizeof(cairo_m_node));
    hold_table(&node_room, whole.nodes, whole.read.node_count * sizeof(cairo_m_node), "reading leaves bytes in the node table");
    give_tables_back(true);

    if (whole.read.outcome == CAIRO_M_SYNTAX)
        check_stop(text, length, way, garbage);
    else
        check_diagnostics(text, length, whole.read.outcome, way, garbage);
    if (whole.lexed.outcome == 0)
        check_tokens(text, length, whole.tokens, whole.lexed.token_count);
    if (whole.read.outcome == 0)
        check_nodes(length, whole.tokens, whole.read.token_count, whole.nodes, whole.read.node_count);
}

// ---- tables of other sizes

static void lex_sized(const uint8_t *text, size_t length, struct sizes sizes, enum way way, uint8_t garbage) {
    struct answer owed = whole.lexed;
    size_t diagnostics = least(owed.diagnostic_count, sizes.diagnostics / sizeof(cairo_m_diagnostic));
    if (owed.outcome == 0 && owed.token_count > sizes.tokens / sizeof(cairo_m_token))
        owed.outcome = CAIRO_M_TOKEN_ROOM;
    struct answer said = call_lex(text, length, sizes, way, garbage);
    hold(said.outcome == owed.outcome && said.token_count == owed.token_count && said.diagnostic_count == owed.diagnostic_count,
         "lexing with other tables has another answer");
    hold_table(&token_room, whole.tokens, owed.outcome == 0 ? owed.token_count * sizeof(cairo_m_token) : 0,
               "lexing with other tables has other tokens");
    hold_table(&diagnostic_room, whole.diagnostics, diagnostics * sizeof(cairo_m_diagnostic),
               "lexing with other tables has other diagnostics");
    give_tables_back(false);
}

static struct answer owed_reading(struct sizes sizes) {
    if (whole.lexed.outcome != 0)
        return whole.read;
    if (whole.lexed.token_count > sizes.tokens / sizeof(cairo_m_token))
        return (struct answer){CAIRO_M_TOKEN_ROOM, whole.lexed.token_count, 0, 0};
    if (whole.read.outcome == 0 && whole.read.node_count > sizes.nodes / sizeof(cairo_m_node))
        return (struct answer){CAIRO_M_NODE_ROOM, 0, whole.read.node_count, 0};
    return whole.read;
}

static void read_sized(const uint8_t *text, size_t length, struct sizes sizes, enum way way, uint8_t garbage) {
    struct answer owed = owed_reading(sizes), said = call_read(text, length, sizes, way, garbage);
    size_t diagnostics = least(owed.diagnostic_count, sizes.diagnostics / sizeof(cairo_m_diagnostic));
    hold(said.outcome == owed.outcome && said.token_count == owed.token_count && said.node_count == owed.node_count &&
             said.diagnostic_count == owed.diagnostic_count,
         "reading with other tables has another answer");
    bool accepted = owed.outcome == 0;
    hold_table(&token_room, whole.tokens, accepted ? owed.token_count * sizeof(cairo_m_token) : 0,
               "reading with other tables has other tokens");
    hold_table(&node_room, whole.nodes, accepted ? owed.node_count * sizeof(cairo_m_node) : 0,
               "reading with other tables has other nodes");
    hold_table(&diagnostic_room, whole.diagnostics, diagnostics * sizeof(cairo_m_diagnostic),
               "reading with other tables has other diagnostics");
    for (size_t i = 0; i < sizes.records; i++) {
        cairo_m_diagnostic d = {0};
        if (i < diagnostics)
            d = whole.diagnostics[i];
        // a record's fields; its padding is left open
        hold(memcmp(list_room.bytes + i * sizeof(cairo_m_record), &d, 5) == 0, "a record is not the diagnostic");
    }
    give_tables_back(true);
}

// ---- listings

static const char *json;

static void take(const char *words) {
    size_t n = strlen(words);
    hold(strncmp(json, words, n) == 0, "a listing has other marks");
    json += n;
}

// A number as RFC 8259 has it, without sign, fraction and exponent.
static uint64_t take_number(void) {
    uint64_t number = 0;
    hold(*json >= '0' && *json <= '9' && (json[0] != '0' || json[1] < '0' || json[1] > '9'), "a listing has no number");
    for (; *json >= '0' && *json <= '9'; json++) {
        uint64_t digit = (uint64_t)(*json - '0');
        hold(number <= (UINT64_MAX - digit) / 10, "a listing has too large a number");
        number = number * 10 + digit;
    }
    return number;
}

// A node's value: a number, or its digits in a string where it is large.
static uint64_t take_value(void) {
    bool string = *json == '"';
    if (string)
        json++;
    uint64_t value = take_number();
    if (string)
        take("\"");
    hold(string == (value > CAIRO_M_LARGEST_NUMBER), "a listing has a large value as a number, or a small one as a string");
    return value;
}

static void check_listing(const cairo_m_node *nodes, size_t count) {
    take("[");
    for (size_t i = 0; i < count; i++) {
        take(i == 0 ? "[\"" : ",[\"");
        take(node_names[nodes[i].kind]);
        take("\",");
        uint64_t start = take_number();
        take(",");
        uint64_t end = take_number();
        take(",");
        uint64_t children = take_number();
        take(",");
        uint64_t value = take_value();
        if (carries_base(nodes[i].kind)) {
            take(",");
            hold(take_number() == nodes[i].base, "a listing has another base");
        }
        take("]");
        hold(start == nodes[i].start && end == nodes[i].end && children == nodes[i].children && value == nodes[i].value,
             "a listing has another number");
    }
    take("]");
}

static void check_refusal(uint32_t outcome, const cairo_m_diagnostic *diagnostics, size_t count) {
    take("{\"refused\":");
    hold(take_number() == outcome, "a listing has another outcome");
    take(",\"diagnostics\":[");
    for (size_t i = 0; i < count; i++) {
        take(i == 0 ? "[" : ",[");
        uint64_t start = take_number();
        take(",");
        uint64_t end = take_number();
        take(",");
        uint64_t reason = take_number();
        take("]");
        hold(start == diagnostics[i].start && end == diagnostics[i].end && reason == diagnostics[i].reason,
             "a listing has another number");
    }
    take("]}");
}

// What is listed: nodes, or diagnostics with an outcome.
struct listed {
    const uint8_t *bytes;
    size_t size;
    bool of_nodes;
    uint32_t outcome;
};

static char copy[OUT_ROOM + 1];

// The size that the entry says, and its outcome.
static size_t list_in(struct listed l, size_t room, enum way way, uint8_t garbage, uint32_t *outcome) {
    struct lent *table = l.of_nodes ? &node_room : &diagnostic_room;
    lend_bytes(table, l.bytes, l.size, way);
    lend(&out_room, room, way, garbage);
    lend(&count_rooms[0], sizeof(size_t), way, garbage);
    size_t *size = (size_t *)count_rooms[0].bytes;
    *outcome = l.of_nodes ? cairo_m_list(table->bytes, l.size, out_room.bytes, room, size)
                          : cairo_m_list_refused(l.outcome, table->bytes, l.size, out_room.bytes, room, size);
    size_t said = count_at(0);
    hold(said <= room && (*outcome == 0 || said == 0) && is_zero(out_room.bytes + said, room - said),
         "a listing is not zero after its text");
    memcpy(copy, out_room.bytes, said);
    copy[said] = '\0';
    give_back(&count_rooms[0]);
    give_back(&out_room);
    give_back_bytes(table, l.bytes);
    return said;
}

static void list(struct listed l, uint8_t chosen, enum way way, uint8_t garbage) {
    static cairo_m_node nodes[TEXT_ROOM / sizeof(cairo_m_node) + CAIRO_M_LONGEST_TEXT];
    static cairo_m_diagnostic diagnostics[TEXT_ROOM / sizeof(cairo_m_diagnostic) + CAIRO_M_LONGEST_TEXT];
    size_t count = l.size / (l.of_nodes ? sizeof(cairo_m_node) : sizeof(cairo_m_diagnostic));
    uint32_t owed = 0, outcome;
    if (l.of_nodes) {
        memcpy(nodes, l.bytes, count * sizeof(cairo_m_node));
        for (size_t i = 0; i < count; i++)
            if (nodes[i].kind < 1 || nodes[i].kind > NODE_KINDS)
                owed = CAIRO_M_KIND;
    } else {
        memcpy(diagnostics, l.bytes, count * sizeof(cairo_m_diagnostic));
    }
    size_t bound = l.of_nodes ? CAIRO_M_LIST_BOUND(count) : CAIRO_M_LIST_REFUSED_BOUND(count);
    size_t size = list_in(l, bound, way, garbage, &outcome);
    hold(outcome == owed, "a listing with room for all has another outcome");
    if (owed == CAIRO_M_KIND) {
        list_in(l, least(chosen, bound), way, garbage, &outcome);
        hold(outcome == CAIRO_M_KIND, "a listing of a wrong kind says something else");
        return;
    }
    json = copy;
    if (l.of_nodes)
        check_listing(nodes, count);
    else
        check_refusal(l.outcome, diagnostics, count);
    hold(json == copy + size, "a listing goes on after its end");
    hold(list_in(l, size, way, garbage, &outcome) == size && outcome == 0, "a listing at its exact room is refused");
    hold(list_in(l, size - 1 - chosen % size, way, garbage, &outcome) == 0 && outcome == CAIRO_M_OUTPUT_ROOM,
         "a listing with less room is not refused");
}

// ---- hit tests

// In the node table that is lent, which holds these bytes.
static void check_hit(size_t offset, size_t length, const uint8_t *nodes, size_t size, enum way way, uint8_t garbage) {
    lend(&byte_rooms[0], 1, way, garbage);
    lend(&count_rooms[0], sizeof(size_t), way, garbage);
    uint32_t outcome =
        cairo_m_hit_test(offset, length, node_room.bytes, size, byte_rooms[0].bytes, (size_t *)count_rooms[0].bytes);
    uint8_t found = *byte_rooms[0].bytes;
    size_t place = count_at(0), count = size / sizeof(cairo_m_node);
    give_back(&byte_rooms[0]);
    give_back(&count_rooms[0]);
    hold(outcome == (offset >= length ? CAIRO_M_OFFSET : 0), "a hit test and the length disagree");
    hold(found == 0 || (found == 1 && outcome == 0), "a hit test has a wrong number for nobody");
    hold(found == 1 || place == 0, "a hit test that names no node has a place");
    if (outcome != 0)
        return;
    cairo_m_node hit = {0}, n;
    if (found == 1) {
        hold(place < count, "a hit test names no whole entry");
        memcpy(&hit, nodes + place * sizeof hit, sizeof hit);
        hold(hit.start <= offset && offset < hit.end, "a hit test names a node that does not contain the offset");
    }
    int width = hit.end - hit.start;
    for (size_t i = 0; i < count; i++) {
        memcpy(&n, nodes + i * sizeof n, sizeof n);
        if (n.start > offset || n.end <= offset)
            continue;
        hold(found == 1, "a hit test says nobody, and a node contains the offset");
        hold(n.end - n.start >= width, "a hit test names a node, and another is shorter");
        hold(n.end - n.start > width || i >= place, "a hit test names a node, and an earlier one is as short");
    }
    hits_seen[found == 1 ? bits(place) * BITS + bits((size_t)width) : 0] = 1;
}

// At the borders of the text and of some entries, and where the head says.
static void check_hits(const uint8_t *head, const uint8_t *nodes, size_t size, size_t length, enum way way, uint8_t garbage) {
    static const size_t large[8] = {0, 65535, 65536, 65537, 70000, (size_t)1 << 32, (size_t)1 << 63, SIZE_MAX};
    size_t count = size / sizeof(cairo_m_node), chosen = head[4] + 256 * (size_t)head[7];
    size_t offsets[] = {0, length - 1, length, length + 1, chosen, chosen % (length + 1)};
    lend_bytes(&node_room, nodes, size, way);
    for (size_t i = 0; i < sizeof offsets / sizeof offsets[0]; i++)
        check_hit(offsets[i], length, nodes, size, way, garbage);
    for (size_t i = 0; i < 3; i++)
        check_hit(large[(head[6] + i) & 7], large[head[7] & 7], nodes, size, way, garbage);
    // first the one that is cut off, if there is one, and the last
    for (size_t i = 0; i < 5; i++) {
        cairo_m_node n = {0};
        size_t at = i < 2 ? count - least(count, i) : chosen * i % (count + 1);
        memcpy(&n, nodes + at * sizeof n, least(sizeof n, size - at * sizeof n));
        size_t within = n.start + chosen % (size_t)(n.end > n.start ? n.end - n.start : 1);
        size_t borders[] = {n.start - (size_t)1, n.start, within, n.end - (size_t)1, n.end};
        for (size_t j = 0; j < sizeof borders / sizeof borders[0]; j++)
            check_hit(borders[j], SIZE_MAX, nodes, size, way, garbage);
        check_hit(within, within + (chosen & 1), nodes, size, way, garbage);
        // past every span, though the lower bits are not
        check_hit(within + ((size_t)65536 << 16 * (i % 3)), SIZE_MAX, nodes, size, way, garbage);
    }
    give_back_bytes(&node_room, nodes);
}

// ---- an input

static void check_spelling(const uint8_t *text, size_t length, uint8_t kind, uint16_t start, uint16_t end, enum way way) {
    bool spelt = kind == CAIRO_M_NODE_NAME || kind == CAIRO_M_NODE_NAMED || kind == CAIRO_M_NODE_IDENTIFIER;
    lend_bytes(&text_room, text, length, way);
    size_t said = cairo_m_spelling(text_room.bytes, length, kind, start, end);
    give_back_bytes(&text_room, text);
    hold(said == (spelt && start <= end && end <= length ? (size_t)(end - start) : 0), "a spelling is another part of the text");
}

// The size of a table that needs `count` entries: about that, or small, or large.
static size_t choose_size(uint8_t chosen, size_t count, size_t entry, size_t length) {
    size_t more = chosen >> 3, needed = count * entry;
    switch (chosen & 7) {
    case 0: return needed + more;
    case 1: return needed > more ? needed - more - 1 : 0;
    case 2: return more;
    case 3: return needed + entry + more;
    case 4: return count / 2 * entry + more;
    case 5: return more * entry;
    case 6: return least(length, CAIRO_M_LONGEST_TEXT) * entry;
    default: return more < 16 ? 0 : needed + more * entry;
    }
}

// The text of an input, for some heads again and again up to some length.
static size_t take_text(const uint8_t *input, size_t size, uint8_t chosen, uint8_t *text) {
    static const size_t lengths[8] = {
        1000, 4000, 16000, 40000, CAIRO_M_LONGEST_TEXT - 1, CAIRO_M_LONGEST_TEXT, CAIRO_M_LONGEST_TEXT + 1, TEXT_ROOM};
    if (size == 0 || chosen < 0xF8) {
        size = least(size, TEXT_ROOM);
        memcpy(text, input, size);
        return size;
    }
    size_t length = lengths[chosen & 7];
    for (size_t i = 0; i < length; i++)
        text[i] = input[i % size];
    return length;
}

static void try_at(const uint8_t *head, const uint8_t *text, size_t length, struct sizes sizes, enum way way) {
    uint8_t garbage = way == ENDS ? head[4] : (uint8_t)~head[4];
    lex_sized(text, length, sizes_for_all(length), way, garbage);
    read_sized(text, length, sizes_for_all(length), way, garbage);
    check_numerals(text, length, way, garbage);
    lex_sized(text, length, sizes, way, garbage);
    read_sized(text, length, sizes, way, garbage);

    for (size_t i = 0; i < least(whole.read.node_count, 64); i++)
        check_spelling(text, length, whole.nodes[i].kind, whole.nodes[i].start, whole.nodes[i].end, way);
    check_spelling(text, length, head[6] & 15, head[7], (uint16_t)(head[7] + head[6] / 16 * head[4]), way);
    check_spelling(text, length, CAIRO_M_NODE_NAME, (uint16_t)(length - 1), (uint16_t)(length + head[6] % 3 - 1), way);

    // the tree or the refusal, and the bytes of the text as tables
    if (whole.read.outcome == 0)
        list((struct listed){(const uint8_t *)whole.nodes, whole.read.node_count * sizeof(cairo_m_node), true, 0}, head[6], way,
             garbage);
    else
        list((struct listed){(const uint8_t *)whole.diagnostics, whole.read.diagnostic_count * sizeof(cairo_m_diagnostic), false,
                             whole.read.outcome},
             head[6], way, garbage);
    list((struct listed){text, length, true, 0}, head[7], way, garbage);
    uint32_t outcome;
    memcpy(&outcome, head + 4, sizeof outcome);
    list((struct listed){text, length, false, outcome}, head[7], way, garbage);
    static uint8_t kinds[TEXT_ROOM];
    memcpy(kinds, text, length);
    for (size_t i = 0; i < length; i += sizeof(cairo_m_node))
        kinds[i] = kinds[i] % NODE_KINDS + 1;
    list((struct listed){kinds, length, true, 0}, head[7], way, garbage);

    if (whole.read.outcome == 0) {
        // with some zeros behind the tree
        size_t size = whole.read.node_count * sizeof(cairo_m_node), more = least(head[6] % 40, sizeof whole.nodes - size);
        memset((uint8_t *)whole.nodes + size, 0, more);
        check_hits(head, (const uint8_t *)whole.nodes, size + more, length, way, garbage);
    }
    check_hits(head, text, length, length, way, garbage);
}

static struct sizes choose_sizes(const uint8_t *head, size_t length) {
    return (struct sizes){choose_size(head[0], whole.lexed.token_count, sizeof(cairo_m_token), length),
                          choose_size(head[1], whole.read.node_count, sizeof(cairo_m_node), length),
                          choose_size(head[2], whole.read.diagnostic_count, sizeof(cairo_m_diagnostic), length),
                          choose_size(head[3], whole.read.diagnostic_count, 1, length)};
}

static void try_ways(const uint8_t *input, size_t size, enum way first, enum way last) {
    static uint8_t text[TEXT_ROOM];
    uint8_t head[HEAD] = {0};
    memcpy(head, input, least(size, HEAD));
    size_t length = size > HEAD ? take_text(input + HEAD, size - HEAD, head[5], text) : 0;
    make_rooms();
    read_whole(text, length, first, 0);
    note();
    if (reference_read != NULL)
        compare_with_reference(text, length);
    struct sizes sizes = choose_sizes(head, length);
    for (enum way way = first; way <= last; way++)
        try_at(head, text, length, sizes, way);
}

void try_input(const uint8_t *input, size_t size) { try_ways(input, size, ENDS, BEGINS); }

void try_input_on_heap(const uint8_t *input, size_t size) { try_ways(input, size, ON_HEAP, ON_HEAP); }
