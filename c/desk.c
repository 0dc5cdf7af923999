// The exam desk: reads Cairo-M texts and says of each whether it is accepted.
//
//     desk FILE..
//
// For each file, or standard input for `-`, it prints the verdict; the errors with line and column, both from 1, where a line ends
// with LF and a column is a character; where reading stopped, that line too, with carets under the token; and for an accepted text
// the tree, each parent before its children, two spaces for a level.
// Exit status: 0 all are accepted, 1 some text is refused, 2 a file could not be read.
#include <stdio.h>
#include <stdlib.h>

#include "reading.h"

const char program[] = "desk";

// Levels past this one are told by number, since a tree may be as deep as its text is long.
enum { LAST_INDENT = 40 };

// As much of a numeral or another token as is shown, and of a line before and from the place where reading stopped, in characters.
enum { SHOWN = 40, SHOWN_BESIDE = 60 };

static const char *const node_kinds[] = {
    "?",       "Name",         "Named",       "Pointer",     "TypeTuple", "FixedArray",
    "Count",   "Literal",      "LiteralFelt", "LiteralU32",  "Bool",      "Identifier",
    "Unary",   "Binary",       "Call",        "Member",      "Index",     "StructLiteral",
    "Tuple",   "TupleIndex",   "Array",       "ArrayRepeat", "Cast",      "New",
    "Paren",   "PatternTuple", "Let",         "Const",       "Assign",    "Return",
    "If",      "ExprStmt",     "Block",       "Loop",        "While",     "For",
    "Break",   "Continue",     "Param",       "Function",    "StructDef", "UseSingle",
    "UseList",
};

static const char *const named_words[] = {"felt", "bool", "u32", "other"};

static const char *const unary_words[] = {"! (Not)", "- (Neg)"};

static const char *const binary_words[] = {
    "+ (Add)",     "- (Sub)",        "* (Mul)",           "/ (Div)",
    "% (Mod)",     "== (Eq)",        "!= (Neq)",          "< (Less)",
    "> (Greater)", "<= (LessEqual)", ">= (GreaterEqual)", "&& (And)",
    "|| (Or)",     "& (BitwiseAnd)", "| (BitwiseOr)",     "^ (BitwiseXor)",
};

#define WORD(words, at) ((at) < sizeof(words) / sizeof *(words) ? (words)[at] : "?")

// ---- errors

// The code point of the character at a place in a text that is UTF-8.
static unsigned long code_point(const unsigned char *at) {
    if (at[0] < 0x80)
        return at[0];
    if (at[0] < 0xE0)
        return (at[0] & 0x1FUL) << 6 | (at[1] & 0x3FUL);
    if (at[0] < 0xF0)
        return (at[0] & 0x0FUL) << 12 | (at[1] & 0x3FUL) << 6 | (at[2] & 0x3FUL);
    return (at[0] & 0x07UL) << 18 | (at[1] & 0x3FUL) << 12 | (at[2] & 0x3FUL) << 6 | (at[3] & 0x3FUL);
}

static void print_error(const struct reading *r, const cairo_m_diagnostic *d) {
    const unsigned char *part = r->text + d->start;
    int length = d->end - d->start;
    int shown = length > SHOWN ? SHOWN : length;
    const char *more = length > SHOWN ? ".." : "";
    switch (d->reason) {
    case CAIRO_M_REASON_CHARACTER:
        printf("no token begins with U+%04lX", code_point(part));
        if (*part > 0x20 && *part < 0x7F)
            printf(" '%c'", *part);
        break;
    case CAIRO_M_REASON_OVERFLOW:
        printf("the numeral %.*s%s is above 18446744073709551615", shown, (const char *)part, more);
        break;
    case CAIRO_M_REASON_FORMAT:
        printf("the numeral %.*s%s is not well formed", shown, (const char *)part, more);
        break;
    case CAIRO_M_REASON_SUFFIX:
        printf("the numeral %.*s%s has an unknown suffix", shown, (const char *)part, more);
        break;
    case CAIRO_M_REASON_STOP:
        if (length == 0)
            fputs("reading stopped: the text ends here", stdout);
        else
            printf("reading stopped at %.*s%s", shown, (const char *)part, more);
        break;
    default:
        printf("reason %u", d->reason);
    }
    printf(" (bytes %u..%u)\n", d->start, d->end);
}

static bool begins_character(unsigned char byte) { return (byte & 0xC0) != 0x80; }

static bool is_white(unsigned char byte) { return byte == ' ' || byte == '\t' || byte == '\r' || byte == '\n'; }

// Where an error is shown. The end of a text is shown behind the last character that is not white space.
static size_t place_of(const struct reading *r, const cairo_m_diagnostic *d) {
    size_t at = d->start;
    while (d->start == d->end && at > 0 && is_white(r->text[at - 1]))
        at--;
    return at;
}

// The line around a place, and carets under so many characters from there on, at least one. `..` stands for what is left out of a
// long line, and `?` for a control character, which only a comment can have.
static void print_line(const struct reading *r, size_t place, size_t width) {
    size_t start = place, end = place, before = 0, after = 0;
    while (start > 0 && r->text[start - 1] != '\n' && before < SHOWN_BESIDE)
        before += begins_character(r->text[--start]);
    while (end < r->length && r->text[end] != '\n' && (after < SHOWN_BESIDE || !begins_character(r->text[end])))
        after += begins_character(r->text[end++]);
    bool cut_before = start > 0 && r->text[start - 1] != '\n', cut_after = end < r->length && r->text[end] != '\n';
    if (!cut_after && end > place && r->text[end - 1] == '\r')
        end--;
    fputs(cut_before ? "  .." : "  ", stdout);
    for (size_t i = start; i < end; i++)
        putchar((r->text[i] < ' ' && r->text[i] != '\t') || r->text[i] == 0x7F ? '?' : r->text[i]);
    puts(cut_after ? ".." : "");
    fputs(cut_before ? "    " : "  ", stdout);
    for (size_t i = start; i < place; i++)
        if (begins_character(r->text[i]))
            putchar(r->text[i] == '\t' ? '\t' : ' ');
    for (size_t i = 0; i == 0 || (i < width && place + i < end); i++)
        putchar('^');
    putchar('\n');
}

// The errors are in text order, so that the text is gone through once. A column counts the first bytes of characters.
static void print_errors(const struct reading *r, const char *name) {
    size_t at = 0, line = 1, column = 1;
    for (size_t i = 0; i < r->diagnostic_count; i++) {
        const cairo_m_diagnostic *d = &r->diagnostics[i];
        size_t place = place_of(r, d);
        for (; at < place; at++) {
            if (r->text[at] == '\n') {
                line++;
                column = 1;
            } else if (begins_character(r->text[at])) {
                column++;
            }
        }
        printf("%s:%zu:%zu: ", name, line, column);
        print_error(r, d);
        if (d->reason == CAIRO_M_REASON_STOP)
            print_line(r, place, d->end - d->start);
    }
}

// ---- the tree

static void print_node(const struct reading *r, const cairo_m_node *n) {
    printf("%s %u..%u", WORD(node_kinds, n->kind), n->start, n->end);
    size_t spelled = cairo_m_spelling(r->text, r->length, n->kind, n->start, n->end);
    if (spelled > 0)
        printf(" %.*s", (int)spelled, (const char *)r->text + n->start);
    unsigned long long value = n->value;
    switch (n->kind) {
    case CAIRO_M_NODE_NAMED:
        printf(" (%s)", WORD(named_words, value));
        break;
    case CAIRO_M_NODE_COUNT:
    case CAIRO_M_NODE_LITERAL:
        printf(" %llu base %u", value, n->base);
        break;
    case CAIRO_M_NODE_LITERAL_FELT:
        printf(" %llu felt base %u", value, n->base);
        break;
    case CAIRO_M_NODE_LITERAL_U32:
        printf(" %llu u32 base %u", value, n->base);
        break;
    case CAIRO_M_NODE_TUPLE_INDEX:
        printf(" %llu", value);
        break;
    case CAIRO_M_NODE_BOOL:
        fputs(value == 0 ? " false" : " true", stdout);
        break;
    case CAIRO_M_NODE_UNARY:
        printf(" %s", WORD(unary_words, value));
        break;
    case CAIRO_M_NODE_BINARY:
        printf(" %s", WORD(binary_words, value));
        break;
    case CAIRO_M_NODE_LET:
    case CAIRO_M_NODE_CONST:
        fputs(value == 0 ? "" : " typed", stdout);
        break;
    case CAIRO_M_NODE_FUNCTION:
        printf(" params %llu", value);
        break;
    case CAIRO_M_NODE_USE_SINGLE:
    case CAIRO_M_NODE_USE_LIST:
        printf(" path %llu", value);
        break;
    }
    putchar('\n');
}

static void indent(size_t depth) {
    printf("%*s", (int)(2 * (depth < LAST_INDENT ? depth : LAST_INDENT)), "");
    if (depth > LAST_INDENT)
        printf("[%zu] ", depth);
}

// The table has children before their parent. `below` counts the nodes of a subtree, found from the front, and `depth` its
// ancestors, found from the back; a node's place among parents before children is then at - below + 1 + depth.
static void print_tree(const struct reading *r) {
    size_t count = r->node_count;
    size_t *below = table(NULL, 3 * count + 1, sizeof *below), *depth = below + count, *order = depth + count;
    for (size_t at = 0; at < count; at++) {
        below[at] = 1;
        for (size_t child = 0; child < r->nodes[at].children && below[at] <= at; child++)
            below[at] += below[at - below[at]];
    }
    for (size_t at = count; at-- > 0;) {
        size_t child = at;
        for (size_t i = 0; i < r->nodes[at].children && child > 0; i++) {
            child -= i == 0 ? 1 : below[child];
            depth[child] = depth[at] + 1;
        }
        order[at - below[at] + 1 + depth[at]] = at;
    }
    for (size_t i = 0; i < count; i++) {
        indent(depth[order[i]] + 1);
        print_node(r, &r->nodes[order[i]]);
    }
    free(below);
}

// ---- the verdict

static void print_reading(const struct reading *r, const char *name) {
    printf("%s: ", name);
    print_verdict(r);
    putchar('\n');
    print_errors(r, name);
    if (r->outcome == CAIRO_M_ACCEPTED)
        print_tree(r);
}

int main(int words, char **word) {
    static struct reading r;
    if (words < 2) {
        fputs("usage: desk FILE..    (- is standard input)\n", stderr);
        return FAILED;
    }
    make_tables(&r);
    int status = ACCEPTED;
    for (int i = 1; i < words; i++) {
        if (!load(&r, word[i])) {
            status = FAILED;
            continue;
        }
        read_all(&r);
        print_reading(&r, word[i]);
        if (r.outcome != CAIRO_M_ACCEPTED && status == ACCEPTED)
            status = REFUSED;
    }
    free_tables(&r);
    return written() ? status : FAILED;
}
