// How much stack a reading takes.
//
//     stack [TEXT..] [-inputs LIST]
//
// Each construct that repeats or nests is read at about 1 KB and at about 64 KB, then every text and every input that LIST names
// (names end with a zero byte; an input is 8 bytes of head and a text). A call is made on a stack of its own that is full of one
// byte before it; what is no longer that byte after it was used. What an empty function leaves there is taken off.
#define _GNU_SOURCE
#include <stdio.h>
#include <stdlib.h>
#include <string.h>
#include <ucontext.h>

#include "../../c/cairo_m.h"

enum { UNUSED = 0xA5, STACK = 1 << 20, ROOM = 1 << 17, HEAD = 8, SMALL = 1000, LARGE = 65000 };

static uint8_t stack[STACK] __attribute__((aligned(4096)));
static uint8_t text[ROOM];
static size_t length;
static uint32_t outcome;

static ucontext_t caller, callee;

static void nothing(void) {}

static void read_text(void) {
    static cairo_m_token tokens[CAIRO_M_LONGEST_TEXT];
    static cairo_m_node nodes[CAIRO_M_LONGEST_TEXT];
    static cairo_m_diagnostic diagnostics[CAIRO_M_LONGEST_TEXT];
    static cairo_m_record list[CAIRO_M_LONGEST_TEXT];
    size_t counts[3];
    outcome = cairo_m_read(text, length, tokens, sizeof tokens, nodes, sizeof nodes, diagnostics, sizeof diagnostics, &counts[0],
                           &counts[1], &counts[2], list, CAIRO_M_LONGEST_TEXT);
}

// The bytes of the stack that a function uses.
static size_t used_by(void (*function)(void)) {
    memset(stack, UNUSED, STACK);
    if (getcontext(&callee) != 0)
        exit(2);
    callee.uc_stack.ss_sp = stack;
    callee.uc_stack.ss_size = STACK;
    callee.uc_link = &caller;
    makecontext(&callee, function, 0);
    if (swapcontext(&caller, &callee) != 0)
        exit(2);
    size_t unused = 0;
    while (unused < STACK && stack[unused] == UNUSED)
        unused++;
    return STACK - unused;
}

static size_t stack_of_text(void) {
    static size_t of_nothing;
    if (of_nothing == 0)
        of_nothing = used_by(nothing);
    return used_by(read_text) - of_nothing;
}

static void add(const char *words) {
    size_t n = strlen(words);
    if (length + n < ROOM) {
        memcpy(text + length, words, n);
        length += n;
    }
}

// One text: `before`, `opening` and `closing` nested `depth` times round `inner`, `after`; that again and again, up to the length.
struct construct {
    const char *name, *before, *opening, *inner, *closing, *after;
    size_t depth;
    const char *head, *foot; // once, round all
};

static const struct construct constructs[] = {
    {"items", "const A = 1;\n", "", "", "", "", 0, "", ""},
    {"statements", "a = b;\n", "", "", "", "", 0, "fn f() {\n", "}\n"},
    {"arguments", "a, ", "", "", "", "", 0, "const A = f(", "a);\n"},
    {"elements", "1, ", "", "", "", "", 0, "const A = [", "1];\n"},
    {"elements of a tuple", "1, ", "", "", "", "", 0, "const A = (", "1);\n"},
    {"fields", "x: 1, ", "", "", "", "", 0, "const A = T { ", "};\n"},
    {"parameters", "x: T, ", "", "", "", "", 0, "fn f(", ") {}\n"},
    {"names of a pattern", "a, ", "", "", "", "", 0, "fn f() { let (", "a) = b; }\n"},
    {"use path", "a::", "", "", "", "", 0, "use ", "a;\n"},
    {"sums", "1 + ", "", "", "", "", 0, "const A = ", "1;\n"},
    {"all binary levels", "a || b == c & d + e * f ^ ", "", "", "", "", 0, "const A = ", "1;\n"},
    {"prefixes", "-!", "", "", "", "", 0, "const A = ", "1;\n"},
    {"casts", "as felt ", "", "", "", "", 0, "const A = 1 ", ";\n"},
    {"postfixes", "(1)[2].3.a", "", "", "", "", 0, "const A = f", ";\n"},
    {"pointers", "*", "", "", "", "", 0, "const A: T", " = 1;\n"},
    {"else if", "if (a) {} else ", "", "", "", "", 0, "fn f() { ", "{} }\n"},
    {"comments", "// a line\n", "", "", "", "", 0, "", ""},
    {"errors", "@ ", "", "", "", "", 0, "", ""},
    {"suffixes", "const A = 1u8;\n", "", "", "", "", 0, "", ""},
    {"numerals", "const A = 0xFFFFFFFFFFFFFFFF;\n", "", "", "", "", 0, "", ""},
    {"parentheses, 63 deep", "const A = ", "(", "1", ")", ";\n", 63, "", ""},
    {"arrays, 63 deep", "const A = ", "[", "1", "]", ";\n", 63, "", ""},
    {"calls, 63 deep", "const A = ", "f(", "1", ")", ";\n", 63, "", ""},
    {"indices, 63 deep", "const A = ", "a[", "1", "]", ";\n", 63, "", ""},
    {"fields, 63 deep", "const A = ", "T { x: ", "1", "}", ";\n", 63, "", ""},
    {"new, 63 deep", "const A = ", "new T[", "1", "]", ";\n", 63, "", ""},
    {"operands, 63 deep", "const A = ", "1 || 1 & 1 == 1 + 1 * -(", "1", ")", ";\n", 63, "", ""},
    {"second elements, 63 deep", "const A = ", "1 || 1 & 1 == 1 + 1 * -[1, ", "1", "]", ";\n", 63, "", ""},
    {"second arguments, 63 deep", "const A = ", "1 || 1 & 1 == 1 + 1 * -f(1, ", "1", ")", ";\n", 63, "", ""},
    {"second fields, 63 deep", "const A = ", "1 || 1 & 1 == 1 + 1 * -T { x: 1, y: ", "1", "}", ";\n", 63, "", ""},
    {"second fields, 64 deep", "const A = ", "1 || 1 & 1 == 1 + 1 * -T { x: 1, y: ", "1", "}", ";\n", 64, "", ""},
    {"tuple types, 63 deep", "const A: ", "(", "T", ",)", " = 1;\n", 63, "", ""},
    {"array types, 62 deep", "const A: ", "[", "T", "; 1]", " = 1;\n", 62, "", ""},
    {"types after new, 62 deep", "const A = new ", "(", "T", ",)", "[1];\n", 62, "", ""},
    {"patterns, 62 deep", "fn f() { let ", "(", "a", ", b)", " = 1; }\n", 62, "", ""},
    {"blocks, 62 deep", "fn f() { ", "{", "a;", "}", " }\n", 62, "", ""},
    {"if, 62 deep", "fn f() { ", "if (a) ", "a;", "", " }\n", 62, "", ""},
    {"else, 62 deep", "fn f() { ", "if (a) {} else ", "a;", "", " }\n", 62, "", ""},
    {"loops, 62 deep", "fn f() { ", "loop ", "a;", "", " }\n", 62, "", ""},
    {"while, 62 deep", "fn f() { ", "while (a) ", "a;", "", " }\n", 62, "", ""},
    {"for, 62 deep", "fn f() { ", "for (a; b; c) ", "a;", "", " }\n", 62, "", ""},
};

static void build(const struct construct *c, size_t target) {
    length = 0;
    add(c->head);
    size_t unit = strlen(c->before) + strlen(c->inner) + strlen(c->after) + c->depth * (strlen(c->opening) + strlen(c->closing));
    do {
        add(c->before);
        for (size_t i = 0; i < c->depth; i++)
            add(c->opening);
        add(c->inner);
        for (size_t i = 0; i < c->depth; i++)
            add(c->closing);
        add(c->after);
    } while (length + unit + strlen(c->foot) <= target);
    add(c->foot);
}

static size_t largest;
static char largest_name[200];

static void note(size_t used, const char *name) {
    if (used > largest) {
        largest = used;
        snprintf(largest_name, sizeof largest_name, "%s", name);
    }
}

static void read_file(const char *name, size_t skip) {
    FILE *in = fopen(name, "rb");
    if (in == NULL) {
        fprintf(stderr, "stack: no file %s\n", name);
        exit(2);
    }
    length = fread(text, 1, ROOM, in);
    fclose(in);
    skip = skip < length ? skip : length;
    memmove(text, text + skip, length -= skip);
    note(stack_of_text(), name);
}

int main(int words, char **word) {
    int status = 0;
    printf("| Construct | Outcome | Bytes | Stack | Outcome | Bytes | Stack |\n|---|--:|--:|--:|--:|--:|--:|\n");
    for (size_t i = 0; i < sizeof constructs / sizeof constructs[0]; i++) {
        build(&constructs[i], SMALL);
        size_t small = stack_of_text();
        printf("| %s | %u | %zu | %zu", constructs[i].name, outcome, length, small);
        build(&constructs[i], LARGE);
        size_t large = stack_of_text();
        printf(" | %u | %zu | %zu |%s\n", outcome, length, large, small == large ? "" : " another");
        status |= small != large;
        note(large, constructs[i].name);
    }
    size_t files = 0;
    for (int i = 1; i < words; i++) {
        if (strcmp(word[i], "-inputs") != 0 || i + 1 == words) {
            read_file(word[i], 0);
            files++;
            continue;
        }
        FILE *in = fopen(word[++i], "rb");
        char *name = NULL;
        size_t space = 0;
        while (in != NULL && getdelim(&name, &space, '\0', in) > 0) {
            read_file(name, HEAD);
            files++;
        }
        free(name);
        if (in != NULL)
            fclose(in);
    }
    printf("\nstack: %zu files; the largest use is %zu bytes, for %s\n", files, largest, largest_name);
    return status;
}
