#include "tree.h"

#include <stdbool.h>
#include <string.h>

#include "lent.h"

// ---- tokens

static const char *const spellings[TOKEN_KINDS + 1] = {
    [CAIRO_M_TOKEN_AS] = "as",
    [CAIRO_M_TOKEN_CONST] = "const",
    [CAIRO_M_TOKEN_ELSE] = "else",
    [CAIRO_M_TOKEN_FALSE] = "false",
    [CAIRO_M_TOKEN_FUNCTION] = "fn",
    [CAIRO_M_TOKEN_IF] = "if",
    [CAIRO_M_TOKEN_LET] = "let",
    [CAIRO_M_TOKEN_NEW] = "new",
    [CAIRO_M_TOKEN_RETURN] = "return",
    [CAIRO_M_TOKEN_STRUCT] = "struct",
    [CAIRO_M_TOKEN_TRUE] = "true",
    [CAIRO_M_TOKEN_WHILE] = "while",
    [CAIRO_M_TOKEN_LOOP] = "loop",
    [CAIRO_M_TOKEN_FOR] = "for",
    [CAIRO_M_TOKEN_IN] = "in",
    [CAIRO_M_TOKEN_BREAK] = "break",
    [CAIRO_M_TOKEN_CONTINUE] = "continue",
    [CAIRO_M_TOKEN_USE] = "use",
    [CAIRO_M_TOKEN_NOT] = "!",
    [CAIRO_M_TOKEN_AND_AND] = "&&",
    [CAIRO_M_TOKEN_OR_OR] = "||",
    [CAIRO_M_TOKEN_BITWISE_AND] = "&",
    [CAIRO_M_TOKEN_BITWISE_OR] = "|",
    [CAIRO_M_TOKEN_BITWISE_XOR] = "^",
    [CAIRO_M_TOKEN_EQ_EQ] = "==",
    [CAIRO_M_TOKEN_NEQ] = "!=",
    [CAIRO_M_TOKEN_LESS_EQUAL] = "<=",
    [CAIRO_M_TOKEN_GREATER_EQUAL] = ">=",
    [CAIRO_M_TOKEN_LESS] = "<",
    [CAIRO_M_TOKEN_GREATER] = ">",
    [CAIRO_M_TOKEN_PLUS] = "+",
    [CAIRO_M_TOKEN_MINUS] = "-",
    [CAIRO_M_TOKEN_MUL] = "*",
    [CAIRO_M_TOKEN_DIV] = "/",
    [CAIRO_M_TOKEN_MOD] = "%",
    [CAIRO_M_TOKEN_EQ] = "=",
    [CAIRO_M_TOKEN_ARROW] = "->",
    [CAIRO_M_TOKEN_L_PAREN] = "(",
    [CAIRO_M_TOKEN_R_PAREN] = ")",
    [CAIRO_M_TOKEN_L_BRACE] = "{",
    [CAIRO_M_TOKEN_R_BRACE] = "}",
    [CAIRO_M_TOKEN_L_BRACK] = "[",
    [CAIRO_M_TOKEN_R_BRACK] = "]",
    [CAIRO_M_TOKEN_COMMA] = ",",
    [CAIRO_M_TOKEN_SEMICOLON] = ";",
    [CAIRO_M_TOKEN_COLON] = ":",
    [CAIRO_M_TOKEN_COLON_COLON] = "::",
    [CAIRO_M_TOKEN_DOT] = ".",
};

static bool is_digit(uint8_t c) { return c >= '0' && c <= '9'; }

static bool is_name_byte(uint8_t c) { return (c >= 'a' && c <= 'z') || (c >= 'A' && c <= 'Z') || c == '_' || is_digit(c); }

static bool is_spelt(const uint8_t *text, const cairo_m_token *t, const char *words) {
    for (size_t i = t->start; i < t->end; i++, words++)
        if (*words == '\0' || (uint8_t)*words != text[i])
            return false;
    return *words == '\0';
}

// Blanks and comments; a comment ends before the line feed.
static size_t skipped(const uint8_t *text, size_t length, size_t at) {
    while (at < length) {
        if (text[at] == ' ' || text[at] == '\t' || text[at] == '\n' || text[at] == '\r')
            at++;
        else if (text[at] == '/' && at + 1 < length && text[at + 1] == '/')
            while (at < length && text[at] != '\n')
                at++;
        else
            break;
    }
    return at;
}

static uint8_t base_of(const uint8_t *text, const cairo_m_token *numeral) {
    if (numeral->end - numeral->start < 2 || text[numeral->start] != '0')
        return 10;
    switch (text[numeral->start + 1]) {
    case 'x':
    case 'X': return 16;
    case 'o':
    case 'O': return 8;
    case 'b':
    case 'B': return 2;
    default: return 10;
    }
}

static void check_token(const uint8_t *text, size_t length, const cairo_m_token *t) {
    if (t->kind < 1 || t->kind > TOKEN_KINDS || t->zero != 0 || t->suffix > CAIRO_M_SUFFIX_OTHER)
        fail("a token has numbers out of range");
    if (t->kind != CAIRO_M_TOKEN_LITERAL_NUMBER && (t->suffix != 0 || t->value != 0 || t->base != 0))
        fail("a token that is no numeral has a value");
    if (t->kind == CAIRO_M_TOKEN_LITERAL_NUMBER && t->base != base_of(text, t))
        fail("a numeral has another base than its spelling");
    if (t->kind == CAIRO_M_TOKEN_LITERAL_NUMBER || t->kind == CAIRO_M_TOKEN_IDENTIFIER) {
        if (is_digit(text[t->start]) != (t->kind == CAIRO_M_TOKEN_LITERAL_NUMBER))
            fail("a numeral does not begin with a digit, or a name does");
        for (size_t i = t->start; i < t->end; i++)
            if (!is_name_byte(text[i]))
                fail("a name or a numeral has another byte");
        if (t->end < length && is_name_byte(text[t->end]))
            fail("a name or a numeral is not the longest");
        for (int kind = CAIRO_M_TOKEN_AS; kind <= CAIRO_M_TOKEN_USE; kind++)
            if (is_spelt(text, t, spellings[kind]))
                fail("a keyword is called a name");
    } else if (!is_spelt(text, t, spellings[t->kind])) {
        fail("a token is not spelled as its kind");
    }
}

void check_tokens(const uint8_t *text, size_t length, const cairo_m_token *tokens, size_t count) {
    size_t at = 0;
    for (size_t i = 0; i < count; i++) {
        const cairo_m_token *t = &tokens[i];
        if (t->start >= t->end || t->end > length || t->start != skipped(text, length, at))
            fail("a token is out of place");
        check_token(text, length, t);
        at = t->end;
    }
    if (skipped(text, length, at) != length)
        fail("the tokens do not use up the text");
}

// ---- nodes

const char *const node_names[NODE_KINDS + 1] = {
    "",           "Name",       "Named",      "Pointer",     "TypeTuple", "FixedArray", "Count",  "Literal",      "LiteralFelt",
    "LiteralU32", "Bool",       "Identifier", "Unary",       "Binary",    "Call",       "Member", "Index",        "StructLiteral",
    "Tuple",      "TupleIndex", "Array",      "ArrayRepeat", "Cast",      "New",        "Paren",  "PatternTuple", "Let",
    "Const",      "Assign",     "Return",     "If",          "ExprStmt",  "Block",      "Loop",   "While",        "For",
    "Break",      "Continue",   "Param",      "Function",    "StructDef", "UseSingle",  "UseList"};

bool carries_base(uint8_t kind) { return kind >= CAIRO_M_NODE_COUNT && kind <= CAIRO_M_NODE_LITERAL_U32; }

// A sort of nodes, as a letter: n Name, c Count, d Named, p Param, T type, E expression, P pattern, S statement, I item,
// f a for's init, s its step.
static bool is_of(char sort, uint8_t kind) {
    switch (sort) {
    case 'n': return kind == CAIRO_M_NODE_NAME;
    case 'c': return kind == CAIRO_M_NODE_COUNT;
    case 'd': return kind == CAIRO_M_NODE_NAMED;
    case 'p': return kind == CAIRO_M_NODE_PARAM;
    case 'T': return kind >= CAIRO_M_NODE_NAMED && kind <= CAIRO_M_NODE_FIXED_ARRAY;
    case 'E': return kind >= CAIRO_M_NODE_LITERAL && kind <= CAIRO_M_NODE_PAREN;
    case 'P': return kind == CAIRO_M_NODE_NAME || kind == CAIRO_M_NODE_PATTERN_TUPLE;
    case 'S': return kind >= CAIRO_M_NODE_LET && kind <= CAIRO_M_NODE_CONTINUE;
    case 'I': return kind == CAIRO_M_NODE_CONST || (kind >= CAIRO_M_NODE_FUNCTION && kind <= CAIRO_M_NODE_USE_LIST);
    case 'f': return kind == CAIRO_M_NODE_LET || kind == CAIRO_M_NODE_ASSIGN || kind == CAIRO_M_NODE_EXPR_STMT;
    case 's': return kind == CAIRO_M_NODE_ASSIGN || kind == CAIRO_M_NODE_EXPR_STMT;
    default: return false;
    }
}

// The sorts of a kind's children in order, `?` after one that may be missing, `*` before a tail that repeats; `#` is as many Params
// or Names as the value says. And the largest value.
static const struct {
    const char *children;
    uint64_t most;
} shapes[NODE_KINDS + 1] = {
    [CAIRO_M_NODE_NAME] = {"", 0},
    [CAIRO_M_NODE_NAMED] = {"", CAIRO_M_NAMED_OTHER},
    [CAIRO_M_NODE_POINTER] = {"T", 0},
    [CAIRO_M_NODE_TYPE_TUPLE] = {"*T", 0},
    [CAIRO_M_NODE_FIXED_ARRAY] = {"Tc", 0},
    [CAIRO_M_NODE_COUNT] = {"", UINT64_MAX},
    [CAIRO_M_NODE_LITERAL] = {"", UINT64_MAX},
    [CAIRO_M_NODE_LITERAL_FELT] = {"", UINT64_MAX},
    [CAIRO_M_NODE_LITERAL_U32] = {"", UINT64_MAX},
    [CAIRO_M_NODE_BOOL] = {"", 1},
    [CAIRO_M_NODE_IDENTIFIER] = {"", 0},
    [CAIRO_M_NODE_UNARY] = {"E", CAIRO_M_UNARY_NEG},
    [CAIRO_M_NODE_BINARY] = {"EE", CAIRO_M_BINARY_BITWISE_XOR},
    [CAIRO_M_NODE_CALL] = {"E*E", 0},
    [CAIRO_M_NODE_MEMBER] = {"En", 0},
    [CAIRO_M_NODE_INDEX] = {"EE", 0},
    [CAIRO_M_NODE_STRUCT_LITERAL] = {"n*nE", 0},
    [CAIRO_M_NODE_TUPLE] = {"*E", 0},
    [CAIRO_M_NODE_TUPLE_INDEX] = {"E", UINT64_MAX},
    [CAIRO_M_NODE_ARRAY] = {"*E", 0},
    [CAIRO_M_NODE_ARRAY_REPEAT] = {"Ec", 0},
    [CAIRO_M_NODE_CAST] = {"Ed", 0},
    [CAIRO_M_NODE_NEW] = {"TE", 0},
    [CAIRO_M_NODE_PAREN] = {"E", 0},
    [CAIRO_M_NODE_PATTERN_TUPLE] = {"PP*P", 0},
    [CAIRO_M_NODE_LET] = {"PT?E", 1},
    [CAIRO_M_NODE_CONST] = {"nT?E", 1},
    [CAIRO_M_NODE_ASSIGN] = {"EE", 0},
    [CAIRO_M_NODE_RETURN] = {"E?", 0},
    [CAIRO_M_NODE_IF] = {"ESS?", 0},
    [CAIRO_M_NODE_EXPR_STMT] = {"E", 0},
    [CAIRO_M_NODE_BLOCK] = {"*S", 0},
    [CAIRO_M_NODE_LOOP] = {"S", 0},
    [CAIRO_M_NODE_WHILE] = {"ES", 0},
    [CAIRO_M_NODE_FOR] = {"fEsS", 0},
    [CAIRO_M_NODE_BREAK] = {"", 0},
    [CAIRO_M_NODE_CONTINUE] = {"", 0},
    [CAIRO_M_NODE_PARAM] = {"nT", 0},
    [CAIRO_M_NODE_FUNCTION] = {"n#pT*S", UINT16_MAX},
    [CAIRO_M_NODE_STRUCT_DEF] = {"n*nT", 0},
    [CAIRO_M_NODE_USE_SINGLE] = {"#nn", UINT16_MAX},
    [CAIRO_M_NODE_USE_LIST] = {"n#n*n", UINT16_MAX},
};

FEATURES uint8_t pairs_seen[(NODE_KINDS + 1) * (NODE_KINDS + 1)];

static bool has_shape(const cairo_m_node *nodes, const size_t *children, const cairo_m_node *parent) {
    const char *sorts = shapes[parent->kind].children;
    size_t i = 0, count = parent->children;
    bool optional = false;
    // the path of a list has at least one name, which stands for itself
    uint64_t more = parent->kind == CAIRO_M_NODE_USE_LIST ? parent->value - 1 : parent->value;
    for (; *sorts != '\0' && *sorts != '*'; sorts++) {
        if (*sorts == '#') {
            sorts++;
            for (uint64_t n = 0; n < more; n++, i++)
                if (i >= count || !is_of(*sorts, nodes[children[i]].kind))
                    return false;
        } else if (i < count && is_of(*sorts, nodes[children[i]].kind)) {
            optional = optional || sorts[1] == '?';
            sorts += sorts[1] == '?';
            i++;
        } else if (sorts[1] == '?') {
            sorts++;
        } else {
            return false;
        }
    }
    if ((parent->kind == CAIRO_M_NODE_LET || parent->kind == CAIRO_M_NODE_CONST) && optional != (parent->value == 1))
        return false;
    if (*sorts != '*')
        return i == count;
    for (const char *at = sorts + 1; i < count; i++) {
        if (!is_of(*at, nodes[children[i]].kind))
            return false;
        at = at[1] == '\0' ? sorts + 1 : at + 1;
        if (i + 1 == count && at != sorts + 1)
            return false;
    }
    return true;
}

static bool has_no_span(const cairo_m_node *n) { return n->start == 0 && n->end == 0; }

static void check_span(const cairo_m_node *nodes, const size_t *children, const cairo_m_node *n, size_t length,
                       const uint8_t *starts, const uint8_t *ends) {
    if (n->kind == CAIRO_M_NODE_PARAM || n->kind == CAIRO_M_NODE_PATTERN_TUPLE) {
        if (!has_no_span(n))
            fail("a parameter or a tuple pattern has a span");
        return;
    }
    if (n->kind == CAIRO_M_NODE_TYPE_TUPLE && n->children == 0 && has_no_span(n))
        return;
    if (n->start >= n->end || n->end > length || !starts[n->start])
        fail("a node has no span within the text, or begins with no token");
    if (n->kind == CAIRO_M_NODE_CALL && n->children == 1) {
        if (n->end != nodes[children[0]].end + 2)
            fail("a call without arguments does not end at its callee's end + 2");
    } else if (!ends[n->end] && (n->children == 0 || n->end != nodes[children[n->children - 1]].end)) {
        // such a call may end within a blank, and a node that ends with its last operand then does so too, as `-a[0] ()`
        fail("a node ends with no token and not with its last child");
    }
    size_t at = n->start;
    for (size_t i = 0; i < n->children; i++) {
        const cairo_m_node *child = &nodes[children[i]];
        if (has_no_span(child))
            continue;
        if (child->start < at || child->end > n->end)
            fail("a child is not within its parent, or not in order");
        at = child->end;
    }
}

// `first` is the token that the node begins with.
static void check_base(const cairo_m_node *n, const cairo_m_token *first) {
    if (!carries_base(n->kind)) {
        if (n->base != 0)
            fail("a node that is no count and no literal has a base");
        return;
    }
    if (first->kind != CAIRO_M_TOKEN_LITERAL_NUMBER || n->end != first->end || n->value != first->value || n->base != first->base)
        fail("a count or a literal is not its numeral");
    if (n->base != 2 && n->base != 8 && n->base != 10 && n->base != 16)
        fail("a count or a literal has no base");
}

void check_nodes(size_t length, const cairo_m_token *tokens, size_t token_count, const cairo_m_node *nodes, size_t count) {
    static uint8_t starts[CAIRO_M_LONGEST_TEXT + 1], ends[CAIRO_M_LONGEST_TEXT + 1];
    static const cairo_m_token *token_at[CAIRO_M_LONGEST_TEXT + 1];
    static size_t roots[CAIRO_M_LONGEST_TEXT];
    if (length > CAIRO_M_LONGEST_TEXT || count > token_count)
        fail("too long a text, or more nodes than tokens");
    memset(starts, 0, length + 1);
    memset(ends, 0, length + 1);
    for (size_t i = 0; i < token_count; i++) {
        starts[tokens[i].start] = 1;
        ends[tokens[i].end] = 1;
        token_at[tokens[i].start] = &tokens[i];
    }
    size_t depth = 0, at = 0;
    for (size_t i = 0; i < count; i++) {
        const cairo_m_node *n = &nodes[i];
        if (n->kind < 1 || n->kind > NODE_KINDS || n->value > shapes[n->kind].most)
            fail("a node has numbers out of range");
        if (n->children > depth)
            fail("a node has more children than stand before it");
        depth -= n->children;
        const size_t *children = roots + depth;
        if (!has_shape(nodes, children, n))
            fail("a node has other children than its kind");
        check_span(nodes, children, n, length, starts, ends);
        check_base(n, token_at[n->start]);
        for (size_t j = 0; j < n->children; j++)
            pairs_seen[n->kind * (NODE_KINDS + 1) + nodes[children[j]].kind] = 1;
        roots[depth++] = i;
    }
    for (size_t i = 0; i < depth; i++) {
        const cairo_m_node *item = &nodes[roots[i]];
        if (!is_of('I', item->kind) || item->start < at)
            fail("a root is no item, or not in order");
        at = item->end;
    }
}
