// cairo_m.h: the reader of Cairo-M texts, for the exam desk.
//
// `make -C c` writes target/c/libcairo_m.a, which has the functions declared here and needs nothing of others but memset and its
// like from the C library. Every answer is proved against the order's scope paper, here called 01, for whatever bytes and sizes are
// handed in.
//
// A reading in short:
//
//     uint32_t outcome = cairo_m_read(text, length, tokens, sizeof tokens, nodes, sizeof nodes, diagnostics, sizeof diagnostics,
//                                     &token_count, &node_count, &diagnostic_count, list, list_length);
//     if (outcome == CAIRO_M_ACCEPTED) ..   // nodes[0] to nodes[node_count - 1] are the tree, children before their parent
//
// What is lent.
// * All memory is the caller's, before and after a call. Nothing is allocated, and nothing is kept: no state, no pointer.
//   So calls in several threads at once need no lock, as long as each has buffers of its own.
// * No buffer that a call writes (a table, the list, `out`, a count) may overlap any other buffer of that call.
// * A pointer must not be null, not even where a size or a length is 0.
// * A table may stand at any address and have any size in bytes. The structs below lie over a table only where it is aligned for
//   them, as an array of them is, or what malloc gives. Counts, `value` and the list are aligned as their types want.
// * A table takes size / 16 or size / 8 entries, rounded down. Every byte of a table that holds no entry is zero after a call,
//   those past the last whole entry as well. What a table held before a call is of no account.
// * The text is only read. It needs no zero at its end and may have any bytes.
// * The host is little-endian: the archive is for x86-64.
// * The stack that a call takes does not grow with the text, only with its nest, which is bounded: measured, a reading takes under
//   10,000 bytes where little is nested and at most 193,000. A thread of its own is given 512 KiB or more.

#ifndef CAIRO_M_H
#define CAIRO_M_H

#include <stddef.h>
#include <stdint.h>

#if defined(__BYTE_ORDER__) && __BYTE_ORDER__ != __ORDER_LITTLE_ENDIAN__
#error "cairo_m.h: the tables are little-endian, and so must the host be"
#endif

#ifdef __cplusplus
#define CAIRO_M_ASSERT(holds) static_assert(holds, #holds)
extern "C" {
#else
#define CAIRO_M_ASSERT(holds) _Static_assert(holds, #holds)
#endif

// The longest text in bytes, and the most nested one that is read.
#define CAIRO_M_LONGEST_TEXT 65535
#define CAIRO_M_DEEPEST_NEST 64

// The largest value that a listing prints as a number, 2^53 - 1; a larger one is a string.
#define CAIRO_M_LARGEST_NUMBER UINT64_C(9007199254740991)

// ---- outcomes

// What a call returns. Where more than one holds, a reading answers the first of 1, 2, 3, 4, 5, 7, 8, 6; a listing the first of
// 11, 10; the numeral entry the first of 1, 9, 3. The hit test has 12 alone.
enum cairo_m_outcome {
    CAIRO_M_ACCEPTED = 0,
    CAIRO_M_LONG = 1,         // over 65,535 bytes
    CAIRO_M_ENCODING = 2,     // not UTF-8 (RFC 3629)
    CAIRO_M_LEXICAL = 3,      // lexical errors: the diagnostics have them, with reason 1, 2 or 3
    CAIRO_M_TOKEN_ROOM = 4,   // more tokens than the token table has entries; the token count says how many
    CAIRO_M_NEST = 5,         // an attempt takes a token at nest above 64
    CAIRO_M_NODE_ROOM = 6,    // more nodes than the node table has entries; the node count says how many
    CAIRO_M_SYNTAX = 7,       // the grammar does not derive all tokens: one diagnostic, with reason 5, has where reading stopped
    CAIRO_M_SUFFIX = 8,       // literals with an unknown suffix: the diagnostics have them, with reason 4
    CAIRO_M_SPELLING = 9,     // numeral entry alone: not the spelling of a numeral
    CAIRO_M_OUTPUT_ROOM = 10, // listing alone: the JSON is longer than the bytes lent for it
    CAIRO_M_KIND = 11,        // listing alone: a node's kind is not one of 1 to 42
    CAIRO_M_OFFSET = 12       // hit test alone: the offset is at or past the text's length
};

// The reason of a diagnostic. Its span is the whole character or the whole numeral; with reason 5 it is the token, or empty at the
// end of the text, start and end being its length, if all tokens were taken.
enum cairo_m_reason {
    CAIRO_M_REASON_CHARACTER = 1, // a character that begins no token
    CAIRO_M_REASON_OVERFLOW = 2,  // a numeral above 18446744073709551615
    CAIRO_M_REASON_FORMAT = 3,    // a numeral that is not well formed
    CAIRO_M_REASON_SUFFIX = 4,    // a literal with a suffix other than felt and u32
    CAIRO_M_REASON_STOP = 5       // the first token that no attempt of the grammar took, even of those that failed in the end
};

// The suffix of a numeral.
enum cairo_m_suffix {
    CAIRO_M_SUFFIX_NONE = 0,
    CAIRO_M_SUFFIX_FELT = 1,
    CAIRO_M_SUFFIX_U32 = 2,
    CAIRO_M_SUFFIX_OTHER = 3
};

// ---- entries of the tables
//
// A span is start..end in bytes of the text, the end not included. Offsets take 16 bits.

typedef struct cairo_m_token {
    uint8_t kind;   // enum cairo_m_token_kind
    uint8_t suffix; // enum cairo_m_suffix, 0 but for a LiteralNumber
    uint16_t start;
    uint16_t end;
    uint8_t base; // 2, 8, 10 or 16 for a LiteralNumber, else 0
    uint8_t zero;
    uint64_t value; // a LiteralNumber's, else 0
} cairo_m_token;

typedef struct cairo_m_node {
    uint8_t kind;   // enum cairo_m_node_kind
    uint8_t base;   // 2, 8, 10 or 16 for a Count, Literal, LiteralFelt or LiteralU32, as its numeral is written, else 0
    uint16_t start; // Param, PatternTuple and the type of a function that names none have 0..0
    uint16_t end;
    uint16_t children; // how many; they stand before the node, the last right before it, each after its own children
    uint64_t value;    // what it says is named at the kind, 0 where nothing is
} cairo_m_node;

typedef struct cairo_m_diagnostic {
    uint16_t start;
    uint16_t end;
    uint8_t reason; // enum cairo_m_reason
    uint8_t zero[3];
} cairo_m_diagnostic;

// The same as a record of the list that a reading fills. The padding byte after the reason is left open.
typedef struct cairo_m_record {
    uint16_t start;
    uint16_t end;
    uint8_t reason;
} cairo_m_record;

CAIRO_M_ASSERT(sizeof(cairo_m_token) == 16);
CAIRO_M_ASSERT(offsetof(cairo_m_token, kind) == 0);
CAIRO_M_ASSERT(offsetof(cairo_m_token, suffix) == 1);
CAIRO_M_ASSERT(offsetof(cairo_m_token, start) == 2);
CAIRO_M_ASSERT(offsetof(cairo_m_token, end) == 4);
CAIRO_M_ASSERT(offsetof(cairo_m_token, base) == 6);
CAIRO_M_ASSERT(offsetof(cairo_m_token, zero) == 7);
CAIRO_M_ASSERT(offsetof(cairo_m_token, value) == 8);
CAIRO_M_ASSERT(sizeof(cairo_m_node) == 16);
CAIRO_M_ASSERT(offsetof(cairo_m_node, kind) == 0);
CAIRO_M_ASSERT(offsetof(cairo_m_node, base) == 1);
CAIRO_M_ASSERT(offsetof(cairo_m_node, start) == 2);
CAIRO_M_ASSERT(offsetof(cairo_m_node, end) == 4);
CAIRO_M_ASSERT(offsetof(cairo_m_node, children) == 6);
CAIRO_M_ASSERT(offsetof(cairo_m_node, value) == 8);
CAIRO_M_ASSERT(sizeof(cairo_m_diagnostic) == 8);
CAIRO_M_ASSERT(offsetof(cairo_m_diagnostic, start) == 0);
CAIRO_M_ASSERT(offsetof(cairo_m_diagnostic, end) == 2);
CAIRO_M_ASSERT(offsetof(cairo_m_diagnostic, reason) == 4);
CAIRO_M_ASSERT(offsetof(cairo_m_diagnostic, zero) == 5);
CAIRO_M_ASSERT(sizeof(cairo_m_record) == 6);
CAIRO_M_ASSERT(offsetof(cairo_m_record, start) == 0);
CAIRO_M_ASSERT(offsetof(cairo_m_record, end) == 2);
CAIRO_M_ASSERT(offsetof(cairo_m_record, reason) == 4);
CAIRO_M_ASSERT(sizeof(size_t) == 8);

// ---- kinds

// The kinds of tokens: TokenType's variants in lexer.rs, numbered from 1.
enum cairo_m_token_kind {
    CAIRO_M_TOKEN_LITERAL_NUMBER = 1,
    CAIRO_M_TOKEN_AS = 2,
    CAIRO_M_TOKEN_CONST = 3,
    CAIRO_M_TOKEN_ELSE = 4,
    CAIRO_M_TOKEN_FALSE = 5,
    CAIRO_M_TOKEN_FUNCTION = 6, // fn
    CAIRO_M_TOKEN_IF = 7,
    CAIRO_M_TOKEN_LET = 8,
    CAIRO_M_TOKEN_NEW = 9,
    CAIRO_M_TOKEN_RETURN = 10,
    CAIRO_M_TOKEN_STRUCT = 11,
    CAIRO_M_TOKEN_TRUE = 12,
    CAIRO_M_TOKEN_WHILE = 13,
    CAIRO_M_TOKEN_LOOP = 14,
    CAIRO_M_TOKEN_FOR = 15,
    CAIRO_M_TOKEN_IN = 16, // reserved: no rule takes it
    CAIRO_M_TOKEN_BREAK = 17,
    CAIRO_M_TOKEN_CONTINUE = 18,
    CAIRO_M_TOKEN_USE = 19,
    CAIRO_M_TOKEN_IDENTIFIER = 20,
    CAIRO_M_TOKEN_NOT = 21,           // !
    CAIRO_M_TOKEN_AND_AND = 22,       // &&
    CAIRO_M_TOKEN_OR_OR = 23,         // ||
    CAIRO_M_TOKEN_BITWISE_AND = 24,   // &
    CAIRO_M_TOKEN_BITWISE_OR = 25,    // |
    CAIRO_M_TOKEN_BITWISE_XOR = 26,   // ^
    CAIRO_M_TOKEN_EQ_EQ = 27,         // ==
    CAIRO_M_TOKEN_NEQ = 28,           // !=
    CAIRO_M_TOKEN_LESS_EQUAL = 29,    // <=
    CAIRO_M_TOKEN_GREATER_EQUAL = 30, // >=
    CAIRO_M_TOKEN_LESS = 31,          // <
    CAIRO_M_TOKEN_GREATER = 32,       // >
    CAIRO_M_TOKEN_PLUS = 33,          // +
    CAIRO_M_TOKEN_MINUS = 34,         // -
    CAIRO_M_TOKEN_MUL = 35,           // *
    CAIRO_M_TOKEN_DIV = 36,           // the slash
    CAIRO_M_TOKEN_MOD = 37,           // %
    CAIRO_M_TOKEN_EQ = 38,            // =
    CAIRO_M_TOKEN_ARROW = 39,         // ->
    CAIRO_M_TOKEN_L_PAREN = 40,       // (
    CAIRO_M_TOKEN_R_PAREN = 41,       // )
    CAIRO_M_TOKEN_L_BRACE = 42,       // {
    CAIRO_M_TOKEN_R_BRACE = 43,       // }
    CAIRO_M_TOKEN_L_BRACK = 44,       // [
    CAIRO_M_TOKEN_R_BRACK = 45,       // ]
    CAIRO_M_TOKEN_COMMA = 46,         // ,
    CAIRO_M_TOKEN_SEMICOLON = 47,     // ;
    CAIRO_M_TOKEN_COLON = 48,         // :
    CAIRO_M_TOKEN_COLON_COLON = 49,   // ::
    CAIRO_M_TOKEN_DOT = 50            // .
};

// The kinds of nodes, as 01 numbers them. What stands after a kind is its children in order, then its value.
enum cairo_m_node_kind {
    CAIRO_M_NODE_NAME = 1,            // none
    CAIRO_M_NODE_NAMED = 2,           // none; enum cairo_m_named
    CAIRO_M_NODE_POINTER = 3,         // type
    CAIRO_M_NODE_TYPE_TUPLE = 4,      // types
    CAIRO_M_NODE_FIXED_ARRAY = 5,     // type, Count
    CAIRO_M_NODE_COUNT = 6,           // none; the number
    CAIRO_M_NODE_LITERAL = 7,         // none; the number
    CAIRO_M_NODE_LITERAL_FELT = 8,    // none; the number
    CAIRO_M_NODE_LITERAL_U32 = 9,     // none; the number
    CAIRO_M_NODE_BOOL = 10,           // none; 0 false, 1 true
    CAIRO_M_NODE_IDENTIFIER = 11,     // none
    CAIRO_M_NODE_UNARY = 12,          // operand; enum cairo_m_unary
    CAIRO_M_NODE_BINARY = 13,         // left, right; enum cairo_m_binary
    CAIRO_M_NODE_CALL = 14,           // callee, arguments
    CAIRO_M_NODE_MEMBER = 15,         // operand, Name
    CAIRO_M_NODE_INDEX = 16,          // operand, index
    CAIRO_M_NODE_STRUCT_LITERAL = 17, // Name, then Name and expression of each field
    CAIRO_M_NODE_TUPLE = 18,          // expressions
    CAIRO_M_NODE_TUPLE_INDEX = 19,    // operand; the index
    CAIRO_M_NODE_ARRAY = 20,          // expressions
    CAIRO_M_NODE_ARRAY_REPEAT = 21,   // element, Count
    CAIRO_M_NODE_CAST = 22,           // operand, Named
    CAIRO_M_NODE_NEW = 23,            // type, expression
    CAIRO_M_NODE_PAREN = 24,          // expression
    CAIRO_M_NODE_PATTERN_TUPLE = 25,  // two or more of Name and PatternTuple
    CAIRO_M_NODE_LET = 26,            // pattern, type if typed, expression; 1 if typed
    CAIRO_M_NODE_CONST = 27,          // Name, type if typed, expression; 1 if typed
    CAIRO_M_NODE_ASSIGN = 28,         // left, right
    CAIRO_M_NODE_RETURN = 29,         // expression, if any
    CAIRO_M_NODE_IF = 30,             // condition, then, else if any
    CAIRO_M_NODE_EXPR_STMT = 31,      // expression
    CAIRO_M_NODE_BLOCK = 32,          // statements
    CAIRO_M_NODE_LOOP = 33,           // body
    CAIRO_M_NODE_WHILE = 34,          // condition, body
    CAIRO_M_NODE_FOR = 35,            // init, condition, step, body
    CAIRO_M_NODE_BREAK = 36,          // none
    CAIRO_M_NODE_CONTINUE = 37,       // none
    CAIRO_M_NODE_PARAM = 38,          // Name, type
    CAIRO_M_NODE_FUNCTION = 39,       // Name, Params, return type, statements; the number of Params
    CAIRO_M_NODE_STRUCT_DEF = 40,     // Name, then Name and type of each field
    CAIRO_M_NODE_USE_SINGLE = 41,     // Names of the path, Name; the number of path Names
    CAIRO_M_NODE_USE_LIST = 42        // Names of the path, Names; the number of path Names
};

// The value of a Named.
enum cairo_m_named {
    CAIRO_M_NAMED_FELT = 0,
    CAIRO_M_NAMED_BOOL = 1,
    CAIRO_M_NAMED_U32 = 2,
    CAIRO_M_NAMED_OTHER = 3
};

// The value of a Unary.
enum cairo_m_unary {
    CAIRO_M_UNARY_NOT = 0, // !
    CAIRO_M_UNARY_NEG = 1  // -
};

// The value of a Binary: BinaryOp's variants in parser.rs, numbered from 0.
enum cairo_m_binary {
    CAIRO_M_BINARY_ADD = 0,            // +
    CAIRO_M_BINARY_SUB = 1,            // -
    CAIRO_M_BINARY_MUL = 2,            // *
    CAIRO_M_BINARY_DIV = 3,            // the slash
    CAIRO_M_BINARY_MOD = 4,            // %
    CAIRO_M_BINARY_EQ = 5,             // ==
    CAIRO_M_BINARY_NEQ = 6,            // !=
    CAIRO_M_BINARY_LESS = 7,           // <
    CAIRO_M_BINARY_GREATER = 8,        // >
    CAIRO_M_BINARY_LESS_EQUAL = 9,     // <=
    CAIRO_M_BINARY_GREATER_EQUAL = 10, // >=
    CAIRO_M_BINARY_AND = 11,           // &&
    CAIRO_M_BINARY_OR = 12,            // ||
    CAIRO_M_BINARY_BITWISE_AND = 13,   // &
    CAIRO_M_BINARY_BITWISE_OR = 14,    // |
    CAIRO_M_BINARY_BITWISE_XOR = 15    // ^
};

// ---- entry points
//
// Sizes of tables and of `out` are in bytes; `list_length` counts records.

// What the spelling of a numeral says. The outcome is 0, or 1, 9 or 3. The base is 16, 8 or 2 where the spelling begins with 0x, 0o
// or 0b, in either case of the letter, else 10. Refused, value, suffix and base are 0; the reason is 2 or 3 with outcome 3, else 0.
uint32_t cairo_m_numeral(const void *spelling, size_t length, uint64_t *value, uint8_t *suffix, uint8_t *base, uint8_t *reason);

// The tokens of a text. The outcome is 0, 1, 2, 3 or 4.
// The token table has the tokens with outcome 0, else it is all zero; the token count is that of all tokens with outcomes 0 and 4,
// else 0. The diagnostic table has the lexical errors in text order with outcome 3, as many as it has entries for, else it is all
// zero; the diagnostic count is that of all of them with outcome 3, else 0.
uint32_t cairo_m_lex(const void *text, size_t length, void *tokens, size_t tokens_size, void *diagnostics, size_t diagnostics_size,
                     size_t *token_count, size_t *diagnostic_count);

// A text from bytes to nodes. The outcome is one of 0 to 8.
// With outcome 0 the token table has the tokens and the node table the tree; with any other both are all zero. The diagnostic table
// has the errors in text order with outcomes 3 and 8, as many as it has entries for, and with outcome 7 the one diagnostic of where
// reading stopped, if it has an entry; else it is all zero.
// The token count is that of all tokens with outcomes 0 and 4, the node count that of all nodes with outcomes 0 and 6, the
// diagnostic count that of all errors with outcomes 3 and 8, and 1 with outcome 7; any other count is 0.
// Record i of the list is entry i of the diagnostic table, and zero where the table has none.
// Tables that take every text: as many entries each as the text has bytes, so CAIRO_M_LONGEST_TEXT. A text has no more tokens, and
// no more diagnostics, than bytes, and a tree no more nodes than its text has tokens.
uint32_t cairo_m_read(const void *text, size_t length, void *tokens, size_t tokens_size, void *nodes, size_t nodes_size,
                      void *diagnostics, size_t diagnostics_size, size_t *token_count, size_t *node_count, size_t *diagnostic_count,
                      cairo_m_record *list, size_t list_length);

// The length of the spelling of a node of this kind and span, which stands at text + start. It is 0, an empty part, for another
// kind than Name, Named and Identifier, and for a span that is not within the text.
size_t cairo_m_spelling(const void *text, size_t length, uint8_t kind, uint16_t start, uint16_t end);

// The listing of a tree: RFC 8259 JSON without spaces, as [["Name",6,7,0,0],["Literal",10,11,0,1,10],["Const",0,12,2,0]], without a
// line feed: kind, start, end, children and value of every whole entry, so lend just node_count * sizeof(cairo_m_node) bytes; and the
// base, whatever it is, of a Count, Literal, LiteralFelt or LiteralU32. A value above CAIRO_M_LARGEST_NUMBER is a string of its
// decimal digits, as ["Literal",10,26,0,"9007199254740992",10], since a reader of JSON may hold numbers as 64-bit floats (RFC 7493).
// The outcome is 0, 11 or 10. `size` is the length of the text with outcome 0, else 0; `out` is zero after the text, and all zero
// when refused.
uint32_t cairo_m_list(const void *nodes, size_t nodes_size, void *out, size_t out_size, size_t *size);

// The listing of a refusal, as {"refused":3,"diagnostics":[[0,1,1]]}: start, end and reason of every whole entry. The outcome is 0
// or 10; `size` and `out` are as above.
uint32_t cairo_m_list_refused(uint32_t outcome, const void *diagnostics, size_t diagnostics_size, void *out, size_t out_size,
                              size_t *size);

// What is under the pointer: the node with the shortest span that contains the offset, its start included and its end not; among
// equal lengths the first in the table. Every whole entry counts as it is, whatever table it is: one whose start is at or past its
// end contains nothing, so that the zeros behind a tree do no harm.
// The outcome is 0 or 12. `found` is 1 and `place` the node's place in the table, from 0, if a node contains the offset; both are 0
// if none does, and when refused.
uint32_t cairo_m_hit_test(size_t offset, size_t length, const void *nodes, size_t nodes_size, uint8_t *found, size_t *place);

// Room that a listing of so many entries never goes past. The longest rows are
// ["LiteralFelt",65535,65535,65535,"18446744073709551615",255] and [65535,65535,255], with a comma 61 and 18 bytes; the rest is []
// and {"refused":4294967295,"diagnostics":[]}.
#define CAIRO_M_LIST_BOUND(node_count) ((size_t)61 * (node_count) + 2)
#define CAIRO_M_LIST_REFUSED_BOUND(diagnostic_count) ((size_t)18 * (diagnostic_count) + 39)

#ifdef __cplusplus
}
#endif

#endif
