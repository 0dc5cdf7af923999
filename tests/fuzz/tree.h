// What 01 says of tables whatever the text is: checks that need no second reader. Each fails through `fail`.
#ifndef TREE_H
#define TREE_H

#include <stdbool.h>

#include "../../c/cairo_m.h"

enum { TOKEN_KINDS = 50, NODE_KINDS = 42 };

// The names of the node kinds in a listing, from 1.
extern const char *const node_names[NODE_KINDS + 1];

// Whether nodes of this kind carry the base of their numeral.
bool carries_base(uint8_t kind);

// Which kinds of nodes stand right under which: one byte for each pair, 1 once it was seen.
extern uint8_t pairs_seen[(NODE_KINDS + 1) * (NODE_KINDS + 1)];

// Tokens follow each other in the text, nothing but what is skipped stands between them, and each is spelled as its kind is; a
// numeral has the base that its first two bytes say.
void check_tokens(const uint8_t *text, size_t length, const cairo_m_token *tokens, size_t count);

// The nodes are a forest of items: the children of a node are whole trees right before it, of the kinds and the number that its
// kind has. Spans begin with tokens and end with tokens or with the last child's, children's lie in their parent's and in order.
// A count or a literal has the span, the value and the base of its numeral; no other node has a base.
void check_nodes(size_t length, const cairo_m_token *tokens, size_t token_count, const cairo_m_node *nodes, size_t count);

#endif
