"""parser.rs in Python: a model of the grammar, rule by rule as it stands there, and of 01's nest.

The combinators have the meaning that 01 gives them: ordered choice that is never reopened, greedy repetition, and what has
failed gives its tokens back. A parser is a function over a State; it answers a value and moves the place on, or answers FAIL.
Each rule below names the lines of parser.rs that it is taken from. Nothing here was taken from the crates or what they print.

The nest is counted as the text is read. A token that is taken at nest above 64 ends everything at once, which is exact:
outcome 5 stands before all that could still be found out. So no text makes Python recurse more deeply than the nest does.

Where a text stops is kept in the same way: a token is taken when it is gone past, whatever becomes of the attempt. `just` goes past
a token before anything can turn it down, and nothing else does; `paren_tail` only looks.
"""

import sys

import expected

sys.setrecursionlimit(5000)

DEEPEST = 64
FAIL = object()


class Deep(Exception):
    """An attempt has taken a token at nest above 64."""


class Node:
    __slots__ = ("kind", "start", "end", "value", "children", "suffix", "base")

    def __init__(self, kind, span, children=(), value=0, suffix=0, base=0):
        self.kind, self.value, self.children, self.suffix, self.base = kind, value, list(children), suffix, base
        self.start, self.end = span


class State:
    """The tokens of a text, the place among them, the first not taken, the nest, and the highest at which one was taken."""

    def __init__(self, text, tokens):
        self.text, self.tokens = text, tokens
        self.at, self.untaken, self.nest, self.highest = 0, 0, 0, 0
        self.known = {}

    def kind(self):
        return self.tokens[self.at][0] if self.at < len(self.tokens) else 0

    def take(self):
        self.taken_at(self.nest)
        token = self.tokens[self.at]
        self.at += 1
        self.untaken = max(self.untaken, self.at)
        return token

    def taken_at(self, nest):
        if nest > DEEPEST:
            raise Deep
        if nest > self.highest:
            self.highest = nest


# ---- combinators


def just(kind):
    number = expected.KIND_NUMBER[kind]

    def run(state):
        return state.take() if state.kind() == number else FAIL
    return run


def seq(*parts):
    """The parts one after the other; the value is the list of their values, without the tokens that are given by name."""
    steps = [(just(part), False) if isinstance(part, str) else (part, True) for part in parts]

    def run(state):
        values = []
        for parser, kept in steps:
            value = parser(state)
            if value is FAIL:
                return FAIL
            if kept:
                values.append(value)
        return values
    return run


def choice(*parsers):
    def run(state):
        at = state.at
        for parser in parsers:
            value = parser(state)
            if value is not FAIL:
                return value
            state.at = at
        return FAIL
    return run


def or_not(parser):
    """The value, or None."""
    def run(state):
        at = state.at
        value = parser(state)
        if value is FAIL:
            state.at = at
            return None
        return value
    return run


def repeated(parser):
    def run(state):
        values = []
        while True:
            at = state.at
            value = parser(state)
            if value is FAIL:
                state.at = at
                return values
            values.append(value)
    return run


def separated(parser, by, trailing=False, at_least=0):
    rest = repeated(mapped(seq(by, parser), lambda values: values[0]))
    last = or_not(just(by))

    def run(state):
        at = state.at
        first = parser(state)
        if first is FAIL:
            state.at = at
            return [] if at_least == 0 else FAIL
        values = [first] + rest(state)
        if trailing:
            last(state)
        return values if len(values) >= at_least else FAIL
    return run


def foldl(first, rest, join):
    def run(state):
        value = first(state)
        while value is not FAIL:
            at = state.at
            more = rest(state)
            if more is FAIL:
                state.at = at
                return value
            value = join(value, more)
        return FAIL
    return run


def mapped(parser, made):
    """`map` and `try_map`: the function may answer FAIL."""
    def run(state):
        value = parser(state)
        return FAIL if value is FAIL else made(value)
    return run


def spanned(parser, made):
    """`map_with`: the function gets the value, the span of the tokens that were used, and the text."""
    def run(state):
        at = state.at
        value = parser(state)
        if value is FAIL:
            return FAIL
        return made(value, (state.tokens[at][2], state.tokens[state.at - 1][3]), state.text)
    return run


class recursive:
    """A rule that adds one to the nest. What it answers at a place is kept, with how much deeper it has taken a token.

    At a place where it was before it takes no token that it has not taken there already.
    """

    def __init__(self):
        self.body = None

    def __call__(self, state):
        key = (self, state.at)
        if key not in state.known:
            outside, state.highest = state.highest, 0
            state.nest += 1
            value = self.body(state)
            state.nest -= 1
            deeper = state.highest - state.nest if state.highest else 0
            state.known[key] = value, state.at, deeper
            state.highest = outside
        value, state.at, deeper = state.known[key]
        if deeper:
            state.taken_at(state.nest + deeper)
        return value


# ---- names and types, 648 to 755

type_expr, alloc_type_expr, pattern, expr, statement = [recursive() for _ in range(5)]

LITERALS = {1: "LiteralFelt", 2: "LiteralU32"}


def joined(kind, *parts, value=0):
    """A node from the first part's start to the last part's end."""
    return Node(kind, (parts[0].start, parts[-1].end), parts, value)


def node_of(kind):
    return lambda parts, span, text: Node(kind, span, parts)


def flat(pairs):
    return [part for pair in pairs for part in pair]


spanned_ident = spanned(just("Identifier"), lambda token, span, text: Node("Name", span))

named_type = spanned(just("Identifier"), lambda token, span, text: Node(
    "Named", span, value={b"felt": 0, b"bool": 1, b"u32": 2}.get(text[span[0]:span[1]], 3)))


def tuple_type(of):
    def made(parts, span, text):
        types, comma = parts
        return types[0] if len(types) == 1 and comma is None else Node("TypeTuple", span, types)
    return spanned(seq("LParen", separated(of, "Comma"), or_not(just("Comma")), "RParen"), made)


def stars(base):
    star = spanned(just("Mul"), lambda token, span, text: span[1])
    return foldl(base, star, lambda of, end: Node("Pointer", (of.start, end), [of]))


def array_size(size):
    if size.kind != "Literal" or size.suffix:
        return FAIL
    return Node("Count", (size.start, size.end), value=size.value, base=size.base)


array_type = spanned(seq("LBrack", type_expr, "Semicolon", mapped(expr, array_size), "RBrack"), node_of("FixedArray"))

type_expr.body = stars(choice(named_type, array_type, tuple_type(type_expr)))

# ---- expressions, 757 to 1244

literal = spanned(just("LiteralNumber"), lambda token, span, text: Node(
    LITERALS.get(token[1], "Literal"), span, value=token[4], suffix=token[1], base=token[5]))

boolean_literal = choice(spanned(just("True"), lambda token, span, text: Node("Bool", span, value=1)),
                         spanned(just("False"), lambda token, span, text: Node("Bool", span, value=0)))

ident_expr = spanned(just("Identifier"), lambda token, span, text: Node("Identifier", span))

field = seq(spanned_ident, "Colon", expr)

struct_literal = spanned(
    seq(spanned_ident, "LBrace", separated(field, "Comma", trailing=True), "RBrace"),
    lambda parts, span, text: Node("StructLiteral", span, [parts[0]] + flat(parts[1])))

alloc_type_expr.body = stars(choice(named_type, tuple_type(alloc_type_expr)))

new_expr = spanned(seq("New", alloc_type_expr, "LBrack", expr, "RBrack"), node_of("New"))

unit = spanned(seq("LParen", "RParen"), node_of("Tuple"))

# `.rewind()` only looks: with `,` next it is the tuple's tail, with `)` next the parenthesis.
tuple_tail = seq(repeated(mapped(seq("Comma", expr), lambda values: values[0])), or_not(just("Comma")), "RParen")


def paren_tail(state):
    if state.kind() == expected.KIND_NUMBER["Comma"]:
        return tuple_tail(state)
    return just("RParen")(state)


def paren_made(parts, span, text):
    first, tail = parts
    return Node("Tuple", span, [first] + tail[0]) if isinstance(tail, list) else Node("Paren", span, [first])


paren_or_tuple = choice(unit, spanned(seq("LParen", expr, paren_tail), paren_made))


def repeat_made(parts, span, text):
    element, (_, suffix, start, end, value, base) = parts
    return FAIL if suffix else Node("ArrayRepeat", span, [element, Node("Count", (start, end), value=value, base=base)])


array_repeat = spanned(seq("LBrack", expr, "Semicolon", just("LiteralNumber"), "RBrack"), repeat_made)

array_literal = spanned(seq("LBrack", separated(expr, "Comma", trailing=True), "RBrack"),
                        lambda parts, span, text: Node("Array", span, parts[0]))

atom = choice(literal, boolean_literal, new_expr, struct_literal, array_repeat, array_literal, ident_expr, paren_or_tuple)


def call_made(parts):
    args = parts[0]

    def join(callee):
        end = args[-1].end if args else callee.end + 2
        return Node("Call", (callee.start, end), [callee] + args)
    return join


def tuple_index_made(parts):
    _, suffix, _, end, value, _ = parts[0]
    return FAIL if suffix else lambda of: Node("TupleIndex", (of.start, end), [of], value)


postfix_op = choice(
    mapped(seq("LParen", separated(expr, "Comma", trailing=True), "RParen"), call_made),
    mapped(seq("Dot", just("LiteralNumber")), tuple_index_made),
    mapped(seq("Dot", spanned_ident), lambda parts: lambda of: joined("Member", of, parts[0])),
    mapped(seq("LBrack", expr, "RBrack"), lambda parts: lambda of: joined("Index", of, parts[0])))

call = foldl(atom, postfix_op, lambda of, op: op(of))


def unary_made(parts):
    prefixes, operand = parts
    for value, start in reversed(prefixes):
        operand = Node("Unary", (start, operand.end), [operand], value)
    return operand


unary = mapped(seq(repeated(choice(spanned(just("Not"), lambda token, span, text: (0, span[0])),
                                   spanned(just("Minus"), lambda token, span, text: (1, span[0])))), call), unary_made)

cast = foldl(unary, seq("As", named_type), lambda of, parts: joined("Cast", of, parts[0]))


def level(below, *operators):
    marks = [mapped(just(kind), lambda token, value=value: value) for kind, value in operators]
    return foldl(below, seq(choice(*marks), below), lambda left, parts: joined("Binary", left, parts[1], value=parts[0]))


# The values are the order of `BinaryOp`, 195 to 228.
mul = level(cast, ("Mul", 2), ("Div", 3), ("Mod", 4))
add = level(mul, ("Plus", 0), ("Minus", 1))
cmp = level(add, ("EqEq", 5), ("Neq", 6), ("Less", 7), ("Greater", 8), ("LessEqual", 9), ("GreaterEqual", 10))
bitwise = level(cmp, ("BitwiseAnd", 13), ("BitwiseOr", 14), ("BitwiseXor", 15))
expr.body = level(bitwise, ("AndAnd", 11), ("OrOr", 12))

# ---- parameters and patterns, 1246 to 1289

parameter = mapped(seq(spanned_ident, "Colon", type_expr), lambda parts: Node("Param", (0, 0), parts))

tuple_pattern = mapped(seq("LParen", separated(pattern, "Comma", at_least=2), "RParen"),
                       lambda parts: Node("PatternTuple", (0, 0), parts[0]))

pattern.body = choice(tuple_pattern, spanned_ident)

# ---- statements, 1291 to 1482


def declared(kind):
    """`let` and `const`: what is named, the type or None, and the value."""
    def made(parts, span, text):
        named, typed, value = parts
        return Node(kind, span, [named] + (typed or []) + [value], 1 if typed else 0)
    return made


def acted(parts, span, text):
    left, right = parts
    return Node("Assign", span, [left] + right) if right else Node("ExprStmt", span, [left])


type_annotation = or_not(seq("Colon", type_expr))
assigned = or_not(seq("Eq", expr))

block = spanned(seq("LBrace", repeated(statement), "RBrace"), lambda parts, span, text: Node("Block", span, parts[0]))
let_stmt = spanned(seq("Let", pattern, type_annotation, "Eq", expr, "Semicolon"), declared("Let"))
const_stmt = spanned(seq("Const", spanned_ident, type_annotation, "Eq", expr, "Semicolon"), declared("Const"))
condition = choice(mapped(seq("LParen", expr, "RParen"), lambda parts: parts[0]), expr)
if_stmt = spanned(seq("If", condition, statement, or_not(seq("Else", statement))),
                  lambda parts, span, text: Node("If", span, parts[:2] + (parts[2] or [])))
return_stmt = spanned(seq("Return", or_not(expr), "Semicolon"),
                      lambda parts, span, text: Node("Return", span, [part for part in parts if part]))
loop_stmt = spanned(seq("Loop", statement), node_of("Loop"))
while_stmt = spanned(seq("While", condition, statement), node_of("While"))
assignment_or_expr = spanned(seq(expr, assigned, "Semicolon"), acted)
for_init = choice(let_stmt, assignment_or_expr)
for_step = spanned(seq(expr, assigned), acted)
for_stmt = spanned(seq("For", "LParen", for_init, expr, "Semicolon", for_step, "RParen", statement), node_of("For"))
break_stmt = spanned(seq("Break", "Semicolon"), node_of("Break"))
continue_stmt = spanned(seq("Continue", "Semicolon"), node_of("Continue"))

statement.body = choice(block, if_stmt, loop_stmt, while_stmt, for_stmt, break_stmt, continue_stmt, let_stmt, const_stmt,
                        return_stmt, assignment_or_expr)

# ---- items and the file, 1484 to 1693


def function_made(parts, span, text):
    name, params, typed, body = parts
    result = typed[0] if typed else Node("TypeTuple", (0, 0))
    return Node("Function", span, [name] + params + [result] + body, len(params))


function_def = spanned(
    seq("Function", spanned_ident, "LParen", separated(parameter, "Comma", trailing=True), "RParen",
        or_not(seq("Arrow", type_expr)), "LBrace", repeated(statement), "RBrace"), function_made)

struct_field = seq(spanned_ident, "Colon", type_expr)

struct_def = spanned(
    seq("Struct", spanned_ident, "LBrace", separated(struct_field, "Comma", trailing=True), "RBrace"),
    lambda parts, span, text: Node("StructDef", span, [parts[0]] + flat(parts[1])))

module_path = separated(spanned_ident, "ColonColon", at_least=1)

single = mapped(seq(module_path, "Semicolon"), lambda parts: ("UseSingle", parts[0], len(parts[0]) - 1))

use_list = mapped(
    seq(module_path, "ColonColon", "LBrace", separated(spanned_ident, "Comma", trailing=True), "RBrace", "Semicolon"),
    lambda parts: ("UseList", parts[0] + parts[1], len(parts[0])))

use_stmt = spanned(seq("Use", choice(single, use_list)),
                   lambda parts, span, text: Node(parts[0][0], span, parts[0][1], parts[0][2]))

const_def = const_stmt

items = repeated(choice(function_def, struct_def, const_def, use_stmt))

# ---- the whole


def post_order(roots):
    """The nodes of some trees, children before their parent; a tree may be as deep as the text is long."""
    found, left = [], list(roots)
    while left:
        node = left.pop()
        found.append(node)
        left.extend(node.children)
    return found[::-1]


def parse(text, tokens):
    """(nodes, spans of the literals with an unknown suffix). Where the tokens have no derivation, (None, place among them of
    the first that no attempt took, which is their number if all were taken). It may raise Deep."""
    state = State(text, tokens)
    trees = items(state)
    if state.at < len(tokens):
        return None, state.untaken
    nodes = post_order(trees)
    unknown = [(node.start, node.end) for node in nodes if node.suffix == 3]
    return [(node.kind, node.start, node.end, len(node.children), node.value, node.base) for node in nodes], unknown
