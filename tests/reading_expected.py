#!/usr/bin/env python3
"""The cases of tests/reading, and the answers that are owed by the reading from bytes to nodes, the listing and the hit test.

The answers are worked out from 01-scope.md, lexer.rs and parser.rs, never from what the crates print: tokens by the model of
expected.py, trees by the model of reading_grammar.py. Both models have to agree with every tree, and every refusal and place
where it stops, that was written down by hand in parser_expected.py, and with the outcomes that 01 names, or nothing is written.
The model of the hit test has to agree with what is written down by hand here.

  reading_expected.py              write tests/reading/cases and tests/reading/owed
  reading_expected.py --check      say whether the files on disk are what would be written; exit 1 if not
  reading_expected.py --more N D   write N further cases to the folder D, as D/cases and D/owed
  reading_expected.py --texts D    write texts for cairolist to the folder D, each with the line owed for it in NAME.owed, and for
                                   each file of examples/ what the desk owes, in NAME.desk
  reading_expected.py --floats D   read each line NAME.said of the folder D, as cairolist printed it for the text NAME, with numbers
                                   that are 64-bit floats, and compare every number with the text's tree; exit 1 on a difference
  reading_expected.py --show N     print what is owed for the case on line N, table by table

A line of the case file is one of these. Sizes are in bytes, but for LIST, which counts records.

  r TOKENS NODES DIAGNOSTICS LIST TEXT              a reading with tables of these sizes
  s KIND START END TEXT                             a spelling
  j OUT NODES KIND,START,END,CHILDREN,VALUE,BASE .. a listing of these entries; `*N` after an entry repeats it
  k OUT DIAGNOSTICS OUTCOME START,END,REASON ..     a listing of a refusal
  h OFFSET LENGTH NODES KIND,START,END,CHILDREN,VALUE,BASE ..   a hit test in these entries, `*N` as above; the last may be cut off
  H TOKENS NODES STEP TEXT                          a reading, then hit tests in the node table it leaves, at the offsets 0, STEP and so
                                                    on up to the text's length + 1
  b TEXT                                            a text that later lines take parts of
  # TITLE

TEXT is the rest of the line: a byte stands for itself, `\\\\` is a backslash, `\\xHH` a byte, `\\n` LF, `\\*N(PART\\)` a part N
times, `\\<K:FROM:TO>` the bytes FROM to TO of the K-th text of a `b` line, from 0.

What is owed for it, each on one line (CRC is the CRC-32 of all bytes of a table, `-` if all are zero or there are none):

  r OUTCOME TOKENS NODES DIAGNOSTICS CRC CRC CRC CRC CRC JSON   counts; the three tables, the list of records with zero for each
                                                byte of padding, the spellings of all nodes, each with LF; the listing
  s LENGTH
  j OUTCOME SIZE CRC JSON
  k OUTCOME SIZE CRC JSON
  h OUTCOME FOUND PLACE
  H OUTCOME ANSWERS                             of the reading; then a place, `-` for nobody or `!` for 12, `*N` if N are the same

JSON, or ANSWERS, longer than 200 bytes is `SIZE:CRC` instead, and none is `-`.
"""

import itertools
import json
import re
import struct
import sys
import zlib
from pathlib import Path

sys.dont_write_bytecode = True

import expected
import parser_expected
import reading_grammar

ROOT = expected.ROOT
KINDS, BASED = parser_expected.NODE_KINDS, parser_expected.BASED
NUMBER = {kind: number for number, kind in enumerate(KINDS, 1)}
SPELLED = ("Name", "Named", "Identifier")

ACCEPTED, LONG, ENCODING, LEXICAL, TOKEN_ROOM, NEST, NODE_ROOM, SYNTAX, SUFFIX = range(9)
OUTPUT_ROOM, KIND, OFFSET = 10, 11, 12
UNKNOWN_SUFFIX, STOP = 4, 5

# ---- the reading


class Answer:
    """What a reading owes. A refusal leaves no tokens and no nodes, and a count is 0 where 01 or its reading gives none."""

    def __init__(self, outcome, tokens=(), nodes=(), diagnostics=(), token_count=0, node_count=0, diagnostic_count=0):
        self.outcome, self.tokens, self.nodes, self.diagnostics = outcome, tokens, nodes, diagnostics
        self.counts = token_count, node_count, diagnostic_count


def refused(outcome, errors, room):
    return Answer(outcome, diagnostics=errors[:room], diagnostic_count=len(errors))


class Text:
    """A text in parts that may be repeated, and what there is to know of it; the tables' sizes come later."""

    def __init__(self, *parts):
        self.parts = [(part.encode() if isinstance(part, str) else part, times) for part, times in
                      (part if isinstance(part, tuple) else (part, 1) for part in parts)]
        self.bytes = b"".join(part * times for part, times in self.parts)
        self.tokens, self.errors, self.parsed = [], [], None
        self.early = LONG if len(self.bytes) > expected.LONGEST_TEXT else ACCEPTED
        if self.early == ACCEPTED and not expected.is_utf8(self.bytes):
            self.early = ENCODING
        if self.early == ACCEPTED:
            self.tokens, self.errors = expected.lex_all(self.bytes)

    def nodes(self):
        """(outcome 0, 5, 7 or 8, nodes, diagnostics), whatever the room."""
        if self.parsed is None:
            try:
                nodes, found = reading_grammar.parse(self.bytes, self.tokens)
            except reading_grammar.Deep:
                self.parsed = NEST, [], []
            else:
                if nodes is None:
                    self.parsed = SYNTAX, [], [self.stop(found)]
                else:
                    unknown = found
                    parser_expected.roots(nodes)
                    if len(nodes) > len(self.tokens):
                        raise SystemExit(f"reading_expected.py: {self.bytes!r} has more nodes than tokens")
                    if unknown != sorted(unknown):
                        raise SystemExit(f"reading_expected.py: the errors of {self.bytes!r} are not in text order")
                    self.parsed = SUFFIX if unknown else ACCEPTED, nodes, [(*span, UNKNOWN_SUFFIX) for span in unknown]
        return self.parsed

    def stop(self, at):
        """The span of the token at this place, or an empty one at the end of the text."""
        start, end = self.tokens[at][2:4] if at < len(self.tokens) else (len(self.bytes),) * 2
        return start, end, STOP

    def read(self, token_bytes, node_bytes, diagnostic_bytes):
        """01's order: 1, 2, 3, 4, 5, 7, 8, 6."""
        room = diagnostic_bytes // 8
        if self.early != ACCEPTED:
            return Answer(self.early)
        if self.errors:
            return refused(LEXICAL, self.errors, room)
        if len(self.tokens) > token_bytes // 16:
            return Answer(TOKEN_ROOM, token_count=len(self.tokens))
        outcome, nodes, errors = self.nodes()
        if outcome == NEST:
            return Answer(outcome)
        if outcome in (SYNTAX, SUFFIX):
            return refused(outcome, errors, room)
        if len(nodes) > node_bytes // 16:
            return Answer(NODE_ROOM, node_count=len(nodes))
        return Answer(ACCEPTED, self.tokens, nodes, (), len(self.tokens), len(nodes), 0)

    def needs(self):
        """The bytes that its tokens, nodes and diagnostics take."""
        if self.early != ACCEPTED:
            return 0, 0, 0
        if self.errors:
            return 0, 0, 8 * len(self.errors)
        outcome, nodes, errors = self.nodes()
        return 16 * len(self.tokens), 16 * len(nodes), 8 * len(errors)


def spelling(text, kind, start, end):
    """The length of the part that is handed back; the kind is a number."""
    within = start <= end <= len(text)
    return end - start if within and kind in [NUMBER[name] for name in SPELLED] else 0


# ---- the listing


# The largest number that the listing prints as one: the next has a neighbour that a 64-bit float cannot tell from it.
LARGEST_NUMBER = 2**53 - 1


def row(kind, *numbers):
    """Start, end, children and value; the base only of a kind that carries one. A value above LARGEST_NUMBER is a string."""
    fields = [*numbers[:3], numbers[3] if numbers[3] <= LARGEST_NUMBER else f'"{numbers[3]}"', *numbers[4:]]
    return f'["{kind}",' + ",".join(map(str, fields if kind in BASED else fields[:4])) + "]"


def listing(nodes):
    """RFC 8259 JSON without spaces; nodes with their kind by name."""
    return "[" + ",".join(row(*node) for node in nodes) + "]"


def refusal(outcome, errors):
    return f'{{"refused":{outcome},"diagnostics":[' + ",".join(f"[{start},{end},{reason}]" for start, end, reason in errors) + "]}"


def answer_listing(answer):
    return listing(answer.nodes) if answer.outcome == ACCEPTED else refusal(answer.outcome, answer.diagnostics)


def list_entry(nodes, room):
    """(outcome, text): nodes with their kind by number."""
    if any(not 1 <= kind <= len(KINDS) for kind, *_ in nodes):
        return KIND, ""
    said = listing([(KINDS[kind - 1], *fields) for kind, *fields in nodes])
    return (ACCEPTED, said) if len(said) <= room else (OUTPUT_ROOM, "")


def refused_entry(outcome, errors, room):
    said = refusal(outcome, errors)
    return (ACCEPTED, said) if len(said) <= room else (OUTPUT_ROOM, "")


# ---- the hit test


def hit_test(offset, length, nodes):
    """(outcome, found, place): Wish 4's rule. The second and third number of a node are its start and end, whatever the rest is."""
    if offset >= length:
        return OFFSET, 0, 0
    hit = sorted((end - start, place) for place, (_, start, end, *_) in enumerate(nodes) if start <= offset < end)
    return (ACCEPTED, 1, hit[0][1]) if hit else (ACCEPTED, 0, 0)


HIT_WORDS = {(ACCEPTED, 0, 0): "-", (OFFSET, 0, 0): "!"}


def hit_words(length, nodes, step):
    """The answers at the offsets 0, step and so on up to length + 1, with how many in a row are the same."""
    hits = [hit_test(offset, length, nodes) for offset in range(0, length + 2, step)]
    words = [HIT_WORDS.get(hit, str(hit[2])) for hit in hits]
    runs = [(word, len(list(same))) for word, same in itertools.groupby(words)]
    return ",".join(word + (f"*{times}" if times > 1 else "") for word, times in runs)


# ---- bytes


def filled(entries, size):
    return b"".join(entries).ljust(size, b"\0")


def token_table(tokens, size):
    return filled([struct.pack("<BBHHBBQ", kind, suffix, start, end, base, 0, value)
                   for kind, suffix, start, end, value, base in tokens], size)


def node_table(nodes, size):
    return filled([struct.pack("<BBHHHQ", NUMBER[kind], base, start, end, children, value)
                   for kind, start, end, children, value, base in nodes], size)


def diagnostic_table(errors, size):
    return filled([struct.pack("<HHI", start, end, reason) for start, end, reason in errors], size)


def records(errors, length):
    return filled([struct.pack("<HHBB", start, end, reason, 0) for start, end, reason in errors[:length]], 6 * length)


def spellings(text, nodes):
    return b"".join(text[start:end] + b"\n" for kind, start, end, *_ in nodes if kind in SPELLED)


def crc(table):
    return f"{zlib.crc32(table):08x}" if any(table) else "-"


def shown(said):
    return (said or "-") if len(said) <= 200 else f"{len(said)}:{crc(said.encode())}"


# ---- the cases


def escaped(part):
    out = []
    for at, byte in enumerate(part):
        if byte == 0x5C:
            out.append("\\\\")
        elif byte == 0x0A:
            out.append("\\n")
        elif 0x20 < byte < 0x7F or byte == 0x20 and at + 1 < len(part):
            out.append(chr(byte))
        else:
            out.append(f"\\x{byte:02x}")
    return "".join(out)


def spelled(text):
    return "".join(escaped(part) if times == 1 else f"\\*{times}({escaped(part)}\\)" for part, times in text.parts)


class Cases(expected.Cases):
    def __init__(self):
        super().__init__()
        self.outcomes, self.bases, self.number, self.answers, self.hits = {}, [], 0, {}, {}

    def read(self, text, tokens=None, nodes=None, diagnostics=None, length=None, said=None):
        """A reading; where a size is not given the table has room for all, and up to 17 bytes or two records more."""
        text = text if isinstance(text, Text) else Text(text)
        self.number += 1
        more = (0, 1, 7, 8, 15, 16, 17)
        need = text.needs()
        tokens = need[0] + more[self.number % 7] if tokens is None else tokens
        nodes = need[1] + more[self.number // 3 % 7] if nodes is None else nodes
        diagnostics = need[2] + more[self.number // 2 % 7] if diagnostics is None else diagnostics
        answer = text.read(tokens, nodes, diagnostics)
        length = max(0, len(answer.diagnostics) + (0, 1, -1, 2, 0)[self.number % 5]) if length is None else length
        tables = [token_table(answer.tokens, tokens), node_table(answer.nodes, nodes),
                  diagnostic_table(answer.diagnostics, diagnostics), records(answer.diagnostics, length),
                  spellings(text.bytes, answer.nodes)]
        self.outcomes[answer.outcome] = self.outcomes.get(answer.outcome, 0) + 1
        self.answers[len(self.given) + 1] = answer
        self.line(f"r {tokens} {nodes} {diagnostics} {length} {said or spelled(text)}",
                  " ".join(map(str, ["r", answer.outcome, *answer.counts, *map(crc, tables), shown(answer_listing(answer))])))
        return answer

    def base(self, text):
        self.bases.append(text)
        self.line(f"b {escaped(text)}", "b")
        return len(self.bases) - 1

    def damaged(self, base, edits):
        """A reading of a base with some parts of it replaced: edits are (from, to, bytes), in order and apart."""
        whole, said, made, at = self.bases[base], [], [], 0
        for start, end, part in edits + [(len(self.bases[base]),) * 2 + (b"",)]:
            if at < start:
                said.append(f"\\<{base}:{at}:{start}>")
            said.append("".join(f"\\x{byte:02x}" if byte == 0x20 else escaped(bytes([byte])) for byte in part))
            made += [whole[at:start], part]
            at = end
        return self.read(Text(b"".join(made)), said="".join(said))

    def spelling(self, text, kind, start, end):
        text = text if isinstance(text, Text) else Text(text)
        self.line(f"s {kind} {start} {end} {spelled(text)}", f"s {spelling(text.bytes, kind, start, end)}")

    def listed(self, runs, out=None, rest=0):
        """A listing of runs (entry, times); `rest` bytes stand after the last whole entry."""
        nodes = [entry for entry, times in runs for _ in range(times)]
        out = len(list_entry(nodes, 10**9)[1]) if out is None else out
        outcome, said = list_entry(nodes, out)
        words = ["j", out, 16 * len(nodes) + rest] + [",".join(map(str, entry)) + (f"*{times}" if times > 1 else "") for entry, times in runs]
        self.line(" ".join(map(str, words)), f"j {outcome} {len(said)} {crc(said.encode().ljust(out, bytes(1)))} {shown(said)}")

    def listed_refusal(self, outcome, errors, out=None, rest=0):
        out = len(refusal(outcome, errors)) if out is None else out
        answer, said = refused_entry(outcome, errors, out)
        words = ["k", out, 8 * len(errors) + rest, outcome] + [",".join(map(str, error)) for error in errors]
        self.line(" ".join(map(str, words)), f"k {answer} {len(said)} {crc(said.encode().ljust(out, bytes(1)))} {shown(said)}")

    def hit(self, offset, length, runs, rest=0):
        """A hit test in runs (entry, times); with `rest`, the last entry is cut off after so many bytes."""
        nodes = [entry for entry, times in runs for _ in range(times)]
        whole = nodes[:-1] if rest else nodes
        words = ["h", offset, length, 16 * len(whole) + rest] + [",".join(map(str, entry)) + (f"*{times}" if times > 1 else "") for entry, times in runs]
        answer = hit_test(offset, length, whole)
        self.hits[HIT_WORDS.get(answer, "node")] = self.hits.get(HIT_WORDS.get(answer, "node"), 0) + 1
        self.line(" ".join(map(str, words)), " ".join(map(str, ("h", *answer))))

    def hits_of(self, text, nodes=None, step=1):
        """A reading, then hit tests; where it is not given, the node table has room for all, and up to 49 bytes more."""
        text = text if isinstance(text, Text) else Text(text)
        self.number += 1
        tokens, needed, _ = text.needs()
        nodes = needed + (0, 15, 16, 49)[self.number % 4] if nodes is None else nodes
        answer = text.read(tokens, nodes, 0)
        # the zeros behind the tree are entries too
        entries = [*answer.nodes] + [("", 0, 0, 0, 0, 0)] * (nodes // 16 - len(answer.nodes))
        self.answers[len(self.given) + 1] = answer
        self.line(f"H {tokens} {nodes} {step} {spelled(text)}", f"H {answer.outcome} {shown(hit_words(len(text.bytes), entries, step))}")
        return answer


# ---- what was written down by hand


class Held(parser_expected.Cases):
    """The cases of parser_expected.py: the model has to say of each what was written down for it."""

    def __init__(self):
        super().__init__()
        self.texts = {}

    def case(self, text, tokens, answer, nodes=(), node_bytes=0, rest=0, at=None):
        super().case(text, tokens, answer, nodes, at=at)
        try:
            said = reading_grammar.parse(text.encode(), tokens)
        except reading_grammar.Deep:
            said = None, None
        owed = (list(nodes), said[1]) if answer == parser_expected.TREE else (None, at)
        if said != owed:
            raise SystemExit(f"reading_expected.py: {text!r} with tokens {tokens} is {said}, by hand {answer} {owed}")
        if tokens == Text(text).tokens:
            self.texts[text] = answer


def by_hand():
    """The texts whose answer is written down in parser_expected.py."""
    held = Held()
    parser_expected.all_cases(held)
    owed = {parser_expected.TREE: (ACCEPTED, SUFFIX), parser_expected.SYNTAX: (SYNTAX,), parser_expected.DEEP: (NEST,)}
    for text, answer in held.texts.items():
        model = Text(text)
        if model.nodes()[0] not in owed[answer]:
            raise SystemExit(f"reading_expected.py: {text!r} has outcome {model.nodes()[0]}, by hand {answer}")
        yield model
    for before, part, after, times in parser_expected.STOPPED_RUNS:
        marked(f"{before} " + f"{part} " * times + after)


def body(text):
    return "fn f() { " + text + " }"


def marked(text):
    """A text with `@` before the first token that no attempt takes, or at its end: the model has to find the same."""
    before, after = text.split("@")
    model = Text(before + after)
    at = sum(start < len(before.encode()) for _, _, start, *_ in model.tokens)
    if model.nodes() != (SYNTAX, [], [model.stop(at)]):
        raise SystemExit(f"reading_expected.py: {text[:200]!r} has outcome {model.nodes()[0]} and stops at {model.nodes()[2]}")
    return model


PARENS = [Text("const A = ", ("(", n), "1", (")", n), ";") for n in (63, 64)]

# 01's texts on the edge and its slips, with the outcomes that it names. A numeral alone stands as a const's value here.
STATED = [
    ("", ACCEPTED), ("const A = 1;", ACCEPTED), ("@", LEXICAL), ("const A = 0x1felt;", ACCEPTED), ("const A = 0b12;", LEXICAL),
    ("const A = 0x;", LEXICAL), ("const A = 12u32x;", LEXICAL), ("const A = 18446744073709551615;", ACCEPTED),
    ("const A = 18446744073709551616;", LEXICAL), ("const A = 99999999999999999999felt2;", LEXICAL), ("const A = 1felt2;", LEXICAL),
    (body("if x {}"), SYNTAX), (body("if (x) {}"), ACCEPTED), (body("a || b && c;"), ACCEPTED), ("const A = f( );", ACCEPTED),
    (body("let (a) = b;"), SYNTAX), (body("[1; 3u32];"), SYNTAX), (body("12u8;"), SUFFIX), (body("if (a) == (b) {}"), SYNTAX),
    (body("if a [12u8, 1];"), SUFFIX), (PARENS[0], ACCEPTED), (PARENS[1], NEST), (Text((" ", 65535)), ACCEPTED),
    (Text((" ", 65536)), LONG),
]


def stated_cases(cases):
    for text, owed in STATED:
        outcome = cases.read(text).outcome
        if outcome != owed:
            raise SystemExit(f"reading_expected.py: {text!r} has outcome {outcome}, and 01 says {owed}")
    # 01's example, with the base that its Literal ends in
    stated = '[["Name",6,7,0,0],["Literal",10,11,0,1,10],["Const",0,12,2,0]]'
    if listing(Text("const A = 1;").nodes()[1]) != stated:
        raise SystemExit("reading_expected.py: the listing of `const A = 1;` is not 01's")
    if answer_listing(Text("@").read(0, 0, 8)) != '{"refused":3,"diagnostics":[[0,1,1]]}':
        raise SystemExit("reading_expected.py: the listing of `@` is not 01's")


# ---- rooms and order

ROOM_TEXTS = [
    "", "use m;", "const A = 1;", body("if a [12u8, 1];"), body("12u8; 1x; [2_, 0b1y];"), "@ 1felt2 a \u00e9 99999999999999999999 0b12",
    "fn f(a: felt, b: T*) { let (c, d): (felt, T) = (a, b); while c == 1 { c = -c as u32; } }", body("if x {}"), "fn f() { a; // \u00e9\n", PARENS[0], PARENS[1],
    b"a \xff", Text(("@", 3), (" ", 65533)),
]


def room_cases(cases):
    for text in ROOM_TEXTS:
        text = text if isinstance(text, Text) else Text(text)
        tokens, nodes, diagnostics = text.needs()
        count = diagnostics // 8
        cases.read(text, tokens, nodes, diagnostics, count)
        cases.read(text, 0, 0, 0, 0)
        for short in (1, 8, 15, 16, 17):
            cases.read(text, max(0, tokens - short), nodes, diagnostics)
            cases.read(text, tokens, max(0, nodes - short), diagnostics)
        for short in (1, 7, 8, 9):
            cases.read(text, tokens, nodes, max(0, diagnostics - short))
        for more in (1, 15, 16, 33):
            cases.read(text, tokens + more, nodes, diagnostics)
            cases.read(text, tokens, nodes + more, diagnostics)
            cases.read(text, tokens, nodes, diagnostics + more)
        for sizes in ((0, nodes, diagnostics), (tokens, 0, diagnostics), (tokens, nodes, 0), (tokens, 0, 0), (0, nodes, 0), (0, 0, diagnostics)):
            cases.read(text, *sizes)
        # the list has fewer records than the table has entries, or more, and takes no more than the table holds
        for length in sorted({0, 1, max(0, count - 1), count, count + 1, count + 10}):
            cases.read(text, tokens, nodes, diagnostics, length)
            cases.read(text, tokens, nodes, max(0, diagnostics - 8), length)


def order_cases(cases):
    """Texts with two or more grounds to be refused: 1, 2, 3, 4, 5, 7, 8, 6."""
    deep, suffix = "const B = " + "(" * 70 + "1;", body("12u8;")
    for text in (Text((b"\xff", 65536)), Text(("@", 65536)), Text((" ", 65535), b"\xff"), Text((" ", 65534), b"\xc3"),
                 b"@ \xff", b"\xff @", b"// \xc3\n@", "@ const", "@" + deep, "12u8 @", "@ 12u8; 1felt2",
                 "const A = 1; " + deep, deep + " x", "x " + deep, "const A = 1 2; " + deep, deep + suffix, suffix + deep,
                 suffix + " x", "x " + suffix, suffix + " " + body("if x {}"), body("if x {}") + suffix, suffix + suffix):
        text = text if isinstance(text, Text) else Text(text)
        tokens, nodes, diagnostics = text.needs()
        cases.read(text)
        cases.read(text, tokens, 0, diagnostics)
        cases.read(text, max(0, tokens - 16), nodes, diagnostics)
        cases.read(text, 0, 0, 0)
        cases.read(text, 0, 0, 64, 3)


# ---- where reading stops

# The spans, counted in the texts.
COUNTED_STOPS = [
    (body("if x {}"), 17, 18), (body("let (a) = b;"), 15, 16), (body("[1; 3u32];"), 18, 19), (body("if (a) == (b) {}"), 16, 18),
    ("const A = t.0u32;", 16, 17), ("const A: [T; 3u32] = 1;", 17, 18), ("x", 0, 1), (" \n\treturn;", 3, 9), ("const A = 1", 11, 11),
    ("const A = 1 \n", 13, 13), ("const A = 1 // \u00e9\n", 18, 18), ("// \u20ac\nconst A = 1 in;", 19, 21), ("fn f() {\r\n}\r\nin", 13, 15),
]

# White space and comments around the place, with characters of two, three and four bytes.
MARKED_STOPS = [
    "// \u00e9\n@x", "/// \u20ac \U0001f3ac\n\t@1", "const A = 1; // \u00e9\n@;", "const A // \u20ac\n = // \U0001f3ac\n @;", "fn f() { // \u00e9@",
    "fn f() {\n@", "fn f() { \t\r\n@", "fn f() { a; } // \u20ac\nfn g() { b // \u00e9\n  @} // \U0001f3ac", "use a:: // \u00e9\n\n\n@", "use a:: // \u00e9\n\n\n@5 // ",
    "const A = t // \u00e9\n . 0u32 // \u20ac\n @; // \u00e9", "const A = [1; 3u32] // \u20ac\u20ac\n@;", "const A: [T; 3u32 // \U0001f3ac\n@] = 1;",
    "fn f() { let (a // \u00e9\n@) = b; }", "fn f() { if x {} // \U0001f3ac\n@}", "fn f() { if (a) b; else // \u00e9\n@}", "const A = a + // \u20ac\n  @* b;",
    "const A = 1; // \u00e9\n// \u20ac\n// \U0001f3ac\n @in // \u00e9", "fn // \u00e9 fn f() {}@", "struct S { a: T // ,\n@b: T }", "//\nfn f() {{{//\n@",
    "const \u0041 = 1 // \u00e9 ;\n@", "\n\n\n@}\n\n\n", "const A = f(a, // \u00e9\n b, // \u20ac\n @, c);",
]

# One text, and one item, for each construct.
CONSTRUCTS = [
    "const A: T = 1;", "const A: [[T; 0x2]; 3] = [[1, 2], b];", "const A: ((), (,), (T)*, (T, U,)**) = ();", "const A = [1; 2];",
    "const A = [[], [1,], [1, 2]];", "const A = ((1), (2,), (3, 4,));", "const A = new (T, (U)*,)*[n];", "const A = P { x: 1, y: Q {}, };",
    "const A = f(a, g(),)(b).c.0[d];", "const A = !-a as T as U * b / c % d + e - f;",
    "const A = a == b != c < d > e <= f >= g & h | i ^ j && k || true && false;", "fn f(a: T, b: [U; 1],) -> (T, U) {}",
    "struct S { a: T, b: U*, }", "use a;", "use a::b::c;", "use a::{};", "use a::b::{c, d,};", body("let a = b; let (c, (d, e)): T = f;"),
    body("const B: T = 1; const C = 2;"), body("a; b = c; d.e[0] = f();"), body("return; return a;"), body("{ { } a; }"), body("if (a) b; else c;"),
    body("if a == b c; else if (d) {} else { e; }"), body("if x { y = 1; }"), body("if (a, b) c;"), body("if (a) if (b) c; else d; else e;"),
    body("while (a) break; while b continue; loop loop {}"), body("for (let a: T = 0; a < b; a = a + 1) {} for (x = y; z; w) v;"),
]


def stop_cases(cases):
    for text, start, end in COUNTED_STOPS:
        if Text(text).nodes() != (SYNTAX, [], [(start, end, STOP)]):
            raise SystemExit(f"reading_expected.py: {text!r} is {Text(text).nodes()}, counted {start}..{end}")
        for diagnostics in (0, 7, 8, 9, 15, 16, 17):
            for length in (0, 1, 2):
                cases.read(text, None, 0, diagnostics, length)
    for text in MARKED_STOPS:
        cases.read(marked(text))
        cases.read(marked(text), None, 0, 8, 1)
    # cut off after each token, and with a token that nothing takes before each: what took a token had looked at none after it
    for text in CONSTRUCTS:
        base, tokens = cases.base(text.encode()), Text(text).tokens
        if cases.damaged(base, []).outcome != ACCEPTED or parser_expected.roots(Text(text).nodes()[1]) != 1:
            raise SystemExit(f"reading_expected.py: {text!r} is not one item")
        for at, (_, _, start, end, *_) in enumerate(tokens):
            answers = [(start + 1, start + 3, cases.damaged(base, [(start, start, b" in ")]))]
            if at + 1 < len(tokens):
                more = (b"", b" ", b"\n", b" // \xc3\xa9\n")[at % 4]
                answers.append((end + len(more),) * 2 + (cases.damaged(base, [(end, len(text), more)]),))
            for first, last, answer in answers:
                if answer.outcome != SYNTAX or answer.diagnostics != [(first, last, STOP)]:
                    raise SystemExit(f"reading_expected.py: {text!r} damaged at {start}..{end} stops at {answer.diagnostics}")


# ---- bytes


def byte_cases(cases):
    wholes = ("const A = {};", "// {}\nconst A = 1;", "const {}A = 1;", "{}")
    for part in (b"\xff", b"\x80", b"\xc3", b"\xc0\x80", b"\xed\xa0\x80", b"\xf4\x90\x80\x80", b"\xe2\x82", b"\xf0\x9f\x98", b"\xc3\xa9", b"\xe2\x82\xac",
                 b"\xf0\x9f\x98\x80", b"\xef\xbb\xbf", b"\x00", b"\x7f", b"\x0c", b"\r\n", b"\t", b"//", b"/", b"\\", b"'", b"\xc2\xa0"):
        for whole in wholes:
            before, after = whole.encode().split(b"{}")
            cases.read(before + part + after)


# ---- bases


def base_cases(cases):
    """A numeral of each base, in both cases of its letter, in every place that one can stand in; and some that are refused."""
    for n in ("1", "0x1", "0X1", "0o1", "0O1", "0b1", "0B1"):
        cases.read(f"const A: [T; {n}] = [{n}, {n}felt, {n}u32, t.{n}, [{n}; {n}], true, a];")
        cases.read(body(f"f({n}x); a = {n};"))
        cases.read(f"const A = {n}felt2;")
        cases.read(f"const A = t.{n}u32;")
    for n in ("0b2", "0B2", "0o8", "0O8", "0xg", "0XG", "0x10000000000000000", "0_x", "00x1", "0b1b", "0xb"):
        cases.read(f"const A = {n};")


# ---- large values

# Each with what the listing prints for it.
LARGE_VALUES = [("9007199254740991", "9007199254740991"), ("9007199254740992", '"9007199254740992"'), ("18446744073709551615", '"18446744073709551615"')]
# The kinds whose value a text sets, each with its number of children and what follows the value of a decimal numeral.
VALUED = [("Count", 0, ",10"), ("Literal", 0, ",10"), ("LiteralFelt", 0, ",10"), ("LiteralU32", 0, ",10"), ("TupleIndex", 1, "")]


def valued(n):
    return f"const A: [T; {n}] = ({n}, {n}felt, {n}u32, t.{n});"


def value_cases(cases):
    for n, said in LARGE_VALUES:
        answer = cases.read(valued(n))
        for kind, children, after in VALUED:
            if len(re.findall(rf'\["{kind}",\d+,\d+,{children},{re.escape(said + after)}\]', answer_listing(answer))) != 1:
                raise SystemExit(f"reading_expected.py: the {kind} of {valued(n)!r} is not printed with {said}")
    for n in ("9007199254740993", "0x1fffffffffffff", "0X20000000000000", "0o377777777777777777", "0O400000000000000000", "0b1" + "0" * 53, "0xffffffffffffffff"):
        cases.read(valued(n))
    cases.read(" ".join(valued(n) for n, _ in LARGE_VALUES))


# ---- long texts

# Before, the part that is repeated, how often, after.
RUNS = [
    ("const A = ", "-", 60000, "1;"), ("const A =", "-", 65524, "1;"), ("const A = ", "!-", 30000, "1;"), ("const A = 1", "+1", 30000, ";"),
    ("const A = 1", "&&1", 20000, ";"), ("const A=1", " as T", 13000, ";"), ("const A = f", "()", 32000, ";"), ("const A = a", ".b", 30000, ";"),
    ("const A = t", ".0", 30000, ";"), ("const A = a", "[0]", 21000, ";"), ("const A = [1", ",1", 32000, "];"), ("const A = (1", ",1", 32000, ");"),
    ("const A = f(1", ",1", 32000, ");"), ("const A = x {", "f:1,", 16000, "};"), ("const A: T", "*", 65000, " = 1;"), ("const A: (T", ",T", 32000, ") = 1;"),
    ("const A = new T", "*", 65000, "[1];"), ("fn f() {", "x;", 20000, "}"), ("fn f() {", "{}", 32000, "}"), ("fn f() {", "x=1;", 16000, "}"),
    ("fn f() {", "if(a){}", 9000, "}"), ("fn f() { let (a,b", ",c", 32000, ") = 1; }"), ("fn f(", "a:T,", 16000, ") {}"), ("struct S {", "a:T,", 16000, "}"),
    ("use a", "::b", 21000, ";"), ("use a::{", "b,", 32000, "};"), ("", "const A=1;", 6553, ""), ("", "fn f(){}", 8191, ""), ("", "use m;", 10922, ""),
    ("// ", "\u00e9", 32000, "\nconst A = 1;"), ("const ", "a", 65000, "=1;"), ("const A = ", "0", 65000, "1;"), ("fn f() { return ", "f(1)+", 13000, "1; }"),
]

# The same with another end: no derivation, too deep, unknown suffixes, lexical errors, too long.
REFUSED_RUNS = [
    ("const A = ", "-", 60000, ";"), ("const A = 1", "+1", 30000, "+;"), ("fn f() {", "x;", 32000, ""), ("fn f() {", "x;", 32000, "} }"),
    ("const A = [1", ",1", 32000, ";"), ("use a", "::b", 21000, "::"), ("", "const A=1;", 6553, "x"), ("", ";", 65535, ""), ("", "fn ", 21845, ""),
    ("const A = ", "(", 65000, "1;"), ("const A = ", "[", 65000, "1;"), ("const A = ", "f(", 32000, "1;"), ("const A = ", "x{y:", 16000, "1;"),
    ("const A: ", "(", 65000, "T = 1;"), ("const A: ", "[", 65000, "T = 1;"), ("const A = new ", "(", 65000, "T[1];"), ("fn f() ", "{", 65000, "}"),
    ("fn f() {", "if(a)", 13000, "}"), ("fn f() {", "loop ", 13000, "}"), ("fn f() {let ", "(", 65000, "a = 1; }"), ("fn f() {", "for(x;y;z)", 6500, "}"),
    ("const A = 1x", "+1x", 21000, ";"), ("fn f() {", "1x;", 20000, "}"), ("", "@", 65535, ""), ("", "@a", 32767, ""), ("", "1felt2 ", 9000, ""),
    ("", "\u20ac", 21845, ""), ("", "\u20ac", 21846, ""), ("const A = ", "-", 65535, "1;"), ("", "const A = 1;", 5462, ""), ("", " ", 70000, ""),
    ("fn", " ", 65533, ""), ("fn ", "a", 65532, ""), ("", " ", 65534, "x"), ("fn f() {", "x;", 32763, "x"), ("const A = 1//", "\u20ac", 21840, "\n"),
]


def run_text(run):
    before, part, times, after = run
    return Text(*[part for part in (before, (part, times), after) if part])


def long_cases(cases):
    for run in RUNS:
        cases.read(run_text(run))
    for run in (RUNS[0], RUNS[3], RUNS[17], RUNS[26]):
        text = run_text(run)
        tokens, nodes, _ = text.needs()
        cases.read(text, tokens, nodes, 0, 0)
        cases.read(text, tokens - 1, nodes, 0, 0)
        cases.read(text, tokens, nodes - 1, 0, 0)
        cases.read(text, 16384, 16384, 8192, 4)
        cases.read(text, tokens, 16384, 8192, 4)


def refused_long_cases(cases):
    for run in REFUSED_RUNS:
        cases.read(run_text(run))
    for run in (REFUSED_RUNS[21], REFUSED_RUNS[23]):
        text = run_text(run)
        tokens, nodes, diagnostics = text.needs()
        cases.read(text, tokens, 0, diagnostics - 8, diagnostics // 8)
        cases.read(text, tokens, nodes, 8192, 2000)
        cases.read(text, tokens, nodes, 8, 1)
        cases.read(text, tokens, nodes, 0, 3)


# The same part again and again up to the nest's limit, by way of every level of operators: what takes the most of the stack.
DEEP_PARTS = ["(", "[", "f(", "a[", "P{x:", "new T[", "1||(", "1*(", "1||1|1==1+1*-(", "1||1|1==1+1*-P{x:1,y:", "1||1|1==1+1*-[1,", "1||1|1==1+1*-f(1,",
              "1||1|1==1+1*-new T[", "1||1|1==1+1*a.b["]


def deepest_cases(cases):
    for part in DEEP_PARTS:
        for times in (63, 64, 65):
            cases.read(Text("const A = ", (part, times), "1"))
            cases.read(Text("fn f() { if (", (part, times - 2), "1"))
    close = {"(": ")", "[": "]", "{": "}"}
    for part in DEEP_PARTS:
        closers = "".join(close[mark] for mark in reversed(part) if mark in close)
        for times in (62, 63, 64):
            cases.read(Text("const A = ", (part, times), "1", (closers, times), ";"))
    for part in ("{", "{x;", "loop ", "if(a)", "if(a){}else ", "while a==1 ", "for(x;y;z)"):
        for inner in ("(", "1||1|1==1+1*-P{x:1,y:"):
            for times in (31, 32, 33):
                cases.read(Text("fn f() {", (part, 31), "x=", (inner, times), "1"))


# ---- damaged examples


def damages(cases, chance, base, count):
    """Edits of whole tokens, and now and then of single bytes."""
    text = cases.bases[base]
    tokens = Text(text).tokens
    words = [word for _, word in expected.KEYWORDS] + [mark for _, mark in expected.MARKS] + ["x", "felt", "1", "0x1f", "2u32", "7felt", "12u8", "1_"]
    for _ in range(count):
        way = chance.below(12)
        at = chance.below(len(tokens))
        start, end = tokens[at][2:4]
        word = chance.one_of(words).encode()
        if way < 2:
            edits = [(start, end, b"")]
        elif way < 6:
            edits = [(start, end, b" " + word + b" ")]
        elif way < 8:
            edits = [(start, start, b" " + word + b" ")]
        elif way == 8:
            edits = [(start, start, text[start:end] + b" ")]
        elif way == 9 and at + 1 < len(tokens):
            after = tokens[at + 1]
            edits = [(start, end, b" " + text[after[2]:after[3]] + b" "), (after[2], after[3], b" " + text[start:end] + b" ")]
        elif way == 10:
            edits = [(start, len(text), b"")]
        else:
            place = chance.below(len(text))
            edits = [(place, place + chance.below(2), chance.one_of([b"\xff", b"\xc3", b"@", b"$", b"\xe2\x82\xac", b"\n", b"/", b"9"]))]
        cases.damaged(base, edits)


# ---- texts made by chance


class Maker:
    """Texts of the grammar's forms, and now and then of something that is no form."""

    def __init__(self, chance, slips):
        self.chance, self.slips = chance, slips

    def one(self, *choices):
        return self.chance.one_of(choices)

    def some(self, make, low, high):
        return [make() for _ in range(low + self.chance.below(high - low + 1))]

    def slip(self):
        return self.slips and self.chance.below(60) == 0

    def name(self):
        return self.one("a", "b", "x", "y1", "reel", "felt", "u32", "_t")

    def number(self):
        return self.one("0", "1", "42", "0x1f", "0b10", "3u32", "4felt", "0o17", "18446744073709551615", "9u8" if self.slip() or self.slip() else "7")

    def listed(self, make, low, high, trailing=True):
        parts = self.some(make, low, high)
        return ", ".join(parts) + ("," if (parts and trailing or self.slip()) and self.chance.below(4) == 0 else "")

    def type(self, depth):
        way = self.chance.below(8) if depth else 0
        if way < 4:
            return self.one("felt", "bool", "u32", "Reel", "T") + "*" * (self.chance.below(6) // 4)
        if way < 6:
            return "(" + self.listed(lambda: self.type(depth - 1), 0, 3) + ")" + "*" * (self.chance.below(4) // 3)
        return "[" + self.type(depth - 1) + "; " + self.one("3", "0x10", "8", "(8)" if self.slip() else "1") + "]"

    def alloc(self, depth):
        if depth == 0 or self.chance.below(3):
            return self.one("felt", "Reel", "T*")
        return "(" + self.listed(lambda: self.alloc(depth - 1), 0, 2) + ")"

    def expr(self, depth):
        way = self.chance.below(22) if depth else self.chance.below(4)
        inner = lambda: self.expr(depth - 1)
        if self.slip():
            return self.one("", "let", "a b", ", 1", "[;]", "()()", "in")
        if way < 2:
            return self.number()
        if way < 3:
            return self.name()
        if way < 4:
            return self.one("true", "false", "x", "()")
        if way < 8:
            return inner() + " " + self.one(*"+-*/%<>&|^", "==", "!=", "<=", ">=", "&&", "||") + " " + inner()
        if way < 9:
            return self.one("!", "-", "- ") + inner()
        if way < 10:
            return inner() + " as " + self.one("felt", "u32", "T")
        if way < 12:
            return self.name() + "(" + self.listed(inner, 0, 3) + ")"
        if way < 13:
            return self.name() + "." + self.one("x", "y", "0", "12", "0u32" if self.slip() else "1")
        if way < 15:
            return self.name() + "[" + inner() + "]"
        if way < 16:
            return self.one("Reel", "x") + " { " + self.listed(lambda: self.name() + ": " + inner(), 0, 3) + " }"
        if way < 18:
            return "(" + self.listed(inner, 1, 3) + ")"
        if way < 20:
            return "[" + self.listed(inner, 0, 3) + "]"
        if way < 21:
            return "[" + inner() + "; " + self.one("2", "0x8", "3u32" if self.slip() else "4") + "]"
        return "new " + self.alloc(2) + "[" + inner() + "]"

    def pattern(self, depth):
        if depth == 0 or self.chance.below(4):
            return self.name()
        return "(" + self.listed(lambda: self.pattern(depth - 1), 1 if self.slip() else 2, 3, trailing=False) + ")"

    def typed(self):
        return ": " + self.type(2) if self.chance.below(3) == 0 else ""

    def action(self, depth):
        return self.expr(depth) + (" = " + self.expr(depth) if self.chance.below(2) else "")

    def condition(self, depth):
        return ("(" + self.expr(depth) + ")") if self.chance.below(4) else self.expr(depth)

    def statement(self, depth):
        way = self.chance.below(18) if depth else 6 + self.chance.below(12)
        inner = lambda: self.statement(depth - 1)
        if self.slip():
            return self.one(";", "else {}", "let a;", "x {}", "return {};", "{};", "fn g() {}")
        if way < 2:
            return "{ " + " ".join(self.some(inner, 0, 3)) + " }"
        if way < 4:
            return f"if {self.condition(2)} {inner()}" + (f" else {inner()}" if self.chance.below(2) else "")
        if way < 5:
            return self.one(f"while {self.condition(2)} ", "loop ") + inner()
        if way < 6:
            first = self.one("let i = 0;", "i = 0;", "x;", "let (a, b): (T, T) = c;")
            return f"for ({first} {self.expr(1)}; {self.action(1)}) {inner()}"
        if way < 7:
            return self.one("break;", "continue;", "return;", "return 1;")
        if way < 10:
            return f"let {self.pattern(2)}{self.typed()} = {self.expr(3)};"
        if way < 11:
            return f"const K{self.typed()} = {self.expr(2)};"
        if way < 13:
            return f"return {self.expr(3)};"
        return self.action(3) + ";"

    def item(self):
        way = self.chance.below(10)
        if way < 5:
            params = self.listed(lambda: self.name() + ": " + self.type(2), 0, 3)
            result = " -> " + self.type(2) if self.chance.below(2) else ""
            return f"fn {self.name()}({params}){result} {{ " + " ".join(self.some(lambda: self.statement(3), 0, 4)) + " }"
        if way < 7:
            return f"const A{self.typed()} = {self.expr(4)};"
        if way < 8:
            return "struct S { " + self.listed(lambda: self.name() + ": " + self.type(2), 0, 3) + " }"
        path = "::".join(self.some(self.name, 1, 3))
        return self.one(f"use {path};", f"use {path}::{{{self.listed(self.name, 0, 3)}}};")

    def text(self):
        return self.one(" ", "\n").join(self.some(self.item, 1, 2))


def made_texts(cases, seed, count, longest):
    """Now and then with a table that has an entry too few."""
    chance = expected.Chance(seed)
    while count:
        text = Text(Maker(chance, chance.below(2)).text())
        if len(text.bytes) <= longest:
            tokens, nodes, diagnostics = text.needs()
            short = chance.below(16)
            cases.read(text, max(0, tokens - 1 - chance.below(32)) if short == 0 else None,
                       max(0, nodes - 1 - chance.below(32)) if short == 1 else None, chance.below(diagnostics + 1) if short < 8 else None)
            count -= 1


# What opens a part that is read a nest further in, and what closes it; the last rows of the second add nothing.
STATEMENTS = [("{", "}"), ("{ x; ", " }"), ("loop ", ""), ("if (a) ", ""), ("if a == b ", ""), ("if (a) {} else ", ""), ("while (a) ", ""),
              ("for (x; y; z) ", "")]
VALUES = [("(", ")"), ("[", "]"), ("(1, ", ")"), ("(", ", 2)"), ("[1, ", "]"), ("[", "; 3]"), ("f(", ")"), ("f(a, ", ",)"), ("a[", "]"),
          ("P { x: ", " }"), ("P { x: 1, y: ", ", }"), ("new T[", "]"), ("a.b(", ")"), ("-", ""), ("1 + ", ""), ("", " as T"), ("", ".b")]
HEADS = [("", ";"), ("a = ", ";"), ("return ", ";"), ("let a = ", ";"), ("const A = ", ";"), ("if ", " {}"), ("if (", ") {}"), ("while (", ") x;"),
         ("for (", "; y; z) {}"), ("for (x; ", "; z) {}"), ("for (x; y; ", ") {}"), ("if (b) c; else ", ";")]
TYPES = [("(", ")"), ("(", ",)"), ("(T, ", ")"), ("[", "; 3]"), ("", "*")]
ALLOCATIONS = [("(", ")"), ("(", ",)"), ("(T, ", ")"), ("", "*")]
PATTERNS = [("(", ", b)"), ("(a, ", ")")]


def nested_text(chance):
    """About as many parts one in another as the nest allows, closed, left open or closed wrongly."""
    openers, closers = [], []

    def go_in(choices, times):
        for _ in range(times):
            opener, closer = chance.one_of(choices)
            openers.append(opener)
            closers.append(closer)
    left = 58 + chance.below(22)
    way = chance.below(8)
    core = "1"
    if way < 2:
        go_in([("const A = ", ";")], 1)
        go_in(VALUES, left)
    elif way < 5:
        go_in([("fn f() { ", " }")], 1)
        outer = chance.below(left)
        go_in(STATEMENTS, outer)
        go_in(HEADS, 1)
        go_in(VALUES, left - outer)
    elif way < 6:
        go_in([("const A: ", " = 1;"), ("fn f(a: ", ") {}"), ("fn f() -> ", " {}"), ("struct S { a: ", " }"), ("fn f() { let a: ", " = 1; }")], 1)
        go_in(TYPES, left)
        core = "T"
    elif way < 7:
        go_in([("const A = ", ";")], 1)
        outer = chance.below(20)
        go_in(VALUES, outer)
        go_in([("new ", "[1]")], 1)
        go_in(ALLOCATIONS, left - outer)
        core = "T"
    else:
        go_in([("fn f() { let ", " = 1; }"), ("fn f() { for (let ", " = 1; y; z) {} }")], 1)
        go_in(PATTERNS, left)
        core = "a"
    core = chance.one_of([core] * 6 + ["", ";", "a b"])
    wrong = chance.below(6)
    if wrong == 0:
        closers = closers[chance.below(len(closers)):]
    elif wrong == 1:
        closers[chance.below(len(closers))] = chance.one_of([")", "]", ";", "", ","])
    return "".join(openers) + core + "".join(reversed(closers))


def nested_texts(cases, seed, count):
    chance = expected.Chance(seed)
    for _ in range(count):
        cases.read(nested_text(chance))


# ---- the listing and the spellings

LARGEST = (8, 65535, 65535, 65535, expected.LARGEST_VALUE, 255)
LARGEST_UNBASED = (17, 65535, 65535, 65535, expected.LARGEST_VALUE, 255)


def listing_cases(cases):
    first = [((1, 6, 7, 0, 0, 0), 1), ((7, 10, 11, 0, 1, 10), 1), ((27, 0, 12, 2, 0, 0), 1)]
    cases.listed([])
    for out in (0, 1, 2, 3, 20):
        cases.listed([], out)
        cases.listed([], out, rest=15)
    for out in range(56, 69):
        cases.listed(first, out)
    for rest in (1, 7, 15):
        cases.listed(first, rest=rest)
    for kind in range(1, 43):
        for base in (0, 16):
            cases.listed([((kind, kind, 2 * kind, 0, kind, base), 1)])
    for wrong in (0, 43, 44, 100, 128, 255):
        entry = ((wrong, 0, 1, 0, 0, 0), 1)
        for runs in ([entry], [entry] + first, first + [entry], first[:1] + [entry] + first[1:], [entry, entry]):
            cases.listed(runs, 400)
            cases.listed(runs, 0)
            cases.listed(runs, 63)
    for entry, most in ((LARGEST, 61), (LARGEST_UNBASED, 59)):
        for times in (1, 2, 3):
            size = most * times + 1
            for out in (0, size - most, size - 2, size - 1, size, size + 1, size + 40):
                cases.listed([(entry, times)], out)
    for digits in range(20):
        for value in (10**digits - 1, 10**digits):
            cases.listed([((7, 0, 1, 0, value, 10), 1)])
    # the two spellings of a value, at each kind, at exact room and with a byte less, alone and beside each other
    for kind in range(1, 43):
        for value in (LARGEST_NUMBER, LARGEST_NUMBER + 1, expected.LARGEST_VALUE):
            run = [((kind, 1, 2, 3, value, 10), 1)]
            size = len(list_entry([run[0][0]], 10**9)[1])
            cases.listed(run, size)
            cases.listed(run, size - 1)
    for bits in range(52, 65):
        for value in (2**bits - 1, 2**bits, 2**bits + 1):
            if value <= expected.LARGEST_VALUE:
                cases.listed([((7, 0, 1, 0, value, 16), 1), ((19, 0, 1, 1, value, 0), 1)])
    for values in ((0, 1), (1, 0), (1, 1), (0, 1, 0), (1, 0, 1)):
        runs = [((kind, 0, 1, 0, LARGEST_NUMBER + more, 2), 1) for kind, more in zip((6, 19, 9), values)]
        size = len(list_entry([entry for entry, _ in runs], 10**9)[1])
        for out in range(size - 4, size + 3):
            cases.listed(runs, out)
    for number in (0, 9, 10, 99, 100, 999, 1000, 9999, 10000, 65534, 65535):
        cases.listed([((14, number, 1, 2, 3, 0), 1), ((18, 1, number, 2, 3, 0), 1), ((20, 1, 2, number, 3, 0), 1)])
    # the base byte of the four kinds is printed as it is, the other kinds' is not
    for base in (0, 1, 2, 7, 8, 9, 10, 16, 99, 100, 254, 255):
        runs = [((kind, 0, 1, 0, 1, base), 1) for kind in (5, 6, 7, 8, 9, 10, 19)]
        size = len(list_entry([entry for entry, _ in runs], 10**9)[1])
        cases.listed(runs, size)
        cases.listed(runs, size - 1)
    for runs in ([(LARGEST, 65535)], [((1, 0, 1, 0, 0, 0), 40000), ((0, 0, 0, 0, 0, 0), 1)]):
        size = 61 * 65535 + 1
        cases.listed(runs, size)
        cases.listed(runs, size - 1)
        cases.listed(runs, 0)
    cases.listed([((1, 0, 1, 0, 0, 0), 1000), ((17, 1, 20, 1000, 0, 0), 1)], 20000)


def refusal_cases(cases):
    errors = [(0, 1, 1), (4, 14, 2), (65534, 65535, 3), (7, 11, 4)]
    for outcome in list(range(12)) + [99, 100, 65535, 65536, 4294967295]:
        cases.listed_refusal(outcome, [])
        cases.listed_refusal(outcome, errors[:1])
    for count in range(5):
        size = len(refusal(3, errors[:count]))
        for out in (0, 1, size - 2, size - 1, size, size + 1, size + 30):
            cases.listed_refusal(3, errors[:count], out)
            cases.listed_refusal(8, errors[:count], out, rest=5)
    for number in (0, 9, 10, 99, 100, 999, 1000, 9999, 10000, 65535):
        cases.listed_refusal(3, [(number, 1, 2), (1, number, min(number, 255))])
    cases.listed_refusal(4294967295, [(65535, 65535, 255)] * 3, 18 * 3 + 38)
    cases.listed_refusal(4294967295, [(65535, 65535, 255)] * 3, 18 * 3 + 37)
    cases.listed_refusal(3, [(65535, 65535, 255)] * 1024)
    for start, end in ((0, 1), (12, 12), (9, 10), (65535, 65535)):
        size = len(refusal(7, [(start, end, STOP)]))
        cases.listed_refusal(7, [(start, end, STOP)])
        cases.listed_refusal(7, [(start, end, STOP)], size - 1)
        cases.listed_refusal(7, [(start, end, STOP)], size + 1, rest=7)


def spelling_cases(cases):
    text = "const reel_1: felt = x;"
    for kind in list(range(0, 52)) + [127, 128, 255]:
        cases.spelling(text, kind, 6, 12)
    for kind in (1, 2, 11, 7):
        for start, end in ((0, 0), (0, 1), (0, 22), (0, 23), (0, 24), (22, 23), (23, 23), (23, 24), (24, 24), (12, 6), (1, 0), (65535, 0), (0, 65535),
                           (65535, 65535)):
            cases.spelling(text, kind, start, end)
        for start, end in ((0, 0), (0, 1)):
            cases.spelling("", kind, start, end)
        for length in (65534, 65535, 65536, 70000):
            for start, end in ((0, 65535), (65534, 65535), (65535, 65535), (0, 65534)):
                cases.spelling(Text(("a", length)), kind, start, end)
    cases.spelling(b"\xff\xc3\x80", 1, 0, 3)


# ---- the hit test

# Spans in their order, then offset, length and the answer, found by hand.
STATED_HITS = [
    ([], 0, 1, (0, 0, 0)),
    ([], 0, 0, (12, 0, 0)),
    # the start is included, the end is not
    ([(2, 4)], 1, 9, (0, 0, 0)),
    ([(2, 4)], 2, 9, (0, 1, 0)),
    ([(2, 4)], 3, 9, (0, 1, 0)),
    ([(2, 4)], 4, 9, (0, 0, 0)),
    # at or past the length, whatever a node contains
    ([(2, 4)], 3, 4, (0, 1, 0)),
    ([(2, 4)], 3, 3, (12, 0, 0)),
    ([(2, 4)], 3, 2, (12, 0, 0)),
    # the shortest, and the earliest of those
    ([(0, 9), (2, 5), (3, 9)], 3, 9, (0, 1, 1)),
    ([(0, 9), (3, 6), (2, 5), (3, 6)], 4, 9, (0, 1, 1)),
    ([(0, 9), (2, 5), (3, 6), (3, 5)], 4, 9, (0, 1, 3)),
    ([(3, 5), (2, 5), (2, 5)], 2, 9, (0, 1, 1)),
    # nothing is in an empty span, or in one that ends before it starts
    ([(3, 3), (5, 2), (0, 0), (1, 8)], 3, 9, (0, 1, 3)),
    ([(3, 3), (5, 2), (0, 0)], 3, 9, (0, 0, 0)),
    ([(0, 0)], 0, 1, (0, 0, 0)),
    # no span goes past 65,535
    ([(0, 65535)], 65534, 2**64 - 1, (0, 1, 0)),
    ([(0, 65535)], 65535, 2**64 - 1, (0, 0, 0)),
    ([(0, 65535)], 65536, 2**64 - 1, (0, 0, 0)),
    ([(0, 65535)], 2**64 - 2, 2**64 - 1, (0, 0, 0)),
    ([(0, 65535)], 2**64 - 1, 2**64 - 1, (12, 0, 0)),
]

# Texts, and under each of their bytes the place of the node, found by hand: 0 to 9, then a; `.` is nobody. The closing bracket of a
# call with arguments is not part of the call: at 13 in the first text stands the Const, 4, though the Call 10..13, 3, has its bracket
# at 11. A call without any ends two bytes after its callee: with a blank between them, its bracket is outside as well.
HITS_BY_HAND = [
    ("const A = f(a);",
     "444444044413244"),
    ("const A = f( );",
     "333333033312233"),
    ("const A = f();",
     "33333303331223"),
    # an index ends with its last operand too
    ("const A = a[0] + b[1];",
     "8888880888132777746588"),
    # Param 3 and TypeTuple 4 have 0..0
    ("fn f(a: T) {}",
     "5550515525555"),
    # and so has PatternTuple, 4
    ("fn f() { let (a, b) = c; }",
     "77707777766666266366665677"),
    # the step, Identifier 5 and ExprStmt 6 at 20..21
    ("fn f() { for (x; y; z) w; }",
     "aaa0aaaaa9999923949959978aa"),
    # a pointer begins with its operand, without the bracket before that
    ("const A: (T)* = (a);",
     "55555505551225554345"),
    # between items, and in a comment with a character of two bytes
    ("use a::b; use c;",
     "222202212.444434"),
    ("// \u00e9\nuse m;\n",
     "......111101."),
    (" ",
     "."),
    ("",
     ""),
]


def spans(*pairs):
    """Entries with these spans; what else is in a node is of no account."""
    return [((at % 42 + 1, start, end, 0, 0, 0), 1) for at, (start, end) in enumerate(pairs)]


def stated_hits(cases):
    for pairs, offset, length, owed in STATED_HITS:
        said = hit_test(offset, length, [entry for entry, _ in spans(*pairs)])
        if said != owed:
            raise SystemExit(f"reading_expected.py: the hit test of {offset} of {length} in {pairs} is {said}, by hand {owed}")
        cases.hit(offset, length, spans(*pairs))
    marks = {".": (ACCEPTED, 0, 0)} | {mark: (ACCEPTED, 1, place) for place, mark in enumerate("0123456789a")}
    for text, owed in HITS_BY_HAND:
        nodes, length = Text(text).nodes()[1], len(text.encode())
        said, by_hand = [hit_test(offset, length, nodes) for offset in range(length)], [marks[mark] for mark in owed]
        if said != by_hand:
            raise SystemExit(f"reading_expected.py: the hit tests of {text!r} are {said}, by hand {by_hand}")
        for size in (None, 0, 16, 16 * 64):
            cases.hits_of(text, size)


# Spans that nothing is in.
NOWHERE = [(0, 0), (5, 5), (65535, 65535), (9, 5), (6, 5), (65535, 0), (1, 0)]


def edge_hits(cases):
    """Each side of a span and of a length."""
    for start, end in ((0, 1), (0, 5), (4, 5), (5, 9), (255, 257), (0, 256), (32767, 32769), (0, 65535), (65533, 65535), (65534, 65535)):
        for offset in sorted({max(0, at + more) for at in (start, end) for more in (-1, 0, 1)}):
            for length in (65535, offset + 1, offset):
                cases.hit(offset, length, spans((start, end)))
    for start, end in NOWHERE:
        for offset in sorted({max(0, at + more) for at in (start, end) for more in (-1, 0, 1)}):
            cases.hit(offset, 70000, spans((start, end)))
            cases.hit(offset, 70000, spans((start, end), (0, 65535)))
            cases.hit(offset, 70000, spans((0, 65535), (start, end)))
    cases.hit(5, 70000, spans(*NOWHERE))
    cases.hit(5, 70000, spans(*NOWHERE, (0, 65535), *NOWHERE))
    lengths = [0, 1, 4, 5, 6, 65535, 65536, 65541, 2**32, 2**32 + 3, 2**63, 2**64 - 1]
    for length in lengths:
        for offset in sorted({*lengths, max(0, length - 1), min(2**64 - 1, length + 1)}):
            cases.hit(offset, length, spans((0, 65535), (3, 5)))
            cases.hit(offset, length, [])
    # past every span, though the lower bits of the offset are not
    for offset in (65535, 65536, 65540, 70000, 131071, 131076, 2**32 + 4, 2**48 + 4, 2**63 + 4, 2**64 - 2):
        for length in (offset + 1, 2**64 - 1):
            cases.hit(offset, length, spans((0, 65535), (4, 9), (65534, 65535)))
            cases.hit(offset, length, spans((0, 0)))


def order_hits(cases):
    """The shortest at each place of a table, and the earliest where some are as short."""
    for pairs in sorted(set(itertools.permutations([(0, 9), (2, 7), (3, 6), (4, 5), (4, 5)]))):
        cases.hit(4, 9, spans(*pairs))
    # as wide, from other starts; 5..9 does not contain the offset
    for pairs in itertools.permutations([(2, 6), (3, 7), (4, 8), (5, 9), (1, 9)]):
        cases.hit(4, 9, spans(*pairs))
    for pairs in ([(1, 9), (2, 6), (2, 6), (4, 6)], [(2, 6), (2, 6), (2, 6)], [(4, 5), (0, 9), (4, 5)], [(0, 0), (3, 6), (4, 4), (2, 5), (5, 4)]):
        for offset in range(10):
            cases.hit(offset, 9, spans(*pairs))
    # every table of up to two spans within 0..3
    every = [(start, end) for start in range(4) for end in range(4)]
    for pairs in [()] + [(one,) for one in every] + list(itertools.product(every, every)):
        for offset in range(3):
            cases.hit(offset, 3, spans(*pairs))


def rest_hits(cases):
    """An entry that is cut off is none, even if its span is there."""
    for rest in range(1, 16):
        cases.hit(4, 9, spans((4, 5)), rest)
        cases.hit(4, 9, spans((0, 9), (4, 5)), rest)
        cases.hit(9, 9, spans((9, 10)), rest)
    cases.hit(4, 9, spans((4, 5), (3, 6), (4, 5)), 15)


def field_hits(cases):
    """What else is in a node."""
    for kind in range(256):
        cases.hit(4, 9, [((kind, 2, 8, 0, 0, 0), 1), ((255 - kind, 1, 9, 0, 0, 0), 1)])
    for children in (0, 1, 2, 255, 256, 65535):
        for value in (0, 1, 2**53, expected.LARGEST_VALUE):
            for base in (0, 10, 16, 255):
                cases.hit(4, 9, [((39, 0, 9, children, value, base), 1), ((1, 4, 6, 0, 0, 0), 1), ((7, 4, 5, children, value, base), 1)])
    everything = (255, 0, 65535, 65535, expected.LARGEST_VALUE, 255)
    for offset in (0, 65534, 65535):
        cases.hit(offset, 65536, [(everything, 3)])


def large_hits(cases):
    """Tables of many entries; a place may take more than 16 bits."""
    wide, near, short, empty = ((7, start, end, 0, 0, 0) for start, end in ((0, 65535), (2, 9), (4, 5), (4, 4)))
    for count in (4096, 65535, 65536, 100000, 131000):
        for runs in ([(wide, count)], [(wide, count - 1), (short, 1)], [(short, 1), (wide, count - 1)],
                     [(wide, count // 2), (near, 3), (short, 2), (near, count - count // 2 - 5)], [(empty, count - 1), (near, 1)], [(empty, count)]):
            cases.hit(4, 65535, runs)
        cases.hit(4, 65535, [(near, count), (short, 1)], 15)
        cases.hit(4, 4, [(short, count)])
    nested = [((24, 1000 - at, 1000 + at, 1, 0, 0), 1) for at in range(1, 1001)]
    for offset, runs in ((400, nested), (1999, nested[::-1]), (999, nested[500:] + nested[:500])):
        cases.hit(offset, 2001, runs)


def hits_by_chance(cases, chance, count):
    for _ in range(count):
        bound = chance.one_of([4, 10, 100, 65536])
        entries = [((chance.below(44), chance.below(bound), chance.below(bound), chance.below(3), chance.below(2), 0), 1) for _ in range(chance.below(16))]
        offset = chance.below(bound + 1)
        if entries and chance.below(2):
            offset = max(0, chance.one_of(entries)[0][1 + chance.below(2)] - chance.below(2))
        cases.hit(offset, chance.one_of([offset, offset + 1, bound, 65536]), entries, chance.below(2) * chance.below(16) if entries else 0)


# A text of each kind of answer, those of the refused ones with a table of zeros.
HIT_TEXTS = [
    "fn f() { for (let i = 0; i < n; i = i + 1) { g(i, a[i]).b = -t.0 as T; } }", "fn f(a: felt, b: T*,) -> (T, [U; 3]) { return; { } }",
    "const A = P { x: f(g(1), ), y: [[1; 2], new (T,)*[3]], };", "struct S { a: (T), b: U* }\n\n\n// \u20ac\n\tuse a::{b, c,};  ",
    "fn f() { let ((a, b), c): T = ((1, 2), 3); if (a) b; else if c { d = !-e; } else loop break; while a == b continue; }",
    "fn f() { x; f /* */; }", "const A = f(\n  a,\n  b // \u00e9)\n);", "fn f() { -f ()[0] (); f ()().a() ; }", "@", "const A = 1", body("12u8;"), "x" * 70000,
    PARENS[0], PARENS[1], b"\xff", Text((" ", 1000)), Text("const A = ", ("-", 1000), "1;"), Text("const A = 1", ("+1", 500), ";"),
    Text("const A = ", ("f(", 60), "a", (")", 60), ";"), Text("const A: T", ("*", 500), " = 1;"),
]


def text_hits(cases):
    for text in HIT_TEXTS:
        cases.hits_of(text, step=1 if not isinstance(text, str) or len(text) < 1000 else 997)
    for text in CONSTRUCTS:
        cases.hits_of(text)
        cases.hits_of(text, Text(text).needs()[1] - 16)
    for text in examples().values():
        cases.hits_of(Text(text), step=1 if len(text) < 4096 else 499)
    chance = expected.Chance(4)
    for _ in range(60):
        cases.hits_of(Maker(chance, False).text())
    for run in (RUNS[0], RUNS[6], RUNS[26]):
        cases.hits_of(run_text(run), step=4099)


def hit_cases(cases):
    stated_hits(cases)
    edge_hits(cases)
    order_hits(cases)
    rest_hits(cases)
    field_hits(cases)
    large_hits(cases)
    hits_by_chance(cases, expected.Chance(12), 300)
    if min(cases.hits.get(word, 0) for word in ("node", "-", "!")) < 100:
        raise SystemExit(f"reading_expected.py: of the hit tests, {cases.hits} only")


# ---- all


def examples():
    return {path.name: path.read_bytes() for path in sorted((ROOT / "examples").glob("*.cm"))}


def all_cases():
    cases = Cases()
    cases.section("what 01 names")
    stated_cases(cases)
    cases.section("trees and refusals written down by hand")
    for text in by_hand():
        cases.read(text)
    cases.section("rooms")
    room_cases(cases)
    cases.section("where reading stops")
    stop_cases(cases)
    cases.section("two grounds")
    order_cases(cases)
    cases.section("bytes")
    byte_cases(cases)
    cases.section("bases")
    base_cases(cases)
    cases.section("large values")
    value_cases(cases)
    cases.section("examples, whole and damaged")
    chance = expected.Chance(35)
    for text in examples().values():
        if len(text) < 4096:
            base = cases.base(text)
            answer = cases.damaged(base, [])
            if answer.outcome == ACCEPTED:
                damages(cases, chance, base, 30)
    cases.section("texts made by chance")
    made_texts(cases, 70, 200, 300)
    cases.section("texts nested by chance")
    nested_texts(cases, 64, 120)
    cases.section("the nest, by what takes the most of the stack")
    deepest_cases(cases)
    cases.section("long texts")
    long_cases(cases)
    cases.section("long texts that are refused")
    refused_long_cases(cases)
    cases.section("spellings")
    spelling_cases(cases)
    cases.section("listings")
    listing_cases(cases)
    cases.section("listings of refusals")
    refusal_cases(cases)
    cases.section("hit tests")
    hit_cases(cases)
    cases.section("hit tests at the offsets of texts")
    text_hits(cases)
    for outcome in range(9):
        if cases.outcomes.get(outcome, 0) < 3:
            raise SystemExit(f"reading_expected.py: outcome {outcome} is owed fewer than three times")
    return cases


CASES, OWED = "tests/reading/cases", "tests/reading/owed"


def files():
    given, owed = all_cases().files()
    return {CASES: given.encode(), OWED: owed.encode()}


# ---- the commands


def more(count, folder):
    """Further cases: texts made by chance, nested by chance, damaged examples, and hit tests."""
    cases = Cases()
    made_texts(cases, 20000 + count, count // 3, 4000)
    nested_texts(cases, 30000 + count, count // 3)
    chance = expected.Chance(count)
    bases = [cases.base(text) for text in examples().values() if len(text) < 4096 and Text(text).read(2**20, 2**20, 0).outcome == ACCEPTED]
    for base in bases:
        damages(cases, chance, base, count // 3 // len(bases))
    hits_by_chance(cases, chance, count // 10)
    for _ in range(count // 100):
        cases.hits_of(Maker(chance, False).text())
    given, owed = cases.files()
    Path(folder).mkdir(parents=True, exist_ok=True)
    Path(folder, "cases").write_text(given)
    Path(folder, "owed").write_text(owed)
    return 0


ENTRIES = 1024


def list_line(text):
    """The line that cairolist owes for a text. It has to be JSON, as Python reads and writes it."""
    said = answer_listing(Text(text).read(16 * ENTRIES, 16 * ENTRIES, 8 * ENTRIES))
    if json.dumps(json.loads(said), separators=(",", ":")) != said:
        raise SystemExit(f"reading_expected.py: {said} is not JSON without spaces")
    return said + "\n"


OUTCOME_WORDS = ["accepted", "long", "encoding", "lexical", "token room", "nest", "node room", "syntax", "suffix"]
OUTCOME_SAID = {LONG: "over 65,535 bytes", ENCODING: "not UTF-8", NEST: "an attempt takes a token at nest above 64",
                SYNTAX: "no derivation of all tokens"}
BINARY = "+ Add,- Sub,* Mul,/ Div,% Mod,== Eq,!= Neq,< Less,> Greater,<= LessEqual,>= GreaterEqual,&& And,|| Or,& BitwiseAnd,| BitwiseOr,^ BitwiseXor"


def desk_node(text, kind, start, end, value, base):
    spelling = text[start:end].decode()
    of = {
        "Name": lambda: spelling, "Identifier": lambda: spelling,
        "Named": lambda: spelling + (" (other)" if value == 3 else f" ({['felt', 'bool', 'u32'][value]})"),
        "Count": lambda: f"{value} base {base}", "Literal": lambda: f"{value} base {base}",
        "LiteralFelt": lambda: f"{value} felt base {base}", "LiteralU32": lambda: f"{value} u32 base {base}",
        "Bool": lambda: ["false", "true"][value], "TupleIndex": lambda: str(value),
        "Unary": lambda: ["! (Not)", "- (Neg)"][value],
        "Binary": lambda: "{} ({})".format(*BINARY.split(",")[value].split()),
        "Let": lambda: "typed" if value else "", "Const": lambda: "typed" if value else "",
        "Function": lambda: f"params {value}", "UseSingle": lambda: f"path {value}", "UseList": lambda: f"path {value}",
    }.get(kind, lambda: "")()
    return f"{kind} {start}..{end}" + (" " + of if of else "")


def desk_tree(text, nodes):
    """Parents before children, two spaces for each level, up to 40 levels."""
    trees = []
    for kind, start, end, children, value, base in nodes:
        below = [trees.pop() for _ in range(children)]
        trees.append((desk_node(text, kind, start, end, value, base), below))
    left = [(1, tree) for tree in reversed(trees)]
    while left:
        depth, (said, below) = left.pop()
        yield "  " * min(depth, 40) + (f"[{depth}] " if depth > 40 else "") + said
        left += [(depth + 1, tree) for tree in below]


def place(text, at):
    """Line and column, from 1; a column is a character."""
    before = text[:at].decode()
    return before.count("\n") + 1, len(before) - (before.rfind("\n") + 1) + 1


def desk_error(text, name, start, end, reason):
    """The lines of an error: one, and two more where reading stopped."""
    part = text[start:end].decode()
    # the end of a text is shown behind the last character that is not white space
    shown_at = start if part else len(text.rstrip(b" \t\r\n"))
    line, column = place(text, shown_at)
    shown = part if len(part) <= 40 else part[:40] + ".."
    sign = f" '{part}'" if len(part) == 1 and "!" <= part <= "~" else ""
    said = {
        1: lambda: f"no token begins with U+{ord(part[0]):04X}{sign}", 2: lambda: f"the numeral {shown} is above 18446744073709551615",
        3: lambda: f"the numeral {shown} is not well formed", 4: lambda: f"the numeral {shown} has an unknown suffix",
        5: lambda: f"reading stopped at {shown}" if part else "reading stopped: the text ends here",
    }[reason]()
    lines = [f"{name}:{line}:{column}: {said} (bytes {start}..{end})"]
    return lines + desk_carets(text, shown_at, len(part)) if reason == STOP else lines


def desk_carets(text, at, width):
    """The line around a place, up to 60 characters on either side, and carets under so many of them."""
    whole, at = text.decode(), len(text[:at].decode())
    first, last = whole.rfind("\n", 0, at) + 1, (whole + "\n").find("\n", at)
    start, end = max(first, at - 60), min(last, at + 60)
    before, after = ".." if start > first else "", ".." if end < last else ""
    if not after and end > at and whole[end - 1] == "\r":
        end -= 1
    line = "".join("?" if c < " " and c != "\t" or c == "\x7f" else c for c in whole[start:end])
    under = "".join("\t" if c == "\t" else " " for c in whole[start:at])
    return ["  " + before + line + after, "  " + " " * len(before) + under + "^" * max(1, min(width, end - at))]


def desk_lines(name, text):
    """What the desk owes for a file: its tables have room for everything."""
    answer = Text(text).read(2**20, 2**20, 2**20)
    verdict = f"{name}: {answer.outcome} {OUTCOME_WORDS[answer.outcome]}"
    if answer.outcome == ACCEPTED:
        return [f"{verdict}: tokens {answer.counts[0]}, nodes {answer.counts[1]}"] + list(desk_tree(text, answer.nodes))
    said = f"errors {answer.counts[2]}" if answer.outcome in (LEXICAL, SUFFIX) else OUTCOME_SAID[answer.outcome]
    return [f"{verdict}: {said}"] + [line for error in answer.diagnostics for line in desk_error(text, name, *error)]


def show(line):
    cases = all_cases()
    answer = cases.answers[line]
    print(cases.owed[line - 1])
    for title, entries in (("t", answer.tokens), ("n", [(NUMBER[kind], *rest) for kind, *rest in answer.nodes]), ("d", answer.diagnostics)):
        for entry in entries:
            print(title, ",".join(map(str, entry)))
    return 0


def texts(folder):
    named = {
        "empty": b"", "at": b"@", "spaces": b" " * 65535, "long": b" " * 65536, "longer": b" " * 70000, "tokens": b"const A = 1;" * 204 + b"use m;",
        "more_tokens": b"const A = 1;" * 205, "errors": b"@" * 1024, "more_errors": b"@a" * 1030, "suffixes": b"const A = 1x" + b"+1x" * 500 + b";",
        "deep": PARENS[1].bytes, "not_deep": PARENS[0].bytes, "minus": b"const A =" + b"-" * 1000 + b"1;", "cut": b"// \xe2\x82", "no_items": b"x",
        "largest": b"const A: [T; 18446744073709551615] = 0xffffffffffffffffu32;", "far": b" " * 65523 + b"const A = 1;",
        "bases": b"const A: [felt; 0x3] = [0b1, 0O7felt, 0XfFu32, 9, t.0x1, [0o1; 0B11]];",
        "values": "\n".join(valued(n) for n, _ in LARGE_VALUES).encode(),
        "more_values": "".join(valued(n) for n in ("9007199254740993", "0x3fffffffffffff", "0o777777777777777777777", "10000000000000000001")).encode(),
    }
    named.update(examples())
    Path(folder).mkdir(parents=True, exist_ok=True)
    for name, text in named.items():
        Path(folder, name).write_bytes(text)
        Path(folder, name + ".owed").write_text(list_line(text))
    for name, text in examples().items():
        Path(folder, name + ".desk").write_text("\n".join(desk_lines("examples/" + name, text)) + "\n")
    return 0


def numbers_differ(said, answer):
    """Whether a listing, read with numbers that are 64-bit floats, is another answer. A float stands for just its own value."""
    read = json.loads(said, parse_int=float)
    if answer.outcome != ACCEPTED:
        return read != {"refused": answer.outcome, "diagnostics": [list(error) for error in answer.diagnostics]}
    return [[kind, *map(int, numbers)] for kind, *numbers in read] != [list(node[:6 if node[0] in BASED else 5]) for node in answer.nodes]


def floats(folder):
    seen, strings = set(), 0
    for path in sorted(Path(folder).glob("*.said")):
        said, text = path.read_text(), path.with_suffix("").read_bytes()
        answer = Text(text).read(16 * ENTRIES, 16 * ENTRIES, 8 * ENTRIES)
        if numbers_differ(said, answer):
            print(f"{path}: read with 64-bit floats, it is another answer")
            return 1
        # the same with every value as a number has to be told from it, or nothing is compared here
        plain = re.sub(r'"(\d+)"', r"\1", said)
        if any(value != int(float(value)) for *_, value, _ in answer.nodes) and not numbers_differ(plain, answer):
            print(f"{path}: without strings it is read as the same answer")
            return 1
        seen |= {(kind, value) for kind, _, _, _, value, _ in answer.nodes}
        strings += said != plain
    missing = [(kind, value) for kind, *_ in VALUED for value, _ in LARGE_VALUES if (kind, int(value)) not in seen]
    if missing or not strings:
        print(f"{folder}: no {missing}, or no strings")
        return 1
    print(f"tests: every number is what it was, read with 64-bit floats; {strings} of the texts have strings for values")
    return 0


def main(words):
    if words == []:
        return expected.write(files())
    if words == ["--check"]:
        return expected.check(files())
    if len(words) == 3 and words[0] == "--more":
        return more(int(words[1]), words[2])
    if len(words) == 2 and words[0] == "--texts":
        return texts(words[1])
    if len(words) == 2 and words[0] == "--floats":
        return floats(words[1])
    if len(words) == 2 and words[0] == "--show":
        return show(int(words[1]))
    print(__doc__)
    return 2


if __name__ == "__main__":
    sys.exit(main(sys.argv[1:]))
