#!/usr/bin/env python3
"""The expected answers of the lexer's tests.

The answers are worked out here from 01-scope.md, from the patterns of lexer.rs and from RFC 3629, never from what the
crates print. Bytes are decoded by Python's strict codec, tokens are found by trying every pattern with `re`, and numerals
are read with Python's integers.

  expected.py              write the case files of crates/lexer_cases and crates/cairolex
  expected.py --check      say whether the files on disk are what would be written; exit 1 if not
  expected.py --source F   hold the tables below to the patterns in the file F, which is lexer.rs; exit 1 if they differ
  expected.py --texts D    write texts for cairolex to the folder D, each with the line owed for it in NAME.owed
"""

import re
import sys
from pathlib import Path

ROOT = Path(__file__).resolve().parent.parent

# ---- the model

KEYWORDS = [
    ("As", "as"), ("Const", "const"), ("Else", "else"), ("False", "false"), ("Function", "fn"), ("If", "if"),
    ("Let", "let"), ("New", "new"), ("Return", "return"), ("Struct", "struct"), ("True", "true"), ("While", "while"),
    ("Loop", "loop"), ("For", "for"), ("In", "in"), ("Break", "break"), ("Continue", "continue"), ("Use", "use"),
]
MARKS = [
    ("Not", "!"), ("AndAnd", "&&"), ("OrOr", "||"), ("BitwiseAnd", "&"), ("BitwiseOr", "|"), ("BitwiseXor", "^"),
    ("EqEq", "=="), ("Neq", "!="), ("LessEqual", "<="), ("GreaterEqual", ">="), ("Less", "<"), ("Greater", ">"),
    ("Plus", "+"), ("Minus", "-"), ("Mul", "*"), ("Div", "/"), ("Mod", "%"), ("Eq", "="), ("Arrow", "->"),
    ("LParen", "("), ("RParen", ")"), ("LBrace", "{"), ("RBrace", "}"), ("LBrack", "["), ("RBrack", "]"),
    ("Comma", ","), ("Semicolon", ";"), ("Colon", ":"), ("ColonColon", "::"), ("Dot", "."),
]
NAME = "[a-zA-Z_][a-zA-Z0-9_]*"
NUMERALS = ["0[xX][0-9a-fA-F]+", "0[oO][0-7]+", "0[bB][01]+", "[0-9]+"]
SKIPS = [r"[\t\n\r ]+", r"//[^\n]*"]

KINDS = ["LiteralNumber"] + [kind for kind, _ in KEYWORDS] + ["Identifier"] + [kind for kind, _ in MARKS]
KIND_NUMBER = {kind: number for number, kind in enumerate(KINDS, 1)}

# A keyword stands before the name, so that it wins where both are equally long.
PATTERNS = [(None, re.compile(skip.encode())) for skip in SKIPS]
PATTERNS += [("LiteralNumber", re.compile(f"{body}(?:{NAME})?".encode())) for body in NUMERALS]
PATTERNS += [(kind, re.compile(re.escape(word).encode())) for kind, word in KEYWORDS]
PATTERNS += [("Identifier", re.compile(NAME.encode()))]
PATTERNS += [(kind, re.compile(re.escape(mark).encode())) for kind, mark in MARKS]

# The patterns that can match at a byte: each of them matches that byte with one of these after it.
TAILS = {b"", b"x1", b"X1", b"o1", b"O1", b"b1", b"B1", b"/"} | {word[1:].encode() for _, word in KEYWORDS + MARKS}
STARTING = [[(kind, pattern) for kind, pattern in PATTERNS if any(pattern.match(bytes([byte]) + tail) for tail in TAILS)]
            for byte in range(256)]

LONGEST_TEXT = 65535
LARGEST_VALUE = 18446744073709551615
ACCEPTED, LONG, ENCODING, LEXICAL, TOKEN_ROOM, SPELLING = 0, 1, 2, 3, 4, 9
CHARACTER, OVERFLOW, FORMAT = 1, 2, 3


def is_utf8(text):
    try:
        text.decode("utf-8", "strict")
    except UnicodeDecodeError:
        return False
    return True


def char_len(text):
    """The length of the character that the text begins with, 0 if it begins with none."""
    for size in range(1, 5):
        if len(text) >= size and is_utf8(text[:size]):
            return size
    return 0


def base_of(spelling):
    """The base that a leading 0x, 0o or 0b sets, in either case of the letter, else 10."""
    return {"0x": 16, "0o": 8, "0b": 2}.get(spelling[:2].lower(), 10)


def parse_numeral(spelling):
    """(value, suffix, base, 0), or (0, 0, 0, reason)."""
    base = base_of(spelling)
    rest = spelling if base == 10 else spelling[2:]
    digits = "0123456789abcdef"[:base]
    cuts = []
    for word in ("felt", "u32"):
        place = rest.rfind(word)
        if place >= 0:
            ends = rest[place:] == word
            cuts.append(place if place > 0 and ends else len(rest))
    if not cuts:
        cuts = [at for at, letter in enumerate(rest) if letter.lower() not in digits][:1] or [len(rest)]
    cut = min(cuts)
    number, suffix = rest[:cut], rest[cut:]
    if number == "" or suffix[:1].isdigit():
        return 0, 0, 0, FORMAT
    value = 0
    for letter in number:
        if letter.lower() not in digits:
            return 0, 0, 0, FORMAT
        value = value * base + digits.index(letter.lower())
        if value > LARGEST_VALUE:
            return 0, 0, 0, OVERFLOW
    return value, {"": 0, "felt": 1, "u32": 2}.get(suffix, 3), base, 0


def numeral_entry(spelling):
    """(outcome, value, suffix, base, reason) of the numeral entry."""
    if len(spelling) > LONGEST_TEXT:
        return LONG, 0, 0, 0, 0
    if not any(pattern.fullmatch(spelling) for kind, pattern in PATTERNS if kind == "LiteralNumber"):
        return SPELLING, 0, 0, 0, 0
    value, suffix, base, reason = parse_numeral(spelling.decode("ascii"))
    return (LEXICAL if reason else ACCEPTED), value, suffix, base, reason


def longest_match(text, at):
    """(length, kind) of the longest match at a place, (0, None) if no pattern matches."""
    length, found = 0, None
    for kind, pattern in STARTING[text[at]]:
        match = pattern.match(text, at)
        if match and match.end() - at > length:
            length, found = match.end() - at, kind
    return length, found


def lex_all(text):
    """Every token (kind, suffix, start, end, value, base) and every lexical error (start, end, reason) of a UTF-8 text."""
    tokens, errors = [], []
    at = 0
    while at < len(text):
        length, kind = longest_match(text, at)
        end = at + (length or char_len(text[at:at + 4]))
        if length == 0:
            errors.append((at, end, CHARACTER))
        elif kind == "LiteralNumber":
            value, suffix, base, reason = parse_numeral(text[at:end].decode("ascii"))
            if reason:
                errors.append((at, end, reason))
            else:
                tokens.append((KIND_NUMBER[kind], suffix, at, end, value, base))
        elif kind is not None:
            tokens.append((KIND_NUMBER[kind], 0, at, end, 0, 0))
        at = end
    return tokens, errors


def lex_entry(text, token_bytes, diagnostic_bytes):
    """(outcome, token count, diagnostic count, tokens stored, diagnostics stored) of the lexing entry."""
    if len(text) > LONGEST_TEXT:
        return LONG, 0, 0, [], []
    if not is_utf8(text):
        return ENCODING, 0, 0, [], []
    tokens, errors = lex_all(text)
    if errors:
        return LEXICAL, 0, len(errors), [], errors[:diagnostic_bytes // 8]
    if len(tokens) > token_bytes // 16:
        return TOKEN_ROOM, len(tokens), 0, [], []
    return ACCEPTED, len(tokens), 0, tokens, []


def json_line(text):
    """The line that cairolex owes for a text, with 1,024 token and diagnostic entries."""
    outcome, _, _, tokens, errors = lex_entry(text, 1024 * 16, 1024 * 8)
    if outcome == ACCEPTED:
        rows = [f'["{KINDS[kind - 1]}",{start},{end},{suffix},{value},{base}]' for kind, suffix, start, end, value, base in tokens]
        return "[" + ",".join(rows) + "]\n"
    rows = [f"[{start},{end},{reason}]" for start, end, reason in errors]
    return f'{{"refused":{outcome},"diagnostics":[{",".join(rows)}]}}\n'


# ---- the cases

TOKEN_BYTES, DIAGNOSTIC_BYTES = 4096, 1024


def spelled(text):
    """Two hexadecimal digits for a byte; `XX*N.` for a byte N times in a row; `-` for the empty text."""
    parts, at = [], 0
    while at < len(text):
        end = at
        while end < len(text) and text[end] == text[at]:
            end += 1
        count = end - at
        parts.append(f"{text[at]:02x}*{count}." if count > 32 else f"{text[at]:02x}" * count)
        at = end
    return "".join(parts) or "-"


class Cases:
    def __init__(self):
        self.given, self.owed = [], []

    def line(self, given, owed):
        self.given.append(given)
        self.owed.append(owed)

    def section(self, title):
        self.line(f"# {title}", f"# {title}")

    def utf8(self, text):
        self.line(f"u {spelled(text)}", f"u {int(is_utf8(text))} {char_len(text)}")

    def numeral(self, spelling):
        outcome, value, suffix, base, reason = numeral_entry(spelling)
        answer = {
            ACCEPTED: f"number {value} {suffix} {base}", LONG: "long", SPELLING: "spelling", LEXICAL: f"lexical {reason}",
        }[outcome]
        self.line(f"n {spelled(spelling)}", f"n {outcome} {value} {suffix} {base} {reason} {answer}")

    def lex(self, text, token_bytes=TOKEN_BYTES, diagnostic_bytes=DIAGNOSTIC_BYTES):
        outcome, token_count, error_count, tokens, errors = lex_entry(text, token_bytes, diagnostic_bytes)
        owed = [f"l {outcome} {token_count} {error_count} 0 0"]
        owed += ["t" + ",".join(map(str, token)) for token in tokens]
        owed += ["d" + ",".join(map(str, error)) for error in errors]
        self.line(f"l {token_bytes} {diagnostic_bytes} {spelled(text)}", " ".join(owed))

    def files(self):
        return "\n".join(self.given) + "\n", "\n".join(self.owed) + "\n"


class Chance:
    """A fixed run of numbers, the same on every machine (splitmix64)."""

    def __init__(self, seed):
        self.state = seed

    def below(self, bound):
        self.state = (self.state + 0x9E3779B97F4A7C15) % 2**64
        mixed = self.state
        mixed = (mixed ^ (mixed >> 30)) * 0xBF58476D1CE4E5B9 % 2**64
        mixed = (mixed ^ (mixed >> 27)) * 0x94D049BB133111EB % 2**64
        return (mixed ^ (mixed >> 31)) % bound

    def one_of(self, choices):
        return choices[self.below(len(choices))]


# The numerals that 01 names, and further readings of its rule, each with the value, suffix, base and reason found by hand.
STATED_NUMERALS = {
    "0x1felt": (1, 1, 16, 0), "0b12": (0, 0, 0, FORMAT), "0x": (0, 0, 0, FORMAT), "12u32x": (0, 0, 0, FORMAT),
    "18446744073709551615": (LARGEST_VALUE, 0, 10, 0), "18446744073709551616": (0, 0, 0, OVERFLOW),
    "99999999999999999999felt2": (0, 0, 0, OVERFLOW), "1felt2": (0, 0, 0, FORMAT), "12u8": (12, 3, 10, 0), "3u32": (3, 2, 10, 0),
    "1x": (1, 3, 10, 0), "0_felt": (0, 0, 0, FORMAT), "0_x": (0, 3, 10, 0), "1_0": (1, 3, 10, 0), "0b2": (0, 0, 0, FORMAT),
    "1_u32": (0, 0, 0, FORMAT), "12u32felt": (0, 0, 0, FORMAT), "1u32u32": (0, 0, 0, FORMAT), "0xfelt": (0, 0, 0, FORMAT),
    "99999999999999999999x": (0, 0, 0, OVERFLOW), "0": (0, 0, 10, 0), "0b101": (5, 0, 2, 0), "0B1": (1, 0, 2, 0), "0o17": (15, 0, 8, 0),
    "0O7felt": (7, 1, 8, 0), "0x10u32": (16, 2, 16, 0), "0XfF": (255, 0, 16, 0), "0xb1": (177, 0, 16, 0), "0b1b": (1, 3, 2, 0),
    "0o1x1": (1, 3, 8, 0), "00x1": (0, 3, 10, 0), "10b1": (10, 3, 10, 0), "0u32": (0, 2, 10, 0), "0B2": (0, 0, 0, FORMAT),
    "0O8": (0, 0, 0, FORMAT), "0Xg": (0, 0, 0, FORMAT), "0x10000000000000000": (0, 0, 0, OVERFLOW),
}

FURTHER_NUMERALS = """
0 00 007 7 9 10 1felt 1u32 1Felt 1U32 1FELT 1feltx 1xfelt 1xu32 1felt_ 1felt1 1u321 1u33 1u3 1fel 1f 1u 1_ 1__ 1e5 1i8
felt u32 0felt 0u32 00felt 0x0 0xf 0xF 0xFf 0Xff 0o17 0O17 0o8 0o18 0o78 0b0 0b1 0b2x 0B101 0b1012 0b1_0 0xg 0o 0b 0X 0O 0B
0xfeltfelt 0xfffelt 0xFFfelt 0xfeltu32 0xu32 0x1u32 0xu32felt 0o7felt 0o9felt 0b1felt 0b2felt 0b1u32 0b12u32 0o18u32
0xfelt1 0x1felt1 0x1u32x 0xfel 0x1fel 0xefelt 0xdeadbeef 0xDEADBEEFu32 0x_1 0x1_ 0x1_u32 0b_ 0o_7 0xx1 0x0x1 0b0b1
1felt1felt 1feltfelt 1u32felt 1feltu32 1u321u32 1felt1u32 1u321felt 12felt34felt 0felt0 9u32u3 1felu32t 1u3felt2 1feu32lt
18446744073709551615felt 18446744073709551615u32 18446744073709551616felt 18446744073709551616u32 18446744073709551615x
18446744073709551616x 18446744073709551619 18446744073709551620 18446744073709551625 28446744073709551615 99999999999999999999
18446744073709551615_ 018446744073709551615 000000000000000000000000000000000000001 100000000000000000000 99999999999999999999felt
99999999999999999999u32x 1844674407370955161x6felt 184467440737095516159xfelt 99999999999999999999_felt 9999999999999999999x9felt
0xffffffffffffffff 0x10000000000000000 0xfffffffffffffffff 0xFFFFFFFFFFFFFFFFfelt 0x10000000000000000u32 0x00000000000000000000f
0xffffffffffffffffgfelt 0xfffffffffffffffffgfelt 0xgfffffffffffffffffelt 0o1777777777777777777777 0o2000000000000000000000
0o17777777777777777777777u32 0o18777777777777777777777777
0b1111111111111111111111111111111111111111111111111111111111111111
0b10000000000000000000000000000000000000000000000000000000000000000
0b11111111111111111111111111111111111111111111111111111111111111112
0b1111111111111111111111111111111111111111111111111111111111111111felt
""".split()

# The texts that 01 names under 'Slips from habit' and 'Texts on the edge', and its example.
NAMED_TEXTS = [
    "", "const A = 1;", "0x1felt", "0b12", "0x", "12u32x", "18446744073709551615", "18446744073709551616",
    "99999999999999999999felt2", "1felt2", "if x {}", "if (x) {}", "a || b && c;", "const A = f( );", "let (a) = b;",
    "[1; 3u32];", "12u8;", "if (a) == (b) {}", "if a [12u8, 1];", "t.0u32", "a < b < c", "use m;", "use a::b::c;",
    "use a::{};", "@", "new ([T;1],)[1]", "fn f() { if x {} }", "fn f() { a || b && c; }",
    "const A = " + "(" * 63 + "1" + ")" * 63 + ";", "const A = " + "(" * 64 + "1" + ")" * 64 + ";",
]

# What stands between tokens, and where it ends.
SKIPPED_TEXTS = [
    " ", "\t", "\n", "\r", "\r\n", " \t\r\n ", "//", "///", "// ", "//\n", "//\r", "//\r\n", "// a\ra", "// a\na", "/ /", "/",
    "a//b\nc", "a// b // c", "a/b", "a / b", "a/ /b", "1//2\n3", "//\u00e9\u20ac\U0001d11e\na", "//@\n@", "/*a*/", "a\x0bb",
    "a\x0cb", "\ufeff", "\ufeffconst", "a\u00a0b", "\u2028", "//\u2028a", "//\x00\x01\x7f\n;", "\x00", "a\x00b",
]

# Characters that begin no token.
ODD = ["@", "#", "$", "?", "\\", "'", '"', "`", "~", "\x00", "\x0b", "\x0c", "\x1f", "\x7f", "\u0080", "\u00e9", "\u07ff",
       "\u0800", "\u20ac", "\ud7ff", "\ue000", "\ufeff", "\uffff", "\U00010000", "\U0001f600", "\U0010ffff"]


def raw(code, size):
    """A code point laid out in a given number of bytes, whether or not RFC 3629 allows it."""
    if size == 1:
        return bytes([code])
    lead = {2: 0xC0, 3: 0xE0, 4: 0xF0, 5: 0xF8, 6: 0xFC}[size]
    tail = [0x80 | (code >> (6 * place)) & 0x3F for place in range(size - 1)][::-1]
    return bytes([lead | code >> (6 * (size - 1))] + tail)


def utf8_sequences():
    ends = [(0x00, 1), (0x7F, 1), (0x80, 2), (0x7FF, 2), (0x800, 3), (0xFFFF, 3), (0x10000, 4), (0x10FFFF, 4)]
    near = [(0xFFF, 3), (0x1000, 3), (0xCFFF, 3), (0xD7FF, 3), (0xD800, 3), (0xD801, 3), (0xDBFE, 3), (0xDBFF, 3), (0xDC00, 3),
            (0xDC01, 3), (0xDFFE, 3), (0xDFFF, 3), (0xE000, 3), (0x3FFFF, 4), (0x40000, 4), (0xFFFFF, 4), (0x100000, 4)]
    past = [(0x110000, 4), (0x13FFFF, 4), (0x140000, 4), (0x1FFFFF, 4), (0x200000, 5), (0x3FFFFFF, 5), (0x4000000, 6),
            (0x7FFFFFFF, 6)]
    overlong = [(code, size) for code, least in ends for size in range(least + 1, 7)]
    overlong += [(0x3FF, 3), (0x7FFF, 4), (0xD800, 4), (0xDFFF, 4)]
    yield from (raw(code, size) for code, size in ends + near + past + overlong)
    for lead in list(range(0xC0, 0xC3)) + list(range(0xF4, 0x100)):
        yield bytes([lead, 0x80, 0x80, 0x80])
        yield bytes([lead, 0xBF])
    for whole in (b"\xc2\x80", b"\xdf\xbf", b"\xe0\xa0\x80", b"\xe1\x80\x80", b"\xed\x9f\xbf", b"\xef\xbf\xbf",
                  b"\xf0\x90\x80\x80", b"\xf1\x80\x80\x80", b"\xf4\x8f\xbf\xbf"):
        for cut in range(1, len(whole)):
            yield whole[:cut]
            yield whole[:cut] + b"a"
            yield whole[:cut] + whole
            for wrong in (0x00, 0x7F, 0xC0, 0xFF):
                yield whole[:cut] + bytes([wrong]) + whole[cut + 1:]
        yield whole + b"\x80"
        yield whole + whole
    yield from (b"\x80", b"\xbf", b"a\x80", b"\xe0\x9f\xbf", b"\xed\xa0\x80", b"\xf0\x8f\xbf\xbf", b"\xf4\x90\x80\x80", b"\xfe\xff",
                b"\xff\xfe", b"\xed\xa0\xbd\xed\xb8\x80", b"\xc3\xa9\xe2\x82\xac\xf0\x9d\x84\x9e")


def piece(chance):
    """One part of a mixed text, with a kind of its own."""
    which = chance.below(16)
    if which < 4:
        return chance.one_of(MARKS)[1]
    if which < 6:
        return chance.one_of(KEYWORDS)[1]
    if which < 9:
        letters = "abcxfeltu_AZ019"
        return chance.one_of("abxfu_AZ") + "".join(chance.one_of(letters) for _ in range(chance.below(9)))
    if which < 12:
        return good_numeral(chance)
    if which < 15:
        return chance.one_of([" ", "\n", "\t", "\r\n", "  ", " \n "])
    inside = "".join(chance.one_of(["a", " ", "/", "1", "@", "\r", "\u00e9", "\u20ac", "\U0001f600"]) for _ in range(chance.below(8)))
    return "//" + inside + "\n"


def good_numeral(chance):
    prefix, digits = chance.one_of([("", "0123456789"), ("", "0123456789"), ("0x", "019afAF"), ("0o", "0127"), ("0B", "01")])
    body = "".join(chance.one_of(digits) for _ in range(1 + chance.below(12)))
    return prefix + body + chance.one_of(["", "", "felt", "u32", "_x"])


def any_numeral(chance):
    """A spelling of parts that the cut rule looks at, with an error in about half of them."""
    parts = ["felt", "felt", "u32", "u32", "0", "1", "7", "9", "12", "x", "f", "ff", "_", "fel", "u3", "2", "g",
             "18446744073709551615", "1844674407370955161", "ffffffffffffffff"]
    head = chance.one_of(["", "", "0x", "0X", "0o", "0b"]) + chance.one_of(["1", "0", "7", "12", "99999999999999999999", "1ff"])
    return head + "".join(chance.one_of(parts) for _ in range(chance.below(5))) + chance.one_of(["", "", "felt", "u32"])


def mixed_text(chance):
    return "".join(piece(chance) + chance.one_of(["", " "]) for _ in range(1 + chance.below(24)))


def mixed_texts():
    chance = Chance(3629)
    for _ in range(160):
        yield mixed_text(chance).encode()
    for _ in range(120):
        parts = [piece(chance) for _ in range(1 + chance.below(16))]
        for _ in range(1 + chance.below(4)):
            parts.insert(chance.below(len(parts) + 1), chance.one_of(ODD) if chance.below(2) else any_numeral(chance))
        yield "".join(parts).encode()
    for _ in range(120):
        parts = [piece(chance) for _ in range(1 + chance.below(10))]
        parts.insert(chance.below(len(parts) + 1), "//" + "".join(chance.one_of(ODD[14:]) for _ in range(1 + chance.below(6))) + "\n")
        text = bytearray("".join(parts).encode())
        for _ in range(1 + chance.below(2)):
            at = chance.below(len(text))
            way = chance.below(3)
            if way == 0:
                del text[at]
            elif way == 1:
                text.insert(at, chance.below(256))
            else:
                text[at] = chance.below(256)
            text = text or bytearray(b";")
        yield bytes(text)


def room_cases(cases):
    five, errors = b"let a = 1u32;", b"@ 1felt2 a \xc3\xa9 99999999999999999999 0b12"
    for text in (b"", b"a", five, b"a" + b"+a" * 20):
        need = 16 * len(lex_all(text)[0])
        lengths = {0, 1, 15, 16, 17, 31} | {need + step for step in (-17, -16, -15, -1, 0, 1, 8, 15, 16, 17, 100)}
        for length in sorted(length for length in lengths if length >= 0):
            for diagnostic_bytes in (0, 9):
                cases.lex(text, length, diagnostic_bytes)
    for text in (b"@", errors, b"$" * 20 + b"a"):
        need = 8 * len(lex_all(text)[1])
        lengths = {0, 1, 7, 8, 9, 15} | {need + step for step in (-9, -8, -7, -1, 0, 1, 4, 7, 8, 9, 50)}
        for length in sorted(length for length in lengths if length >= 0):
            for token_bytes in (0, 33):
                cases.lex(text, token_bytes, length)
    for token_bytes in (0, 5, 16, 40):
        for diagnostic_bytes in (0, 5, 8, 20):
            cases.lex(b"a b c \xff @", token_bytes, diagnostic_bytes)
            cases.lex(b"a b c @ d", token_bytes, diagnostic_bytes)
            cases.lex(b"a b c d", token_bytes, diagnostic_bytes)


def long_cases(cases):
    for text in (b" " * 65535, b" " * 65536, b" " * 65534 + b"a", b" " * 65535 + b"a", b"a" * 65535, b"a" * 65536, b"0" * 65535,
                 b"1" * 65535, b"1" * 65531 + b"felt", b"0" * 65530 + b"7felt", b"0" * 65532 + b"u32", b"\xff" * 65535,
                 b"\xff" * 65536, b"@" * 65535, b"@" * 65536, b"." * 65535, b" " * 65534 + b"\xc3\xa9", b" " * 65533 + b"\xc3\xa9",
                 b" " * 65533 + b"\xc3", b"//" + b"\xc2" * 40, b"//" + b" " * 65533, b"//" + b" " * 65533 + b"\n",
                 b"const A = 1;" + b"\n" * 65523, b" " * 65533 + b"::", b" " * 65529 + b"return"):
        cases.lex(text)
        cases.utf8(text)
    for spelling in (b"0" * 65535, b"0" * 65536, b"1" * 65535, b"a" * 65535, b"a" * 65536, b"0" * 65534 + b"7", b"0" * 65530 + b"9felt",
                     b"0" * 65531 + b"9felt", b"1" + b"x" * 65534, b"0x" + b"f" * 65533, b"0x" + b"0" * 65532 + b"f", b"1" + b"felt" * 100):
        cases.numeral(spelling)


def number_cases(cases):
    """How often a byte stands, above 64 bits: the digits that do not fit are passed over, so the text fills the program's place."""
    outcome, value, suffix, base, reason = numeral_entry(b"1" * 65600)
    cases.line("n 31*99999999999999999999.", f"n {outcome} {value} {suffix} {base} {reason} long")
    cases.line("u 61*18446744073709551616.", "u 1 1")


def all_cases():
    cases = Cases()

    cases.section("numerals with an answer found by hand")
    for spelling, stated in STATED_NUMERALS.items():
        if parse_numeral(spelling) != stated:
            raise SystemExit(f"expected.py: {spelling} is {parse_numeral(spelling)}, and was found by hand to be {stated}")
        cases.numeral(spelling.encode())
        cases.lex(spelling.encode())

    cases.section("further numerals")
    for spelling in FURTHER_NUMERALS:
        cases.numeral(spelling.encode())
        cases.lex(b"a " + spelling.encode() + b".")

    cases.section("every base in both cases of its letter, with every suffix")
    for prefix in ("", "0x", "0X", "0o", "0O", "0b", "0B"):
        for digits in ("0", "1", "10", "2", "7", "8", "9", "f", "F", "g"):
            for suffix in ("", "felt", "u32", "x", "_8"):
                cases.numeral((prefix + digits + suffix).encode())
    for letters in ("xob", "XOB"):
        numerals = ["1"] + [f"0{letter}1" for letter in letters]
        for suffix in ("", "felt", "u32", "x"):
            cases.lex(" ".join(numeral + suffix for numeral in numerals).encode())
            cases.lex(f"[a; {numerals[1]}{suffix}] == t.{numerals[2]}{suffix} && true != {numerals[3]}{suffix}".encode())

    cases.section("spellings of no numeral")
    for spelling in (b"", b"a", b"_", b"_1", b"x1", b" 1", b"1 ", b"1.", b"-1", b"+1", b"1\n", b"1\x00", b"1\xc3\xa9", b"\xff", b"1felt ",
                     b"1-felt", b"0x1.", b"\xd9\xa1", b"1\xd9\xa1", b"0x\xef\xbc\x91", b"1/", b"1:", b"1@", b"1[", b"1`", b"1{", b"/1", b":1"):
        cases.numeral(spelling)

    cases.section("texts that 01 names")
    for text in NAMED_TEXTS:
        cases.lex(text.encode())

    cases.section("skipped texts")
    for text in SKIPPED_TEXTS:
        cases.lex(text.encode())

    cases.section("single bytes")
    for byte in range(256):
        cases.utf8(bytes([byte]))
        cases.lex(bytes([byte]))
        cases.numeral(b"1" + bytes([byte]))

    cases.section("characters that begin no token")
    for odd in ODD:
        cases.lex(f"a{odd}b".encode())
        cases.lex(f"{odd}{odd}".encode())
        cases.lex(f"1{odd}felt".encode())
        cases.lex(f"/{odd}//{odd}".encode())

    cases.section("sequences of UTF-8 and their damages: alone, in a comment, after a token")
    cases.utf8(b"")
    seen = set()
    for text in utf8_sequences():
        if text in seen:
            continue
        seen.add(text)
        for around in (text, b"//" + text + b"\n;", b"a" + text):
            cases.utf8(around)
            cases.lex(around)

    cases.section("every kind of token")
    for kind, word in [("LiteralNumber", "1"), ("Identifier", "a")] + KEYWORDS + MARKS:
        cases.lex(word.encode())
        cases.lex(f" {word}\n{word}\t".encode())

    cases.section("keywords with something added")
    for _, word in KEYWORDS:
        for text in (f"a{word}", f"{word}a", f"_{word}", f"{word}_", f"{word}1", f"1{word}", f"{word.upper()}", f"{word[:-1]}",
                     f"{word}{word}", f"{word.capitalize()}", f"{word}.{word}", f"({word})", f"{word}//{word}"):
            cases.lex(text.encode())
        for other in ("if", "in", "fn"):
            cases.lex(f"{word}{other} {word} {other}".encode())

    cases.section("pairs of marks")
    for _, first in MARKS:
        for _, second in MARKS:
            cases.lex((first + second).encode())

    cases.section("runs of marks")
    for run in ("&&&", "|||", "===", "!==", "<==", ">==", "->>", "-->", ":::", "::::", "....", "<=>", "!!=", "=>", "=<", "<-", "<<=",
                "+=", "-=-", "&|&", "^^", "%%", ";;", ",,", "()[]{}", "/ //", "*/", "=!=", "!=!", "&=&&", "->-", "- >", ": :", "= ="):
        cases.lex(run.encode())

    cases.section("small tables")
    room_cases(cases)

    cases.section("mixed texts, sound and damaged")
    for text in mixed_texts():
        cases.lex(text)

    cases.section("mixed numerals")
    chance = Chance(1)
    for _ in range(200):
        cases.numeral(any_numeral(chance).encode())

    cases.section("the longest texts")
    long_cases(cases)

    cases.section("numbers that do not fit")
    number_cases(cases)
    return cases


def cairolex_text():
    """The text that cairolex is run on: every kind of token, both suffixes and another, every base, the largest value."""
    words = " ".join(word for _, word in KEYWORDS)
    marks = " ".join(mark for _, mark in MARKS)
    example = (ROOT / "examples" / "fibonacci.cm").read_bytes()
    return example + f"{words}\n{marks}\n0 0x1felt 12u32 12u8 18446744073709551615 0b101 0O17 0XfFu32 // \u00e9 \u20ac\n_end".encode()


def files():
    given, owed = all_cases().files()
    text = cairolex_text()
    return {
        "crates/lexer_cases/stdin": given.encode(),
        "crates/lexer_cases/stdout": owed.encode(),
        "crates/cairolex/stdin": text,
        "crates/cairolex/stdout": json_line(text).encode(),
    }


# ---- the commands


def check(contents):
    script, differing = Path(sys.argv[0]).name, []
    for name, content in contents.items():
        path = ROOT / name
        if not path.is_file() or path.read_bytes() != content:
            differing.append(name)
    for name in differing:
        print(f"{script}: {name} is not what {script} writes")
    if not differing:
        print(f"{script}: the case files are what it writes")
    return 1 if differing else 0


def source(path):
    """Whether lexer.rs has the patterns, words and order of the tables above."""
    text = Path(path).read_text()
    skips = re.findall(r'#\[logos\(skip r"([^"]*)"\)\]', text)
    body = text[text.index("pub enum TokenType"):]
    found = []
    for attribute, regex, token, kind in re.findall(
            r'#\[(regex\(\s*r"([^"]*)"[^\]]*?\)|token\("([^"]*)"\))\]\s*(\w+)', body[:body.index("\n}\n")], re.S):
        found.append((kind, regex or token))
    owed = [("LiteralNumber", "(" + "|".join(NUMERALS) + ")(" + NAME + ")?")] + KEYWORDS + [("Identifier", NAME)] + MARKS
    if skips != SKIPS or found != owed:
        print("expected.py: lexer.rs has other patterns than expected.py")
        for one, other in zip(found, owed):
            if one != other:
                print(f"  {one} {other}")
        return 1
    print(f"expected.py: lexer.rs has the same {len(found)} patterns in the same order, and the same {len(skips)} skips")
    return 0


def texts(folder):
    """Texts with an outcome of each kind for the program, which can be run on one text alone by its own test."""
    named = {
        "empty": b"", "character": b"@", "overflow": b"18446744073709551616", "format": b"1felt2", "several": b"a @ 0b12 \xc3\xa9 $",
        "encoding": b"a\xff", "cut": b"// \xe2\x82", "spaces": b" " * 65535, "long": b" " * 65536, "longer": b" " * 70000,
        "far": b" " * 65528 + b"1u32 @\n", "last": b" " * 65529 + b"return", "largest": b"18446744073709551615felt 0xffffffffffffffffu8",
        "room": b"a " * 1024, "no_room": b"a " * 1025, "many_tokens": b";" * 65535, "errors": b"@" * 1024, "more_errors": b"@a" * 1030,
    }
    for path in sorted((ROOT / "examples").glob("*.cm")):
        named[path.stem] = path.read_bytes()
    for number, text in enumerate(mixed_texts()):
        if number % 8 == 0:
            named[f"mixed_{number}"] = text
    Path(folder).mkdir(parents=True, exist_ok=True)
    for name, text in named.items():
        Path(folder, name).write_bytes(text)
        Path(folder, name + ".owed").write_text(json_line(text))
    return 0


def write(contents):
    for name, content in contents.items():
        path = ROOT / name
        path.parent.mkdir(parents=True, exist_ok=True)
        path.write_bytes(content)
    return 0


def main(words):
    if words == []:
        return write(files())
    if words == ["--check"]:
        return check(files())
    if len(words) == 2 and words[0] == "--source":
        return source(words[1])
    if len(words) == 2 and words[0] == "--texts":
        return texts(words[1])
    print(__doc__)
    return 2


if __name__ == "__main__":
    sys.exit(main(sys.argv[1:]))
