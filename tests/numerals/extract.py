#!/usr/bin/env python3
"""extract.py LEXER_RS OUT: write the items of lexer.rs that read a numeral to OUT, unchanged."""

import sys
from pathlib import Path

ITEMS = ["pub const VALID_SUFFIXES", "pub struct NumberLiteral", "pub enum LexingError", "pub enum NumberParseError",
         "fn parse_number_literal"]


def item(lines, head):
    """The lines of an item with the attributes and comments above it."""
    starts = [at for at, line in enumerate(lines) if line.startswith(head)]
    if len(starts) != 1:
        raise SystemExit(f"extract.py: {head} stands {len(starts)} times in lexer.rs")
    first = last = starts[0]
    while first > 0 and lines[first - 1].startswith(("#[", "///")):
        first -= 1
    while not (lines[last] == "}" or lines[last].endswith(";") and lines[last][0] != " "):
        last += 1
    return lines[first:last + 1]


def main(source, out):
    lines = Path(source).read_text().split("\n")
    Path(out).write_text("\n\n".join("\n".join(item(lines, head)) for head in ITEMS) + "\n")


if __name__ == "__main__":
    main(*sys.argv[1:])
