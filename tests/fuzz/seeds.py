#!/usr/bin/env python3
"""Writes the inputs that the fuzzer begins with: the examples, and the texts and small node tables of tests/reading/cases, each with
a head.

    seeds.py FOLDER
"""
import pathlib
import re
import struct
import sys

ROOT = pathlib.Path(__file__).resolve().parents[2]
LONGEST = 4000
# read again and again up to each of the lengths that a head can choose
REPEATED = [b"const A = 1;\n", b"fn f() { a = 1u8; } ", b"@ ", b"-", bytes([1, 0, 5, 0, 9, 0, 1, 0]) + bytes([255] * 8),
            b"const A: [T; 0x3] = [0b1; 0O7]; ", bytes([8] + [255] * 15)]


def spelled(line, bases):
    """A text as reading_expected.py spells it: \\\\ \\n \\xHH, a part N times, a part of a base."""
    text, start, times = bytearray(), 0, 1
    at = 0
    while at < len(line):
        if line[at] != 0x5C:
            text.append(line[at])
            at += 1
            continue
        rest = line[at:]
        if part := re.match(rb"\\\\|\\n", rest):
            text += b"\n" if part.group() == b"\\n" else b"\\"
        elif part := re.match(rb"\\x([0-9a-f]{2})", rest):
            text.append(int(part.group(1), 16))
        elif part := re.match(rb"\\\*(\d+)\(", rest):
            start, times = len(text), int(part.group(1))
        elif part := re.match(rb"\\\)", rest):
            text += bytes(text[start:]) * (times - 1)
        elif part := re.match(rb"\\<(\d+):(\d+):(\d+)>", rest):
            base, low, high = map(int, part.groups())
            text += bases[base][low:high]
        else:
            raise ValueError(line)
        at += part.end()
    return bytes(text)


def texts():
    for file in sorted((ROOT / "examples").glob("*.cm")):
        yield file.read_bytes()
    bases = []
    for line in (ROOT / "tests/reading/cases").read_bytes().splitlines():
        if line.startswith(b"b "):
            bases.append(spelled(line[2:], bases))
        elif found := re.match(rb"r \d+ \d+ \d+ \d+ ", line):
            yield spelled(line[found.end() :], bases)
        elif found := re.match(rb"h \d+ \d+ (\d{2,3}) ", line):
            yield table(line[found.end() :].split())[: int(found.group(1))]


def table(entries):
    """A node table, which is a text too; an entry that repeats stands in it once."""
    nodes = [map(int, entry.split(b"*")[0].split(b",")) for entry in entries]
    return b"".join(struct.pack("<BBHHHQ", kind, base, start, end, children, value) for kind, start, end, children, value, base in nodes)


def main():
    folder = pathlib.Path(sys.argv[1])
    folder.mkdir(parents=True, exist_ok=True)
    count = 0
    for i, text in enumerate(dict.fromkeys(texts())):
        if len(text) > LONGEST:
            continue
        # heads that lend each size in turn; the byte that repeats the text stays 0
        head = bytes([i * 7 % 256, i * 11 % 256, i * 13 % 256, i * 17 % 256, i * 29 % 256, 0, i * 5 % 256, i * 3 % 256])
        (folder / f"seed{i:05}").write_bytes(head + text)
        count += 1
    for i, text in enumerate(REPEATED):
        for length in range(8):
            (folder / f"repeated{i}{length}").write_bytes(bytes([length * 9, i * 8, 1, 0, 90 + i, 0xF8 + length, 3, i]) + text)
            count += 1
    print(f"seeds: {count}")


if __name__ == "__main__":
    main()
