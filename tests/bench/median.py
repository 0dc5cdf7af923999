#!/usr/bin/env python3
"""One table of several: prints the first file with each number that differs between the files replaced by the median of all.

    tests/bench/median.py FILE..

The files are what tests/bench/compare.rs or older.c prints: the same lines but for what was measured.
"""

import re
import statistics
import sys

NUMBER = re.compile(r"\d+(?:\.\d+)?")


def merged(lines):
    """A line of each file, which may differ in numbers alone."""
    if len({NUMBER.sub("#", line) for line in lines}) != 1:
        sys.exit(f"not the same tables: {lines}")
    columns = zip(*(NUMBER.findall(line) for line in lines))
    numbers = []
    for column in columns:
        places = len(column[0].partition(".")[2])
        numbers.append(column[0] if len(set(column)) == 1 else f"{statistics.median(map(float, column)):.{places}f}")
    return NUMBER.sub(lambda found: numbers.pop(0), lines[0])


def main():
    texts = [open(name, encoding="utf-8").read().splitlines() for name in sys.argv[1:]]
    if not texts or len({len(text) for text in texts}) != 1:
        sys.exit("usage: median.py FILE.., of as many lines each")
    for lines in zip(*texts):
        print(merged(lines))


main()
