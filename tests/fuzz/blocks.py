#!/usr/bin/env python3
"""Prints where the blocks of the archive's machine code begin in a program linked with it.

    blocks.py PROGRAM

A line is the distance from cairo_m_read in bytes and the function. A block begins at a function's first instruction, at each place a
jump names, and after each jump and return. Places that only a jump through a table reaches are found where a jump or a return stands
right before them, which is most of them.
"""
import re
import subprocess
import sys


def of_archive(name):
    """The archive's functions: its entries, and names of crates."""
    return name.startswith("cairo_m_") or "::" in name


def main():
    listing = subprocess.run(["objdump", "-d", "--no-show-raw-insn", sys.argv[1]], check=True, capture_output=True, text=True).stdout
    function, origin, after_jump = None, None, False
    places, starts = {}, set()
    for line in listing.splitlines():
        head = re.match(r"([0-9a-f]+) <(.*)>:$", line)
        if head:
            function = head.group(2) if of_archive(head.group(2)) else None
            if head.group(2) == "cairo_m_read":
                origin = int(head.group(1), 16)
            after_jump = True
            continue
        step = re.match(r" *([0-9a-f]+):\t(\S+) *(.*)$", line)
        if not step or function is None:
            continue
        at, word, rest = int(step.group(1), 16), step.group(2), step.group(3)
        places[at] = function
        if after_jump and not word.startswith(("nop", "cs", "data16", "xchg", "int3")):
            starts.add(at)
            after_jump = False
        if word.startswith("j") or word.startswith("ret"):
            after_jump = True
            target = re.match(r"([0-9a-f]+) <", rest)
            if target:
                starts.add(int(target.group(1), 16))
    for at in sorted(starts & set(places)):
        print(at - origin, places[at])


if __name__ == "__main__":
    main()
