#!/usr/bin/env python3
"""What each function of a crate costs the checker, in seconds.

  in crates/CRATE, after any change of a source: rm -r out/incremental; mkdir out/incremental; rt check --jobs 1; ../../tools/costs.py CRATE [N]

The checker saves each module as it is done with it, so the time between two files is what the later one took. A function's modules
are counted together; a function of a cycle of calls stands as +CYCLE.Lts-FUNCTION, and what the cycle has in common as +CYCLE. Without
a change of a source the check begins with what it kept of another checkout of the same crate, and the times say nothing.
"""
import collections
import re
import sys
from pathlib import Path

TOP = Path(__file__).resolve().parent.parent


def main(crate, count=20):
    saved = sorted((path.stat().st_mtime_ns, path.name) for path in (TOP / "crates" / crate / "out/incremental").rglob("*.oantt"))
    costs, last = collections.Counter(), saved[0][0] if saved else 0
    for time, name in saved:
        module = re.sub(r"(\.decls)?\.oantt$", "", name).removeprefix("Rattle-")
        costs[re.sub(r"\.[A-Z]\w*$", "", module) or module] += (time - last) / 1e9
        last = time
    print(f"{sum(costs.values()):8.2f} {crate}")
    for module, seconds in costs.most_common(int(count)):
        print(f"{seconds:8.2f} {module}")


if __name__ == "__main__":
    if len(sys.argv) not in (2, 3):
        sys.exit(__doc__)
    main(*sys.argv[1:])
