#!/usr/bin/env python3
"""Lists the functions of src/: what docs/DESIGN-PASS.md counts by.

usage: signatures.py [COMMIT]            each function with its parameters and its result
       signatures.py [COMMIT] together   parameters that stand side by side in three functions or more, by their names
       signatures.py [COMMIT] twins      functions that are alike but for names and numbers, tests' data and contracts left out
       signatures.py [COMMIT] facts      clauses of `requires` that stand in three contracts or more"""
import glob, itertools, os, re, subprocess, sys
from collections import defaultdict

TOP = os.path.dirname(os.path.dirname(os.path.abspath(__file__)))
FN = re.compile(r'^( *)(?:pub |pub\(crate\) )?(?:final )?(?:extern "C" )?fn (\w+)(?:<[^>]*>)?\((.*?)\)(?: -> ([^\n{]*?))?\s*\n?((?:[^\n]*(?:requires|ensures|where)[^\n]*\n)*)\1\{\n(.*?)^\1\}\n|^( *)(?:pub |pub\(crate\) )?fn (\w+)(?:<[^>]*>)?\((.*?)\)(?: -> ([^\n{]*?))? \{\n(.*?)^\7\}\n', re.M | re.S)
WORD = re.compile(r"[A-Za-z_]\w*|\d\w*|b?\"(?:[^\"\\]|\\.)*\"|b?'(?:[^'\\]|\\.)+'")


def sources(commit):
    git = lambda *a: subprocess.run(["git", "-C", TOP, *a], capture_output=True, text=True, check=True).stdout
    if commit:
        for f in git("ls-tree", "-r", "--name-only", commit, "crates").split():
            if re.fullmatch(r"crates/\w+/src/.*\.rt", f): yield f, git("show", f"{commit}:{f}")
    else:
        for f in sorted(glob.glob(os.path.join(TOP, "crates/*/src/**/*.rt"), recursive=True)): yield os.path.relpath(f, TOP), open(f).read()


def functions(commit):
    for path, text in sources(commit):
        for m in FN.finditer(text):
            name, params, result, clauses, body = (m.group(2), m.group(3), m.group(4), m.group(5), m.group(6)) if m.group(2) else (m.group(8), m.group(9), m.group(10), "", m.group(11))
            yield path, name, [re.sub(r"\s+", " ", p).strip() for p in params.split(",") if p.strip()], (result or "").strip(), clauses or "", body


def alike(text):
    """the text with each name by the place where it first stands, and each number the same"""
    seen = {}
    return WORD.sub(lambda m: "0" if m.group(0)[0].isdigit() or m.group(0)[0] in "b\"'" and not m.group(0).isidentifier() else seen.setdefault(m.group(0), f"x{len(seen)}"), re.sub(r"//[^\n]*|\s+", " ", text))


def main():
    words = sys.argv[1:]
    how = words.pop() if words and words[-1] in ("together", "twins", "facts") else ""
    fns = list(functions(words[0] if words else None))
    where = lambda f: f"{f[0].split('/')[1]}::{f[1]}"
    if how == "together":
        names = {where(f) + f"#{n}": [p.split(":")[0].replace("mut ", "").strip() for p in f[2]] for n, f in enumerate(fns)}
        found = defaultdict(set)
        for at, ps in names.items():
            for n in range(2, len(ps) + 1):
                for i in range(len(ps) - n + 1): found[tuple(ps[i:i + n])].add(at)
        for ps, at in sorted(found.items(), key=lambda x: (-len(x[1]), x[0])):
            # a longer run in as many functions says it
            if len(at) >= 3 and not any(len(q) > len(ps) and set(found[q]) == set(at) for q in found): print(len(at), ", ".join(ps))
    elif how:
        groups = defaultdict(list)
        for f in fns:
            if how == "twins" and f[5].count("\n") > 1: groups[alike(f[5])].append(where(f))
            if how == "facts":
                for c in re.findall(r"requires[^{\n]*\{ (.*?) \}\n", f[4]): groups[c].append(where(f))
        for text, fs in sorted(groups.items(), key=lambda x: -len(x[1])):
            if len(fs) >= (2 if how == "twins" else 3): print(len(fs), *([text + ":"] if how == "facts" else []), " ".join(fs))
    else:
        for f in fns: print(f"{where(f)}({', '.join(f[2])}) -> {f[3] or '()'}")
        print(len(fns), "functions")

if __name__ == "__main__": main()
