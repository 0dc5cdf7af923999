#!/usr/bin/env python3
"""Brings the repository's own names in antt to the library's spelling, in place.

Words are in snake case: definitions, lemmas, fields, constructors, what a section or a `where` declares. Types, modules and the numbers of
the node kinds keep their capitals. Run once, at the top, on what the kit's own scripts left; it prints where two names of one file fall together
(a name of a function in a path or a comment is none), and APART has what was chosen for those that did.
"""

import os
import re
import sys

DECLARED = re.compile(r"^( *)((?:abbrev |unfoldable |pub )*)(record |data )?([^\s:(){}|,.;\[\]]+(?: +[^\s:(){}|,.;\[\]=]+)*) *(?::|\(|\{)")
WORDS = {"let", "in", "use", "module", "mod", "where", "unfolding", "infixr", "infixl", "infix", "elim", "record", "rw", "=", "abbrev", "pub", "data"}
TOKEN = re.compile(r"[^\s(){}.,;:=\[\]|\"`]+")
SKIPPED = ("out", "target", ".git")
# names that would fall together with another
APART = {
    "allKnown": "all_are_known",
    "answer-of": "answer_of_is",
    "call-end": "ends_call",
    "literal-kind": "kind_of_literal",
    "reason-of": "reason_of_is",
    "token-table": "table_of_tokens",
    "tokens-in": "tokens_lie_in",
    "unknown-suffix": "suffix_unknown",
}


def files(root, endings):
    for folder, dirs, names in os.walk(root):
        dirs[:] = sorted(d for d in dirs if d not in SKIPPED)
        for name in sorted(names):
            if name.endswith(endings):
                yield os.path.join(folder, name)


def snake(name):
    name = re.sub(r"(?<=[a-z0-9])([A-Z])", lambda m: "_" + m.group(1).lower(), name)
    return name.replace("-", "_").replace("′", "'")


def is_type(name):
    return bool(re.match(r"[A-Z]", name))


LIBRARY = re.compile(r"use (?:[a-z]\w*|Prim|Rattle\.std)\.[\w.]+\.\{([^}]*)\}")


def declared():
    """Each own name: what a line of an antt file declares, but for what one imports from a library, as a call can stand first in a line."""
    found, imported = set(), set()
    for path in files("crates", ".antt"):
        text = open(path, encoding="utf-8").read()
        for m in LIBRARY.finditer(text):
            imported.update(n.split(" as ")[0].strip() for n in m.group(1).split(","))
        for line in text.splitlines():
            if line.lstrip().startswith("--") or not line.strip():
                continue
            m = DECLARED.match(line)
            if not m:
                continue
            names = m.group(4).split()
            if names[0] in WORDS or any(n in ("=", "→", "×", "≡", "↦", "λ") for n in names):
                continue
            for name in names:
                if name not in WORDS:
                    found.add(name)
    return found - imported


def new_names(found):
    names = {}
    for name in sorted(found):
        if not re.search(r"\w-|\w′|[a-z0-9][A-Z]", name) or name.startswith(("Inv-", "μ-", "+")):
            continue
        if name.startswith("◌"):
            # an operator, and the word that is written between its arguments
            names[name.strip("◌")] = snake(name.strip("◌"))
            names[name] = snake(name)
            continue
        if is_type(name):
            new = re.sub(r"-(\w)", lambda m: m.group(1).upper(), name)
        else:
            new = APART.get(name, snake(name))
        if new != name:
            names[name] = new
    return names


def respell(text, names):
    return TOKEN.sub(lambda m: names.get(m.group(0), m.group(0)), text)


def main():
    found = declared()
    names = new_names(found)
    bad = []
    texts = {}
    for path in files("crates", (".antt", ".rt", ".edit")):
        with open(path, encoding="utf-8") as f:
            text = f.read()
        # a name that the file has already, beside one that becomes it
        here = set(TOKEN.findall(text))
        for old, new in names.items():
            if old in here and new in here and path.endswith(".antt"):
                bad.append(f"{path}: {old} becomes {new}, which is there")
        for new in {names[o] for o in here if o in names}:
            olds = [o for o in here if names.get(o) == new]
            if len(olds) > 1:
                bad.append(f"{path}: {' and '.join(sorted(olds))} become {new}")
        if path.endswith(".rt"):
            for old in here & set(names):
                if re.search(r"\b(?:let(?: mut)?|fn)? ?%s: " % re.escape(names[old]), text):
                    bad.append(f"{path}: {old} becomes {names[old]}, a parameter's or a field's name")
        texts[path] = (text, respell(text, names))
    print("\n".join(bad))
    if "--names" in sys.argv[1:]:
        print("\n".join(f"{o} {n}" for o, n in names.items()))
        return 0
    changed = 0
    for path, (text, new) in texts.items():
        if new != text:
            changed += 1
            with open(path, "w", encoding="utf-8") as f:
                f.write(new)
    print(f"respell: {len(names)} names, {changed} files")
    return 0


if __name__ == "__main__":
    sys.exit(main())
