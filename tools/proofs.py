#!/usr/bin/env python3
"""Writes the proof files of the readers (crates/{expressions,statements,parser}/proofs/**/{Invariants,Answers}.antt) from tools/readers.txt.

A recipe says, for each return of a reader, its grammar rule in laws: the name of a call, a test or a loop stands for
what it ensures, says or keeps. This puts the names that the checker has for those facts (tools/places.txt) in their place, and
answers the goals that are alike in all readers: that the measure falls at a call within a cycle and in a loop.
What a call requires and that sums fit are goals that the checker proves by itself.

usage: proofs.py          write the files
       proofs.py check    say which files differ from what would be written, and fail if one does
       proofs.py places CRATE
                          write tools/places.txt anew for a crate, after a change of its readers' code (seconds; the crates below are proved)"""
import glob, json, os, re, subprocess, sys, tempfile

TOP = os.path.dirname(os.path.dirname(os.path.abspath(__file__)))
# the steps that readers are made of, and the readers, lowest first
STEPS, CRATES = "cursor", ("expressions", "statements", "parser")
folder = lambda crate: os.path.join(TOP, "crates", crate)
# a contract's relation: the law that makes a reading of it, and the law that says how far on it is
READ = {"Parses": ("", "on"), "Grown": ("one_grown", "on_grown"), "Step": ("one_step", "on_step"), "Free": ("one_free", "on_free")}
# what makes it of a reading of any text, and of what else it is of any
MAKE = {"Grown": "grown (λ text w. ", "Step": "steps (λ text T. ", "Free": "free (λ text w T. "}
# calls that read nothing by themselves
PLAIN = ("rewind", "enter", "leave", "skip", "peek", "second", "is", "is_binary_op", "of", "begin", "ended", "ended_with", "join", "deeper", "type_name")
# a reader that begins so does nothing where nothing is being read
# a test by a call, or by one that is denied: the law for what it tells where it holds and where it does not
TELLS = {"eq": ("same", "not_same"), "ne": ("differs", "no_other"), "is": ("of_kind", "not_of_kind")}
IDLE = re.compile(r"\s*if cursor\.status != Status::Reading \{\n        return cursor(\.ended_with\(false\))?;")
# a name in a term; after = it is what a call ensures, as it stands
NAME = re.compile(r"(?<![\w.·=-])(=?)([a-z]\w*₀?)(?![\w·-])")


class Fn:
    """A function of the source: its crate and module, parameters, the relation and grammar that its contract has, and its body."""
    def __init__(self, crate, module, name, params, head, body, names):
        self.crate, self.module, self.name, self.params, self.body, self.names = crate, module, name, params, body, names
        m = re.search(r"ensures \{ (\w+) (\w+|\(.*?\)) (?:source|tokens|cursor|self|\(begun|at)\b", head)
        self.relation, self.grammar = (m.group(1), m.group(2)) if m else ("", "")


def source():
    fns = {}
    for crate, path in [(c, p) for c in (STEPS, *CRATES) for p in sorted(glob.glob(os.path.join(folder(c), "src/*.rt")))]:
        text = open(path).read()
        module = os.path.basename(path)[:-3]
        names = {n.strip(): u.group(1) for u in re.finditer(r"ghost use Rattle\.grammar\.specs\.(\w+)\.\{(.*?)\}", text) for n in u.group(2).split(",")}
        for m in re.finditer(r"^( *)(?:pub |pub\(crate\) )?fn (\w+)(?:<\w+: \w+>)?\((.*?)\)(?: -> [^\n]*)?\n(.*?)^\1\{\n(.*?)^\1\}\n", text, re.M | re.S):
            params = [p.split(":")[0].replace("mut ", "").strip() for p in m.group(3).split(",") if p.strip()]
            assert m.group(2) not in fns, m.group(2)
            fns[m.group(2)] = Fn(crate, "" if module == "lib" else module + "/", m.group(2), params, m.group(4), m.group(5), names)
    return fns


def recipes():
    """name -> {goal: term}; `far` lists the readers that take a token"""
    rs, cur = {}, None
    for line in open(os.path.join(TOP, "tools/readers.txt")):
        line = line.rstrip("\n")
        if not line.strip() or line.startswith("#"): continue
        if not line.startswith(" "):
            name, rest = line.split(":", 1)
            cur = rs.setdefault(name.strip(), {})
            if rest.strip(): cur["cycle"], cur["rank"] = rest.split()
        else:
            goal, term = line.strip().split(" = ", 1)
            cur[goal] = term
    return rs


class Places:
    """What the checker says of a function: each loop's name and variables, the name of each step, and at each goal its name and the steps that are known there, the last first."""
    def __init__(self): self.loops, self.steps, self.goals = {}, {}, {}

    def write(self, name):
        out = name + "\n"
        for loop, variables in self.loops.items(): out += f"  loop {loop}: {' '.join(variables)}\n"
        out += f"  steps: {' '.join(f'{a}={b}' for a, b in self.steps.items())}\n"
        for goal, (today, known) in self.goals.items(): out += f"  {goal} {today}: {' '.join(known)}\n"
        return out

    def fact(self, step):
        """the path of what a step ensures, says or keeps"""
        name = step.split(".")[0]
        says = step.split(".")[1] if "." in step else "invariant" if re.fullmatch(r"loop\d*", name) else "is" if name.startswith("arm_") else "ensures"
        path, call = (self.steps[name].split(":") + [""])[:2]
        if not call: return f"c.{path}.{says}"
        law = TELLS.get(call.lstrip("!"), ("", ""))[(says == "false") != call.startswith("!")]
        return f"({law} c.{path}.ensures)" if law else f"c.{path}.ensures"


def places():
    ps = {}
    for line in open(os.path.join(TOP, "tools/places.txt")):
        if line.startswith("#"): continue
        if not line.startswith(" "): cur = ps[line.strip()] = Places(); continue
        head, rest = line.strip().split(":", 1)
        words = head.split() + [""]
        if words[0] == "loop": cur.loops[words[1]] = rest.split()
        elif words[0] == "steps": cur.steps = dict(w.split("=") for w in rest.split())
        else: cur.goals[words[0]] = (words[1], rest.split())
    return ps


def told(says, members):
    """the same, from what the checker writes of a function: its places go from the start down, each with the step that it adds"""
    p = Places()
    at = {q[0]: q for q in says["places"]}
    for (old, new), variables in says["loops"]: p.loops[new] = variables
    for (goal, today), (place, _) in zip(says["needs"], says["asked_at"]):
        callee = re.match(r"(\w+)-requires", goal)
        if callee and callee.group(1) not in members: continue
        known = []
        while place:
            _, before, (old, new), call, _ = at[place]
            step = old.replace("-", "_")
            test = re.fullmatch(r"if\d+|loop_test", step)
            # a test by a call is written with the call, and ! where it is denied
            asked = test and (at[before][3] or "").split("::")[-1]
            m = asked and re.fullmatch(rf"if-(not-)?{asked}(?:-\d+)?|loop-\w+-test", new)
            if m: new += ":" + ("!" if m.group(1) else "") + asked
            if step == "match": step = "arm_" + re.split("[-_]", new)[1]
            if test or call or re.fullmatch(r"loop\d*|arm_\w+", step):
                p.steps[step] = new
                known.append(f"{step}.{'true' if re.match(r'(Then|In-)', place) else 'false'}" if test else step)
            place = before
        p.goals[goal] = (today, known)
    return p


def refresh(crate):
    """has the checker say the names of a crate's steps, and keeps them in tools/places.txt"""
    with tempfile.TemporaryDirectory() as out:
        subprocess.run(["rt", "check", "--generated", out, "--old-names"], cwd=folder(crate), stdout=subprocess.DEVNULL, stderr=subprocess.DEVNULL)
        names = json.load(open(os.path.join(out, "names.json")))
    found = {name: p for name, p in places().items() if name in FNS and FNS[name].crate != crate}
    for key, says in names.items():
        m = re.fullmatch(rf"Rattle-{crate}-proofs\.(?:.*\.)?(?:(\w+)\.Lts|\+\w+\.Lts-(\w+))", key)
        name = m and (m.group(1) or m.group(2))
        if name in RECIPES: found[name] = told(says, [f for f, r in RECIPES.items() if r.get("cycle", 0) == RECIPES[name].get("cycle", 1)])
    with open(os.path.join(TOP, "tools/places.txt"), "w") as h:
        h.write("# Written by proofs.py places: for each reader its loops' variables, the checker's names of its steps, and at each goal that is answered the checker's name and the steps known there, the last first.\n")
        for name in RECIPES:
            if name in found: h.write(found[name].write(name))


def qualified(fn, grammar):
    """a grammar of the source, with the names as the proofs import them"""
    def name(m): return {"Derive": "G.", "Grammar": "L."}.get(fn.names.get(m.group(0)), "") + m.group(0)
    return re.sub(r"[A-Za-z]\w*", name, grammar)

def calls(body):
    """the calls of a function, by name and count, with their places"""
    seen, out = {}, []
    for m in re.finditer(r"(?:\.|(?<![\w:]))(\w+)(?:::<\w+>)?\((?=[^)])|\.(\w+)\(\)", body):
        f = m.group(1) or m.group(2)
        if f not in FNS: continue
        seen[f] = seen.get(f, 0) + 1
        out.append((f + (str(seen[f]) if seen[f] > 1 else ""), m.start()))
    return out

def shape(fn, recipe):
    """completes a recipe by what the source shows"""
    r, body, cs = dict(recipe), fn.body, calls(fn.body)
    idle = IDLE.match(body)
    first = "returns-2" if idle else "returns"
    later = lambda n: f"returns-{n + (1 if idle else 0)}" if n + (1 if idle else 0) > 1 else "returns"
    joint = " then_ends " if fn.relation == "Ends" else " then "
    run = lambda a, b: joint.join(c for c, i in cs if a <= i < b and c not in PLAIN)
    if "while p.status == Status::Reading" in body and fn.grammar:
        start, test = body.index("while p.status"), body.index("if q.status == Status::Failed")
        m = re.match(r"\((many|list|fields|entries) (.*)\)$", fn.grammar)
        inner = qualified(fn, m.group(2)) if m else ""
        kind = m.group(1) if m else "many"
        bare = inner.strip("()") if not inner.startswith("(") or inner.count("(") == 1 else inner[1:-1]
        r.setdefault("of", {"many": bare, "list": bare, "fields": f"L.field {inner}", "entries": f"L.another {inner}"}[kind])
        r.setdefault("round", run(start, test))
        # the returns from the loop on
        on = lambda n: "returns" if n + body[:start].count("return ") == 1 else f"returns-{n + body[:start].count('return ')}"
        look = re.search(r"let k = p\.peek\(source\);\n\s+if (!?)k\.is\(", body[start:test])
        n = 2 if look else 1
        if kind == "many" and "&" not in fn.grammar:
            if look: r.setdefault(on(1), "rounds_miss LOOP =peek (OUT, tt) tt" if look.group(1) else "rounds_before LOOP =peek OUT tt")
            r.setdefault(on(n), "rounds_end LOOP TEST ROUND OUT BACK"); r.setdefault(on(n + 1), "rounds_off LOOP OUT")
        elif kind in ("list", "fields"):
            peek = next(c for c, i in cs if i > test and c.startswith("peek"))
            r["keeps"] = "Listing"
            r.setdefault(on(1), "listing_none LOOP TEST ROUND OUT BACK")
            r.setdefault(on(2), f"listing_miss tt LOOP ROUND READ KEPTONE ={peek} OUT")
            r.setdefault(on(3), "listing_off LOOP OUT")
            r.setdefault("loop-preserved", f"listing_next LOOP ROUND READ KEPTONE ={peek} OUT =take")
        elif kind == "entries":
            head, one = "(" + run(0, start) + ")", "if2" if idle else "if1"
            r.setdefault(later(1), f"entries_none {head} {one} BACK")
            r.setdefault(on(1), f"entries_end {head} {one} LOOP TEST ROUND OUT BACK")
            r.setdefault(on(2), f"entries_off {head} {one} LOOP OUT")
    elif body.count("return ") == (1 if idle else 0) and "while" not in body and (fn.relation in READ or fn.relation == "Ends"):
        term = run(0, len(body))
        m = re.match(r"\(rule (\w+)\)$", fn.grammar)
        part = next((c for c, i in cs if c.endswith("_at")), None)
        r.setdefault(first, f"by_part G.{m.group(1)} (record {{ upto = omega (arith, deeper) }}) if1 {part} join" if part and m else f"by_rule G.{m.group(1)} refl if1 enter ({term}) leave" if m else term)
    return r

def looked(term, idle):
    """[not if2, is if3: X]: X by the next token's kind; [at if4: X] is `not` for each test before if4 and `is` for that, [past if4: X] `not` for all up to it"""
    def all_to(m):
        tests = [f"not if{n}" for n in range(2 if idle else 1, int(m.group(2)))]
        return "[" + ", ".join(tests + [("is" if m.group(1) == "at" else "not") + f" if{m.group(2)}"])
    term = re.sub(r"\[(at|past) if(\d+)", all_to, term)
    while True:
        m = re.search(r"\[((?:(?:not|is|was) if\d+(?:, )?)+): ([^\[\]]*)\]", term)
        if not m: return term
        out, tests = m.group(2), re.findall(r"(not|is|was) (if\d+)", m.group(1))
        for how, t in reversed(tests): out = {"not": f"pass =peek ({t}, tt) tt", "was": f"pass =peek (omega (arith, {t})) tt", "is": f"only =peek {t} tt"}[how] + f" ({out})"
        term = term[:m.start()] + "(" + out + ")" + term[m.end():]


def bare(term):
    """a term without parentheses that say nothing: around a name, around parentheses, around the whole"""
    def inner(s):
        out, i = "", 0
        while i < len(s):
            if s[i] != "(": out += s[i]; i += 1; continue
            depth, j = 1, i + 1
            while depth: depth += {"(": 1, ")": -1}.get(s[j], 0); j += 1
            x = inner(s[i + 1:j - 1])
            out += x if re.fullmatch(r"[\w.·-]+", x) or alone(x) else f"({x})"
            i = j
        return out
    def alone(s):
        if not s.startswith("("): return False
        depth = 0
        for i, ch in enumerate(s):
            depth += {"(": 1, ")": -1}.get(ch, 0)
            if not depth: return i == len(s) - 1
    def pair(s):
        depth = 0
        for ch in s:
            depth += {"(": 1, ")": -1}.get(ch, 0)
            if ch == "," and depth == 1: return True
    out = inner(term)
    return out[1:-1] if alone(out) and not pair(out) else out


class Reader:
    def __init__(self, fn, recipe, lts, ranks):
        self.fn, self.lts, self.ranks = fn, lts, ranks
        self.idle = IDLE.match(fn.body)
        own = {k: v for k, v in recipe.items() if k.isupper()}
        self.recipe = {k: looked(re.sub(r"\b[A-Z]+\b", lambda m: f"({own[m.group(0)]})" if m.group(0) in own else m.group(0), v), self.idle) for k, v in shape(fn, recipe).items()}
        # in the name of an answer, and what it takes
        self.stem, self.takes = (f"{fn.name}-", "t c") if ranks else ("", "c")

    def info(self, step): return FNS.get(re.sub(r"\d+$", "", step))
    def inside(self): return "at" in self.fn.params

    def chain(self, known):
        """how far on the cursor is, by the calls made: a term, and whether a token was taken"""
        out, far = [], False
        for k in reversed(known):
            f = self.info(k)
            if k == "loop": out.append("loop.on")
            elif f and f.name == "operator": out.append(f"on_operator c.args.n {k}"); far = True
            elif f and f.name == "enter": out.append(f"at_in {k}")
            elif f and f.name == "begin": out.append(f"at_begin {k}")
            elif f and f.name == "operand": out.append(f"at_operand prefixes {k}")
            elif f and f.relation in READ: out.append(f"{READ[f.relation][1]} {k}"); far = far or f.name in FAR
        return " and_on ".join(out) or "at_here", far

    def answer(self, goal):
        today, known = self.lts.goals[goal]
        facts = {k.split(".")[0]: self.lts.fact(k) for k in known}
        names = list(facts)
        term = self.recipe.get(goal)
        callee = goal.split("-requires")[0] if "-requires" in goal else None
        tests = [k for k in names if re.match(r"if\d+$", k)]
        # the test of the loop that the goal is in
        test = next((k for k in reversed(names[:names.index("loop")]) if k in tests), None) if "loop" in names else None
        if term is None and callee:
            ch, far = self.chain(names)
            start = f"(was loop.on {test})" if test and not self.idle else "refl" if self.inside() else "if1"
            if callee.endswith("_at"): ch = "at_rule if1"
            term = f"({'further' if far else 'lower'} {self.ranks[callee]} {self.ranks[self.fn.name]} DECREASES {start} ({ch}) {'tt ' if far else ''}(omega arith), tt)"
        elif term is None and goal == "returns" and self.idle and self.fn.relation == "Ends": term = "ends_by refl (idle if1) ended_with"
        elif term is None and "round" in self.recipe:
            if goal.startswith("loop-smaller"): term = f"further 0 0 refl TEST ({self.chain(names[:names.index('loop')])[0]}) tt (omega arith)"
            elif goal == "loop-preserved": term = "rounds_next LOOP ROUND OUT KEPT"
        if term is None: return ""
        if goal.startswith("returns") and goal in self.recipe: term = self.own(term)
        if "round" in self.recipe: term = term.replace("ROUND", "(" + self.recipe["round"] + ")")
        term = term.replace("LOOP", "loop").replace("DECREASES", "c.decreases")
        if test: term = term.replace("TEST", test)
        if tests: term = term.replace("OUT", tests[0]).replace("READ", tests[min(1, len(tests) - 1)])
        back = next((k for k in names if re.match(r"rewind\d*$", k)), None)
        if back: term = term.replace("BACK", back)
        if "KEPT" in term:
            kept = [f"c.{self.lts.steps[k]}.auto.nodes" for k in names[:names.index("loop")] if self.info(k) and "nodes" in self.info(k).params]
            kept.append("loop.kept")
            term = term.replace("KEPTONE", kept[0]).replace("KEPT", "(" + " ∙ ".join(kept) + ")")
        wraps = not callee and not goal.startswith("loop-smaller")
        def fact(m):
            raw, k = m.group(1), m.group(2)
            if k not in facts: return m.group(0)
            law = READ.get(self.info(k).relation, ("",))[0] if self.info(k) and wraps and not raw else ""
            return f"({law} {facts[k]})" if law else facts[k]
        term = NAME.sub(fact, term)
        # where the reading of a rule's body is one of the rule
        opens = "unfolding body\n" if re.search(r"\b(inside_by|inside_as|by_rule) ", term) else ""
        return f"\npub {self.stem}{today} : goal.{self.stem}{today}\n{opens}{self.stem}{today} {self.takes} = {bare(term)}\n"

    def own(self, term):
        if term.startswith("!"): return term[1:]
        r = self.fn.relation
        return f"{MAKE[r]}{term})" if r in MAKE else term

    def answers(self): return "".join(self.answer(g) for g in self.lts.goals)

    def invariants(self):
        """the measure of a reader of a cycle: the tokens left and its rank; a loop's invariant and measure: the rounds of the grammar that the contract repeats"""
        out = ""
        if self.ranks:
            cursor = "(begun l.at l.count l.nest l.furthest)" if self.inside() else "l.cursor"
            tokens = "l.source.now.tokens.now" if "source" in self.fn.params else "l.tokens.now"
            out += f"\nabbrev pub decreases-{self.fn.name} : goal.decreases-{self.fn.name}\ndecreases-{self.fn.name} l = size {tokens} {cursor} {self.ranks[self.fn.name]}\n"
        for loop, variables in self.lts.loops.items():
            def value(m):
                v = m.group(0).rstrip("₀")
                if v in ("text", "tokens") and "source" in variables: return f"l.source.{v}.now"
                return m.group(0) if v not in variables else f"l.initial.{v}" if v != m.group(0) else f"l.{v}"
            keeps = self.recipe.get("invariant") or f"{self.recipe.get('keeps', 'Looping')} text tokens ({self.recipe['of']}) p₀ nodes₀ p nodes"
            measure = self.recipe.get("measure", "size tokens p 0")
            for kind, term in (("invariant", keeps), ("decreases", measure)):
                name = f"{kind}-{self.stem}{loop}"
                out += f"\nabbrev pub {name} : goal.{name}\n{name} l = {bare(NAME.sub(value, term))}\n"
        return out


def exports():
    t = open(os.path.join(folder(STEPS), "proofs/Reading.antt")).read()
    return [x.strip().split(" as ")[-1] for m in re.finditer(r"pub use \S+\.\{(.*?)\}", t, re.S) for x in m.group(1).split(",")]

def file(what, path, kind, body):
    """a proof file with its imports, or none if it says nothing"""
    if not body: return None
    names = [n for n in exports() if re.search(r"(?<![\w.·?-])" + re.escape(n.strip("◌")) + r"(?![\w·?-])", body)]
    s = f"-- {what} Assumes nothing.\nuse Rattle.{STEPS}.proofs.Reading." + "{" + ", ".join(names) + "}\n"
    if "begun " in body: s += f"use Rattle.{STEPS}.specs.Read.{{begun}}\n"
    for a, m in (("G", "Derive"), ("L", "Grammar")):
        if re.search(rf"(?<![\w.-]){a}\.", body): s += f"use Rattle.grammar.specs.{m} as {a}\n"
    return s + f"use {path}.{kind} as goal\n" + body

def files(readers, name, what):
    """the files of a reader, or of the readers of a cycle"""
    fn = readers[0].fn
    path, to = f"Rattle.{fn.crate}.proofs.{(fn.module + name).replace('/', '.')}", f"{fn.crate}/proofs/{fn.module}{name}"
    return {f"{to}/Invariants.antt": file(f"What the loops of {what} keep, and its measures.", path, "Given", "".join(r.invariants() for r in readers)),
            f"{to}/Answers.antt": file(f"{what[0].upper() + what[1:]} meets its contract.", path, "Goals", "".join(r.answers() for r in readers))}


FNS, RECIPES, FAR = source(), recipes(), set()
FAR.update(RECIPES.pop("far")["names"].split())

def main():
    if sys.argv[1:2] == ["places"]: return refresh(sys.argv[2])
    known, written, cycles = places(), {}, {}
    # a crate whose places are still to be written is passed over
    missing = {FNS[n].crate for n in RECIPES if n not in known}
    if missing: print("no places of: " + ", ".join(sorted(missing)))
    for name, r in RECIPES.items():
        if FNS[name].crate in missing: continue
        if "cycle" in r: cycles.setdefault(r["cycle"], []).append(name)
        else: written.update(files([Reader(FNS[name], r, known[name], {})], name, f"`{name}`"))
    for c, names in cycles.items():
        ranks = {n: RECIPES[n]["rank"] for n in names}
        written.update(files([Reader(FNS[n], RECIPES[n], known[n], ranks) for n in sorted(names)], "+" + c, f"the cycle of readers `{c}`"))
    bad = []
    for path, text in written.items():
        full = os.path.join(TOP, "crates", path)
        old = open(full).read() if os.path.exists(full) else None
        if old == text: continue
        bad.append(path)
        if sys.argv[1:2] != ["check"]:
            if text is None: os.remove(full); continue
            os.makedirs(os.path.dirname(full), exist_ok=True); open(full, "w").write(text)
    print(("differ: " if sys.argv[1:2] == ["check"] else "written: ") + (", ".join(bad) or "none"))
    if (bad or missing) and sys.argv[1:2] == ["check"]: sys.exit(1)

if __name__ == "__main__": main()
