"""The marker's page in headless Chromium, held to the C entries (hits.c) and to what the desk prints.

    drive.py OUT [TEXT..]     OUT has hits, and takes the pages and the screenshots; tests/page/run calls this

A text is written as a page, opened from a file, and driven over the browser's pipe: what is embedded and shown, the answer at every
offset, then the mouse and the keys. What is right comes from the entries, from the desk's lines and from the numbers of children in
the listing; of the page's own state only what stands in its document is looked at.
"""

import base64
import fcntl
import json
import os
import re
import select
import subprocess
import sys
import tempfile
import time
from pathlib import Path

LONGEST = 65535
WHITE = b" \t\r\n"
FIRST, LAST = 4, 8  # of a long chain of parents, what is shown
LAST_INDENT = 24  # of the page; the desk has its own
AWAY = (3, 3)  # a place that is neither text nor tree

counts = {}
differences = []


def count(what, number=1):
    counts[what] = counts.get(what, 0) + number


def check(holds, *said):
    """A check that fails is told, and ends the run with status 1."""
    count("checks")
    if not holds:
        differences.append(said)
        print("page: DIFFERENCE:", *(str(word)[:400] for word in said), flush=True)
    return holds


# ---- the browser


class Browser:
    """Chromium, spoken to over a pair of pipes: JSON with a zero byte behind it."""

    def __init__(self, profile):
        to_read, self.to = os.pipe()
        self.back, back_write = os.pipe()
        ours = [fcntl.fcntl(end, fcntl.F_DUPFD, 10) for end in (to_read, back_write)]

        def pipes():
            os.dup2(ours[0], 3)
            os.dup2(ours[1], 4)

        flags = ["--headless=new", "--remote-debugging-pipe", "--disable-gpu", "--hide-scrollbars", "--no-first-run",
                 "--disable-background-networking", "--disable-component-update", "--disable-sync", "--disable-extensions",
                 "--host-resolver-rules=MAP * ~NOTFOUND", f"--user-data-dir={profile}"]
        if os.geteuid() == 0:
            flags.append("--no-sandbox")
        self.process = subprocess.Popen(["chromium", *flags, "about:blank"], preexec_fn=pipes, pass_fds=(3, 4),
                                        stdout=subprocess.DEVNULL, stderr=subprocess.DEVNULL)
        for end in (to_read, back_write, *ours):
            os.close(end)
        self.last, self.left, self.events, self.session = 0, b"", [], None
        target = self("Target.createTarget", url="about:blank")["targetId"]
        self.session = self("Target.attachToTarget", targetId=target, flatten=True)["sessionId"]
        for domain in ("Page", "Runtime", "Log", "Network"):
            self(f"{domain}.enable")
        self("Network.emulateNetworkConditions", offline=True, latency=0, downloadThroughput=0, uploadThroughput=0)
        self("Page.addScriptToEvaluateOnNewDocument", source=IN_PAGE)

    def message(self, seconds=120):
        while b"\0" not in self.left:
            if not select.select([self.back], [], [], seconds)[0]:
                raise SystemExit("page: the browser does not answer")
            more = os.read(self.back, 1 << 20)
            if not more:
                raise SystemExit("page: the browser has ended")
            self.left += more
        one, self.left = self.left.split(b"\0", 1)
        return json.loads(one)

    def __call__(self, method, **params):
        self.last += 1
        call = {"id": self.last, "method": method, "params": params}
        if self.session:
            call["sessionId"] = self.session
        data = json.dumps(call).encode() + b"\0"
        while data:
            data = data[os.write(self.to, data):]
        while True:
            answer = self.message()
            if answer.get("id") == self.last:
                if "error" in answer:
                    raise SystemExit(f"page: {method}: {answer['error']}")
                return answer["result"]
            self.events.append(answer)

    def ask(self, expression):
        """What an expression of the page comes to."""
        answer = self("Runtime.evaluate", expression=expression, returnByValue=True, awaitPromise=True)
        if "exceptionDetails" in answer:
            raise SystemExit(f"page: {expression[:200]}: {answer['exceptionDetails']}")
        return answer["result"].get("value")

    def open(self, path):
        self.events = []
        self("Page.navigate", url=path.resolve().as_uri())
        while not any(event.get("method") == "Page.loadEventFired" for event in self.events):
            self.events.append(self.message())

    def mouse(self, kind, x, y, **more):
        self("Input.dispatchMouseEvent", type=kind, x=x, y=y, **more)

    def move(self, x, y):
        self.mouse("mouseMoved", x, y)

    def click(self, x, y):
        self.mouse("mousePressed", x, y, button="left", clickCount=1)
        self.mouse("mouseReleased", x, y, button="left", clickCount=1)

    def key(self, name):
        codes = {"ArrowLeft": 37, "ArrowUp": 38, "ArrowRight": 39, "ArrowDown": 40, "Home": 36, "End": 35, "Escape": 27, "Tab": 9}
        for kind in ("keyDown", "keyUp"):
            self("Input.dispatchKeyEvent", type=kind, key=name, code=name, windowsVirtualKeyCode=codes[name])

    def picture(self, path):
        path.write_bytes(base64.b64decode(self("Page.captureScreenshot", format="png")["data"]))

    def end(self):
        self.session = None
        self("Browser.close")
        self.process.wait(30)


# Runs in each page before its own script: it reads the document, never the script's variables.
IN_PAGE = r"""
window.violations = [];
document.addEventListener('securitypolicyviolation', event => violations.push(event.violatedDirective + ' ' + event.blockedURI));
window.looks = {
  all: selector => [...document.querySelectorAll(selector)],
  frame: () => new Promise(done => requestAnimationFrame(() => requestAnimationFrame(done))),
  list: [], rows: [],
  begin() {
    this.list = this.all('#text .piece');
    this.rows = this.all('#tree .row');
    this.numbers = new Map(this.list.map((piece, i) => [piece, i]));
  },
  // the middle of the first part of an element that is seen, after scrolling to it where that is needed
  async place(element) {
    for (let tries = 0; tries < 3; tries++) {
      for (const {left, top, width, height} of element.getClientRects()) {
        const x = Math.min(left + width / 2, innerWidth - 8), y = top + height / 2;
        if (width > 0 && height > 0 && document.elementFromPoint(x, y)?.closest('.piece, .row, button') === element) return [x, y];
      }
      element.scrollIntoView({block: 'center'});
      await this.frame();
    }
    return null;
  },
  inside(element, box) {
    const inner = element.getBoundingClientRect(), outer = document.querySelector(box).getBoundingClientRect();
    return inner.top >= outer.top - 1 && Math.min(inner.bottom, inner.top + 20) <= outer.bottom + 1;
  },
  // what is highlighted: the numbers of the pieces, first and last of each run; the rows; whether they are in view; and the chain
  seen(name) {
    const runs = [];
    for (const piece of this.all(`.${name}.piece, .${name} .piece`)) {
      const i = this.numbers.get(piece);
      if (runs.length && runs.at(-1)[1] === i - 1) runs.at(-1)[1] = i;
      else runs.push([i, i]);
    }
    const rows = this.all(`.row.${name}`);
    return {runs, rows: rows.map(row => Number(row.dataset.node)), rowInView: rows.every(row => this.inside(row, '#tree')),
      textInView: runs.length === 0 || this.inside(this.list[runs[0][0]], '#text'),
      colour: runs.length ? getComputedStyle(this.list[runs[0][0]]).backgroundColor : '',
      chain: this.all('#chain button').map(crumb => [Number(crumb.dataset.node), crumb.textContent]),
      chainSaid: document.querySelector('#chain').textContent};
  },
};
"""


# ---- what is owed


class Owed:
    """What the desk and the C entries say of a text, and what follows from it."""

    def __init__(self, out, path):
        self.path, self.name = path, path.name
        self.text = path.read_bytes()[:LONGEST + 1]
        said = subprocess.run(["target/c/desk", str(path)], capture_output=True)
        self.status, self.desk = said.returncode, said.stdout.decode().split("\n")[:-1]
        self.hits = out / "hits"
        head, self.listing = self.entries([])[:2]
        self.outcome, *self.counts = map(int, head.split())
        listing = json.loads(self.listing)
        self.nodes = listing if self.outcome == 0 else []
        self.diagnostics = [] if self.outcome == 0 else listing["diagnostics"]
        self.verdict = self.desk[0].removeprefix(f"{path}: ")
        self.parents, open_nodes = [-1] * len(self.nodes), []
        for at, node in enumerate(self.nodes):
            for child in open_nodes[len(open_nodes) - node[3]:]:
                self.parents[child] = at
            del open_nodes[len(open_nodes) - node[3]:]
            open_nodes.append(at)
        self.levels = [1] * len(self.nodes)
        for at in reversed(range(len(self.nodes))):
            if self.parents[at] >= 0:
                self.levels[at] = self.levels[self.parents[at]] + 1
        self.answers = {}
        self.walk = self.order()
        tree = self.desk[1:] if self.outcome == 0 else []
        desk_levels = [int(deep[1]) if (deep := re.match(r" *\[(\d+)\]", line)) else (len(line) - len(line.lstrip(" "))) // 2
                       for line in tree]
        assert desk_levels == [self.levels[node] for node in self.walk]
        self.words = {node: re.sub(r"^ *(\[\d+\] )?", "", line) for node, line in zip(self.walk, tree, strict=True)}

    def row(self, node):
        return (f"[{self.levels[node]}] " if self.levels[node] > LAST_INDENT else "") + self.words[node]

    def entries(self, offsets):
        given = "".join(f"{offset}\n" for offset in offsets)
        return subprocess.run([self.hits, self.path], input=given, capture_output=True, text=True, check=True).stdout.split("\n")[:-1]

    def ask(self, offsets):
        offsets = sorted(set(offsets) - set(self.answers))
        for offset, line in zip(offsets, self.entries(offsets)[2:], strict=True):
            self.answers[offset] = [int(word) for word in line.split()]

    def node_at(self, offset):
        outcome, found, place = self.answers[offset]
        assert outcome == 0
        return place if found else None

    def span(self, node):
        return tuple(self.nodes[node][1:3])

    def order(self):
        """The nodes, parents before children, by a walk that keeps its own stack."""
        children = [[] for _ in self.nodes]
        for at, parent in enumerate(self.parents):
            if parent >= 0:
                children[parent].append(at)
        walk, left = [], [at for at, parent in enumerate(self.parents) if parent < 0][::-1]
        while left:
            walk.append(left.pop())
            left += reversed(children[walk[-1]])
        return walk

    def chain(self, node):
        down = []
        while node >= 0:
            down.append(node)
            node = self.parents[node]
        down.reverse()
        left = len(down) - FIRST - LAST
        return (down[:FIRST] + down[-LAST:], left) if left > 1 else (down, 0)


# ---- the checks of one page


def html_name(name):
    return re.sub("[&<>\"']", lambda mark: f"&#{ord(mark[0])};", name)


def check_file(owed, page):
    """The file as written: what is embedded, byte for byte, and nothing that loads."""
    def part(script):
        return re.search(rf'<script type="[a-z/]+" id="{script}">([^<]*)</script>', page)[1]

    name = owed.name
    check(base64.b64decode(part("bytes"), validate=True) == owed.text, name, "the embedded text")
    check(part("listing") == owed.listing, name, "the embedded listing")
    program = Path("crates/cairolist/out/cairolist")
    if program.exists():
        said = subprocess.run([program], input=owed.path.read_bytes(), capture_output=True).stdout.decode()
        if not said.startswith(('{"refused":4,', '{"refused":6,')) and len(owed.diagnostics) <= 1024:
            check(part("listing") + "\n" == said, name, "the listing of cairolist", said)
            count("listings held to cairolist")
    data = re.search(r'<body data-outcome="(\d+)" data-tokens="(\d+)" data-nodes="(\d+)" data-diagnostics="(\d+)">', page)
    check([int(word) for word in data.groups()] == [owed.outcome, *owed.counts], name, "outcome and counts", data[0])
    check(f"<title>{html_name(name)}</title>" in page, name, "the title")
    rest = page.replace(part("bytes"), "").replace(part("listing"), "")
    loads = re.findall(r"\ssrc=|href=|url\(|\bimport\b|\bfetch\b|https?:|\{\{\w", rest.replace(html_name(name), ""))
    check(not loads, name, "something that loads, or a place left open", loads)


def check_shown(browser, owed):
    """What the document shows, before anything is pointed at. The starts of the pieces, in bytes, are handed back."""
    name = owed.name
    shown = browser.ask("""(() => { looks.begin(); return {
        title: document.title, head: document.querySelector('h1').textContent, verdict: document.querySelector('#verdict').textContent,
        pieces: looks.list.map(piece => piece.textContent), text: document.querySelector('#text').textContent,
        lines: looks.all('#text .line[data-line]').map(line => line.dataset.line),
        feeds: looks.all('#text .line').every(line => !line.textContent.slice(0, -1).includes('\\n')),
        rows: looks.rows.map(row => [Number(row.dataset.node), Number(row.ariaLevel), row.textContent]),
        indents: looks.rows.slice(0, 300).map(row => [Number(row.ariaLevel), parseFloat(getComputedStyle(row).paddingLeft)]),
        listed: looks.all('#diagnostics button').map(button => button.textContent),
        bad: looks.list.flatMap((piece, i) => piece.matches('.bad') ? [[i, piece.title]] : []),
        ends: looks.all('#text .end').map(end => [end.title, end.getBoundingClientRect().width, end.getBoundingClientRect().height]),
        behind: looks.all('#text .end').map(end => looks.list.filter(piece => piece.compareDocumentPosition(end) & 4).length),
        wavy: looks.all('#text .piece.bad').slice(0, 3).map(piece => getComputedStyle(piece).textDecorationStyle),
        empty: getComputedStyle(document.querySelector('#tree'), '::before').content,
        note: document.querySelector('#note').textContent}; })()""")
    check(shown["title"] == name == shown["head"], name, "the title", shown["title"])
    check(shown["verdict"] == owed.verdict, name, "the verdict", shown["verdict"])
    text = owed.text.decode(errors="replace")
    check("".join(shown["pieces"]) == text == shown["text"], name, "the text shown")
    check(shown["lines"] == [str(i + 1) for i in range(len(owed.text.split(b"\n")) - (not owed.text or owed.text.endswith(b"\n")))],
          name, "the line numbers")
    check(shown["feeds"], name, "a line feed within a line")

    check([row[2] for row in shown["rows"]] == [owed.row(node) for node in owed.walk], name, "the rows of the tree")
    check([row[0] for row in shown["rows"]] == owed.walk, name, "the order of the rows")
    check([row[1] for row in shown["rows"]] == [owed.levels[node] for node in owed.walk], name, "the levels of the rows")
    indents = dict(map(tuple, shown["indents"]))
    steps = {round(indents[at + 1] - indents[at], 2) for at in indents if at + 1 in indents and at < LAST_INDENT}
    check(len(steps) <= 1 and all(step > 8 for step in steps), name, "the indentation", steps)
    check(len({indents[at] for at in indents if at >= LAST_INDENT}) <= 1, name, "the indentation of deep rows")

    said = [line.removeprefix(f"{owed.path}:") for line in owed.desk[1:] if re.match(re.escape(str(owed.path)) + r":\d+:\d+: ", line)]
    wanted = [re.sub(r"^(\d+:\d+): ", r"\1 ", line) for line in said]
    check(len(wanted) == len(owed.diagnostics) and shown["listed"] == wanted, name, "the diagnostics listed", shown["listed"], wanted)
    count("diagnostics", len(wanted))

    starts, at = [], 0
    if owed.outcome != 2 and text.encode() == owed.text:
        for piece in shown["pieces"]:
            starts.append(at)
            at += len(piece.encode())
        check(at == len(owed.text) and all(shown["pieces"]), name, "the lengths of the pieces")
        starts.append(at)
        marked = {}
        for i, title in shown["bad"]:
            marked.setdefault(title, []).append((starts[i], starts[i + 1]))
        check(len(shown["bad"]) == sum(map(len, marked.values())), name, "the marks")
        for (start, end, _), words in zip(owed.diagnostics, wanted, strict=True):
            runs = marked.pop(words, [])
            if start < end:
                check(runs and runs[0][0] == start and runs[-1][1] == end and all(a[1] == b[0] for a, b in zip(runs, runs[1:])),
                      name, "the mark of", words, runs)
        check(not marked, name, "marks of nothing", marked)
        check(set(shown["wavy"]) <= {"wavy"}, name, "the marks' line", shown["wavy"])
        empty = [words for (start, end, _), words in zip(owed.diagnostics, wanted) if start == end]
        check([end[0] for end in shown["ends"]] == empty, name, "the mark at the end", shown["ends"])
        for (_, width, height), behind in zip(shown["ends"], shown["behind"]):
            check(width >= 3 and height >= 8, name, "the mark at the end is not seen", width, height)
            check(starts[behind] == len(owed.text.rstrip(WHITE)), name, "the place of the mark at the end", starts[behind])
    if owed.outcome == 1:
        check("65,536" in shown["note"], name, "the note", shown["note"])
    no_tree = "The tree has no nodes." if owed.outcome == 0 else "No tree: the text is refused."
    check(shown["empty"] == ("none" if owed.nodes else json.dumps(no_tree)), name, "what stands for no tree", shown["empty"])
    return starts


def check_rule(browser, owed, offsets):
    """The page's function against the entry."""
    owed.ask(offsets)
    answers = browser.ask(f"{json.dumps(offsets)}.map(offset => {{ const a = page.hitTest(offset, page.bytes.length, page.nodes);"
                          " return [a.outcome, a.found, a.place]; })")
    wrong = [(offset, answer, owed.answers[offset]) for offset, answer in zip(offsets, answers, strict=True)
             if answer != owed.answers[offset]]
    check(not wrong, owed.name, "offset, the page's answer, the entry's", wrong[:3])
    count("offsets", len(offsets))


def check_seen(owed, starts, seen, node, what, reveals):
    """What is highlighted on both sides, and the chain, for a node, or None for nobody."""
    runs = [(starts[first], starts[last + 1]) for first, last in seen["runs"]]
    start, end = (0, 0) if node is None else owed.span(node)
    good = check(runs == ([(start, end)] if start < end else []), owed.name, what, "highlighted", runs, "owed", (start, end))
    good &= check(seen["rows"] == ([] if node is None else [node]), owed.name, what, "rows", seen["rows"], "owed", node)
    good &= check("text" not in reveals or seen["textInView"], owed.name, what, "the text is not in view", node)
    good &= check("row" not in reveals or seen["rowInView"], owed.name, what, "the row is not in view", node)
    good &= check(not runs or seen["colour"] not in ("", "rgba(0, 0, 0, 0)"), owed.name, what, "no colour", seen["colour"])
    return good


def check_chain(owed, seen, node, what):
    if node is None:
        said = "Nobody" if owed.nodes else "There is no node"
        check(seen["chain"] == [] and seen["chainSaid"].startswith(said), owed.name, what, "nobody is owed", seen["chainSaid"])
        return
    chain, left = owed.chain(node)
    check([crumb[0] for crumb in seen["chain"]] == chain, owed.name, what, "chain", seen["chain"], "owed", chain)
    wanted = [owed.words[at] if at == node else re.sub(r" \d+\.\.\d+", "", owed.words[at], count=1) for at in chain]
    check([crumb[1] for crumb in seen["chain"]] == wanted, owed.name, what, "chain", seen["chain"], "owed", wanted)
    check((f".. {left} left out .." in seen["chainSaid"]) == (left > 0), owed.name, what, "left out", left, seen["chainSaid"])
    start, end = owed.span(node)
    check(("no span of its own" in seen["chainSaid"]) == (start >= end), owed.name, what, "a span of its own", seen["chainSaid"])


def sample(items, most):
    items = list(items)
    return items if len(items) <= most else [items[i * (len(items) - 1) // (most - 1)] for i in range(most)]


def check_pointer(browser, owed, starts, most):
    """The mouse over the text: a piece of each distinct answer, at most so many, and some with nobody."""
    by_answer = {}
    owed.ask(starts[:-1])
    for i, offset in enumerate(starts[:-1]):
        by_answer.setdefault(owed.node_at(offset), []).append(i)
    apart = [(start, end) for start, end in zip(starts, starts[1:])
             if any(owed.answers[start] != owed.answers[offset] for offset in range(start, end) if offset in owed.answers)]
    check(not apart, owed.name, "pieces with two answers", apart[:3])
    nobody = by_answer.pop(None, [])
    tried = [(node, [some[len(some) // 2], *some]) for node, some in sample(by_answer.items(), most)]
    tried += [(None, [i]) for i in sample(nobody, 6)]
    for node, some in tried:
        at = next((at for i in some[:4] if (at := browser.ask(f"looks.place(looks.list[{i}])"))), None)
        if at is None:  # a piece that takes no room, as a line feed
            count("pieces without room")
            continue
        browser.move(*at)
        seen = browser.ask("looks.seen('hovered')")
        check_seen(owed, starts, seen, node, "hover", "row")
        check_chain(owed, seen, node, "hover")
        browser.click(*at)
        browser.move(*AWAY)
        check(browser.ask("looks.seen('hovered')")["runs"] == [], owed.name, "hover after the pointer has gone")
        seen = browser.ask("looks.seen('selected')")
        check_seen(owed, starts, seen, node, "click", "row")
        check_chain(owed, seen, node, "click")
        count("pieces pointed at and clicked")
    if nobody and owed.nodes:
        count("texts with nobody")


def check_rows(browser, owed, starts, most):
    """The mouse over rows of the tree; those without a span are among them."""
    order = owed.walk
    ranks = {node: rank for rank, node in enumerate(order)}
    empty = [node for node in order if owed.span(node) == (0, 0)]
    for node in sample(order, most) + sample(empty, 4):
        at = browser.ask(f"looks.place(looks.rows[{ranks[node]}])")
        if not check(at, owed.name, "a row that is not seen", node):
            continue
        browser.move(*at)
        seen = browser.ask("looks.frame().then(() => looks.seen('hovered'))")
        check_seen(owed, starts, seen, node, "hover over a row", "text")
        check_chain(owed, seen, node, "hover over a row")
        browser.click(*at)
        browser.move(*AWAY)
        seen = browser.ask("looks.frame().then(() => looks.seen('selected'))")
        check_seen(owed, starts, seen, node, "click on a row", "text row")
        check_chain(owed, seen, node, "click on a row")
        parent = owed.chain(node)[0][-2:][0]
        browser.click(*browser.ask("looks.place(looks.all('#chain button').at(-2) ?? looks.all('#chain button').at(-1))"))
        browser.move(*AWAY)
        seen = browser.ask("looks.frame().then(() => looks.seen('selected'))")
        check_seen(owed, starts, seen, parent, "click on the parent", "text row")
        check_chain(owed, seen, parent, "click on the parent")
        count("rows pointed at and clicked")
    count("rows without a span", len(sample(empty, 4)))


def check_keys(browser, owed, starts):
    """The keys, from the first row on; each step's node is found in the order and by the parents."""
    order = owed.walk
    ranks = {node: rank for rank, node in enumerate(order)}
    browser.key("Escape")
    check(browser.ask("looks.seen('selected')")["rows"] == [], owed.name, "Escape")
    browser.ask("document.querySelector('#text').focus()")
    browser.key("Tab")
    check(browser.ask("document.activeElement.id + getComputedStyle(document.activeElement).outlineStyle") == "treesolid",
          owed.name, "the focus on the tree is not seen")
    browser.move(960, 500)  # over the tree, where it rests while rows scroll under it
    node = None
    keys = ["ArrowDown"] * 4 + ["ArrowUp", "ArrowLeft", "ArrowLeft", "ArrowRight", "End", "ArrowDown", "ArrowLeft", "ArrowUp",
                                "ArrowRight", "Home", "ArrowUp", "ArrowDown", "ArrowDown"]
    for step, key in enumerate(keys):
        rank = -1 if node is None else ranks[node]
        after = order[rank + 1] if rank + 1 < len(order) else None
        to = {"ArrowDown": after, "ArrowUp": order[rank - 1] if rank > 0 else None, "Home": order[0], "End": order[-1],
              "ArrowLeft": owed.parents[node] if node is not None and owed.parents[node] >= 0 else None,
              "ArrowRight": after if after is not None and owed.parents[after] == node else None}[key]
        node = node if to is None else to
        browser.key(key)
        seen = browser.ask("looks.frame().then(() => looks.seen('selected'))")
        if not check_seen(owed, starts, seen, node, f"key {step} {key}", "text row"):
            break
        check_chain(owed, seen, node, f"key {step} {key}")
        check(browser.ask("looks.seen('hovered')")["rows"] == [], owed.name, f"key {step} {key}", "what is under a pointer at rest")
        check(browser.ask("document.getElementById(document.querySelector('#tree').getAttribute('aria-activedescendant'))"
                          ".getAttribute('aria-selected') + looks.all('[aria-selected]').length") == "true1",
              owed.name, "the active descendant")
        count("keys")
    browser.key("Escape")
    browser.move(*AWAY)
    seen = browser.ask("looks.seen('selected')")
    check(seen["rows"] == [] and seen["runs"] == [] and seen["chain"] == [], owed.name, "Escape", seen)


def check_listed(browser, owed):
    """A click on a listed diagnostic brings its mark into view."""
    for i in sample(range(len(owed.diagnostics)), 8):
        at = browser.ask(f"looks.place(looks.all('#diagnostics button')[{i}])")
        if not check(at, owed.name, "a listed diagnostic that is not seen", i):
            continue
        browser.click(*at)
        title = browser.ask("looks.frame().then(() => looks.all('.found').map("
                            "found => [found.title, looks.inside(found, '#text')]))")
        listed = browser.ask(f"looks.all('#diagnostics button')[{i}].textContent")
        check(title == [[listed, True]], owed.name, "a click on a diagnostic", listed, title)
        count("listed diagnostics clicked")


def check_quiet(browser, owed, path):
    """No error, no warning, no violation of the policy, and no request but the file itself."""
    asked, bad = [], []
    for event in browser.events:
        method, params = event.get("method"), event.get("params", {})
        if method == "Network.requestWillBeSent":
            asked.append(params["request"]["url"])
        elif method in ("Runtime.exceptionThrown", "Runtime.consoleAPICalled", "Log.entryAdded", "Network.webSocketCreated"):
            bad.append(params)
    check(asked == [path.resolve().as_uri()], owed.name, "requests", asked)
    check(not bad, owed.name, "errors", bad)
    check(browser.ask("violations") == [], owed.name, "violations", browser.ask("violations"))
    check(browser.ask("performance.getEntriesByType('resource').length") == 0, owed.name, "resources")


def check_policy(browser, path):
    """The policy does forbid: what a page could try is stopped before a request goes out."""
    browser.open(path)
    browser.ask("""(async () => {
        new Image().src = 'http://127.0.0.1:9/image';
        await fetch('http://127.0.0.1:9/fetch').catch(() => 0);
        document.body.append(Object.assign(document.createElement('script'), {src: 'http://127.0.0.1:9/script'}));
        document.body.append(Object.assign(document.createElement('iframe'), {src: 'http://127.0.0.1:9/frame'}));
        document.body.append(Object.assign(document.createElement('link'), {rel: 'stylesheet', href: 'http://127.0.0.1:9/style'}));
        await looks.frame(); })()""")
    stopped = browser.ask("violations.map(words => words.split(' ')[0])")
    check(sorted(stopped) == ["connect-src", "frame-src", "img-src", "script-src-elem", "style-src-elem"], "the policy", stopped)


def check_tables(browser, out):
    """Tables that are no trees."""
    lines = subprocess.run([out / "hits", "tables", "20", "4000"], capture_output=True, text=True, check=True).stdout.splitlines()
    tables, owed = [], []
    for line in lines:
        length, nodes, first, offsets, *rest = map(int, line.split())
        tables.append([length, first, offsets, [{"start": a, "end": b} for a, b in zip(rest[:2 * nodes:2], rest[1:2 * nodes:2])]])
        answers = rest[2 * nodes:]
        owed.append([answers[i:i + 3] for i in range(0, 3 * offsets, 3)])
    said = browser.ask(f"{json.dumps(tables)}.map(([length, first, offsets, nodes]) => Array.from({{length: offsets}}, (_, i) => {{"
                       " const a = page.hitTest(first + i, length, nodes); return [a.outcome, a.found, a.place]; }))")
    wrong = [(table, one, two) for table, one, two in zip(tables, said, owed, strict=True) if one != two]
    check(not wrong, "a table, the page's answers, the entry's", wrong[:1])
    kinds = {tuple(answer[:2]) for answers in owed for answer in answers}
    check(kinds == {(0, 0), (0, 1), (12, 0)}, "the kinds of answers on tables", kinds)
    count("tables made by chance", len(tables))


# ---- the texts


def further_texts(folder):
    """Texts that examples/ has none of."""
    folder.mkdir(parents=True, exist_ok=True)
    examples = b"".join(path.read_bytes() for path in sorted(Path("examples").glob("[a-q]*.cm")))
    functions = examples * (LONGEST // len(examples))
    made = {
        "empty.cm": b"",
        "white.cm": b" \t\r\n\n  ",
        "no_line_feed.cm": b"const A = 1; // the end",
        "crlf.cm": b"fn f(a: felt, t: T) {\r\n\tlet b\t= a;\t// tab\r\n\treturn g(b, t.0);\r\n}\r\n",
        "characters.cm": "// Größe: 3 € 😀 é\nconst A = 1; // ☃ \u202e x \u2028 y\nfn f() { g(); } // 漢字\n".encode(),
        "script.cm": b"// </script><script>throw 1</script> <!-- --> ]]> &amp; <b>\nconst A = 1; // </SCRIPT \n",
        "controls.cm": b"// " + bytes(i for i in range(32) if i != 10) + b"\x7f \xc2\x80\xc2\x9f\nconst A = f(1, 2);\r// \0\n",
        "mark.cm": b"\xef\xbb\xbfconst A = 1;",
        "character_cut.cm": "€".encode() * 21846,
        "not_utf8.cm": b"const A = 1; // \xe2\x82\nconst \xff\xc0\x80 = \xed\xa0\x80;\n// \xf0\x9f\x98",
        "stop_characters.cm": "// €\r\nfn f() {\r\n\tlet ä = 1; }\r\n@ 😀 ` 0b12\r\n".encode(),
        "stop_deep.cm": b"fn f() {" + b"{" * 30 + b" a; " + b"}" * 30 + b"   // behind\n\n\n",
        "params.cm": b"fn f(a: felt, b: (u32, T*)) -> (bool,) { let (x, (y, z)) = g(a)(b, h()); x.y[0].z = !-a as u32; }\nuse a::b::{c, d};\n",
        """<&">'{{text}}.cm""": b"const A = 1;\n",
        "deep.cm": b"const A = " + b"-" * 60000 + b"1;",
        "functions.cm": functions,
        "sums.cm": b"const A = " + b"a + b *\n" * ((LONGEST - 12) // 8) + b"1;",
        "signs.cm": b"const A = " + b"\n".join([b"a-" * 40] * 808) + b"1;",
        "line_feeds.cm": b"\n" * LONGEST,
        "errors.cm": b"@" * LONGEST,
        "error_lines.cm": b"12u8; @\n" * (LONGEST // 8),
        "long_comment.cm": b"// " + b"x" * (LONGEST - 3),
    }
    for name, text in made.items():
        (folder / name).write_bytes(text)
    return [folder / name for name in made]


def check_page(browser, out, path):
    owed = Owed(out, path)
    said = subprocess.run(["target/c/page", str(path)], capture_output=True)
    check(said.returncode == owed.status and not said.stderr, owed.name, "exit status", said.returncode, said.stderr)
    page = out / (re.sub(r"[^A-Za-z0-9_.]", "_", owed.name) + ".html")
    page.write_bytes(said.stdout)
    check_file(owed, said.stdout.decode())
    began = time.monotonic()
    browser.open(page)
    took = time.monotonic() - began
    starts = check_shown(browser, owed)
    length, large = len(owed.text), len(owed.nodes) > 5000
    offsets = range(0, length, 61) if large else range(length)
    check_rule(browser, owed, sorted({*offsets, length, length + 1, 65536}))
    if starts:
        check_pointer(browser, owed, starts, 25 if large else 80)
        check_rows(browser, owed, starts, 10 if large else 30)
    if owed.nodes:
        check_keys(browser, owed, starts)
    check_listed(browser, owed)
    if large or len(starts) > 5000:
        measure(browser, owed, starts, took)
    check_quiet(browser, owed, page)
    count("texts")
    return page


def measure(browser, owed, starts, took):
    """How long a page took to load, and a hover from the event to the frame that shows it. It decides nothing."""
    ready = browser.ask("performance.getEntriesByType('navigation')[0].loadEventEnd")
    browser.ask("""window.times = []; addEventListener('mousemove', event => {
        const at = event.timeStamp;
        requestAnimationFrame(() => { const channel = new MessageChannel();
            channel.port1.onmessage = () => times.push(performance.now() - at); channel.port2.postMessage(0); }); }, true); 0""")
    for i in sample(range(len(starts) - 1), 24):
        at = browser.ask(f"looks.place(looks.list[{i}])")
        if at:
            browser.move(*at)
            browser.ask("looks.frame()")
    times = sorted(browser.ask("times"))
    middle, most = (times[len(times) // 2], times[-1]) if times else (0, 0)
    print(f"page: {owed.name}: {len(owed.text)} bytes, {len(owed.nodes)} nodes, {len(starts) - 1} pieces: loaded after {ready:.0f} ms "
          f"(with the opening {1000 * took:.0f}), a hover until it is painted {middle:.0f} ms, at most {most:.0f}", flush=True)


def pictures(browser, out, pages):
    """Screenshots, to be looked at."""
    def scheme(name):
        browser("Emulation.setEmulatedMedia", media="", features=[{"name": "prefers-color-scheme", "value": name}])

    def picture(page, name, words="", click=False):
        browser.open(pages[page])
        browser.ask("looks.begin()")
        if words:
            i = browser.ask(f"looks.list.findIndex(piece => piece.textContent === {json.dumps(words)})")
            at = browser.ask(f"looks.place(looks.list[{i}])")
            browser.move(*at)
            if click:
                browser.click(*at)
                browser.move(at[0] + 40, at[1] + 20)
        browser.ask("looks.frame()")
        browser.picture(out / f"{name}.png")
        browser.move(*AWAY)

    picture("booking.cm", "light", "price", True)
    picture("refused_3_lexical.cm", "refused")
    picture("refused_7_syntax.cm", "stopped")
    picture("stop_deep.cm", "stopped_at_end")
    picture("deep.cm", "deep", "1")
    picture("controls.cm", "controls", "f")
    scheme("dark")
    picture("booking.cm", "dark", "price", True)
    picture("refused_8_suffix.cm", "refused_dark")
    scheme("light")
    browser("Emulation.setDeviceMetricsOverride", width=480, height=800, deviceScaleFactor=1, mobile=False)
    picture("points.cm", "narrow", "x")


def main(out, words):
    made = further_texts(out / "texts")
    paths = [Path(word) for word in words] or [*sorted(Path("examples").glob("*.cm")), *sorted(Path("tests/reading/stops").glob("*.cm")), *made]
    pages = {}
    with tempfile.TemporaryDirectory() as profile:
        browser = Browser(profile)
        try:
            browser("Emulation.setDeviceMetricsOverride", width=1280, height=900, deviceScaleFactor=1, mobile=False)
            for path in paths:
                pages[path.name] = check_page(browser, out, path)
            check_tables(browser, out)
            check_policy(browser, pages[paths[0].name])
            if not words:
                pictures(browser, out, pages)
        finally:
            browser.end()
    print("page: " + ", ".join(f"{what} {number}" for what, number in counts.items()))
    if differences:
        print(f"page: {len(differences)} differences")
    return 1 if differences else 0


sys.exit(main(Path(sys.argv[1]), sys.argv[2:]))
