#!/usr/bin/env python3
"""Counts the places of the design pass in another way: by what is done with a value, in a stream of words.

usage: tools/design/count-by-reading.py [COMMIT] [--list] [--beside]

count-places.py looks at declarations and at the shape of whole functions. This one reads word by word, and asks how
values are used: opened, compared, indexed, cast, passed on. With --list each place follows its count; with --beside
the functions and types follow, point by point, that only this way finds.
"""
import importlib.util
import itertools
import re
import sys
from collections import Counter, defaultdict

sys.dont_write_bytecode = True
import sources as s

KINDS = {
    1: ["a value opened by `let .. else`", "a match of two arms on an own enum", "a named constant handed out or compared",
        "a number answered for an enum", "a bool in a signature or a type", "a number compared with a literal, twice or more"],
    2: ["a run of words that another function has too"],
    3: ["a loop with `while` or `loop`", "a loop over a range of numbers"],
    4: ["a newtype's number read beside a comparison", "a type without equality", "a function from one type to another by cases",
        "an arm's answer that stands twice before", "casts, three or more in a function"],
    5: ["a word that three or more `requires` begin a fact with", "types side by side in three or more signatures"],
    6: ["a slice and a number in one signature", "an array as field or local", "an index that isn't a literal"],
    7: ["a match whose arms call three or more functions", "ifs that return three or more calls"],
    8: ["a statement of a goal", "a lemma that no `use` names and its file doesn't use"],
}
NUMBERS = {"u8", "u16", "u32", "u64", "usize"}
WORD = re.compile(r"//[^\n]*|b?\"(?:\\.|[^\"\\])*\"|b?'(?:\\.|[^'\\\n])'|[A-Za-z_]\w*|\d\w*|::|=>|->|==|!=|<=|>=|\+=|-=|[^\s\w]")
OPEN, CLOSE = "([{", ")]}"


def stream(text):
    """The words of a source, each with its line; no comments."""
    out, line, last = [], 1, 0
    for m in WORD.finditer(text):
        line += text.count("\n", last, m.start())
        last = m.start()
        if not m.group().startswith("//"):
            out.append((m.group(), line))
    return out


def inside(words, at):
    """Where the bracket at `at` closes."""
    depth = 0
    for i in range(at, len(words)):
        depth += (words[i][0] in OPEN) - (words[i][0] in CLOSE)
        if depth == 0:
            return i
    return len(words) - 1


def find(words, at, wanted):
    while at < len(words) and words[at][0] not in wanted:
        at += 1
    return at


class Part:
    """A function or a type: its name, owner, line, the words of its head, of what it requires and of its body."""

    def __init__(self, path, sort, owner, words, at):
        self.path, self.sort, self.owner = path, sort, owner
        self.name, self.line = words[at + 1]
        self.requires, self.derives = [], []
        if sort != "fn":
            opened = find(words, at, "({;")
            self.end = inside(words, opened)
            self.head, self.body = [], words[opened + 1:self.end]
            return
        first, depth = at + 2, 0
        while words[first][0] != "(" or depth:
            depth += (words[first][0] == "<") - (words[first][0] == ">")
            first += 1
        closed = inside(words, first)
        stop = find(words, closed, ("requires", "ensures", "decreases", "{", ";"))
        self.head = words[at:at + 2] + words[first:stop]
        while stop < len(words) and words[stop][0] in ("requires", "ensures", "decreases"):
            opened = find(words, stop, "{")
            if words[stop][0] == "requires":
                self.requires.append(words[opened + 1:inside(words, opened)])
            stop = inside(words, opened) + 1
        self.end = inside(words, stop)
        self.body = words[stop + 1:self.end] if words[stop][0] == "{" else []

    def full(self):
        return f"{self.owner}::{self.name}" if self.owner else self.name

    def types(self):
        """The types of the parameters, without names and borrows."""
        text = " ".join(w for w, _ in self.head[find(self.head, 0, "(") + 1:])
        text = text.split(" -> ")[0].rsplit(")", 1)[0]
        return [re.sub(r"& |mut ", "", p.split(" : ", 1)[1]).strip() for p in re.split(r" ,", text) if " : " in p]

    def answer(self):
        words = [w for w, _ in self.head]
        return " ".join(words[words.index("->") + 1:]) if "->" in words else ""


def parts(path, text):
    words, owner, until, derives = stream(text), "", -1, []
    for at, (word, _) in enumerate(words):
        if at > until:
            owner = ""
        if word == "impl" and at > until:
            opened = find(words, at, "{")
            owner, until = next(w for w, _ in reversed(words[at:opened]) if w[0].isupper()), inside(words, opened)
        elif word == "derive":
            derives = [w for w, _ in words[at:inside(words, at + 1)]]
        elif word in ("fn", "enum", "struct") and words[at + 1][0].isidentifier():
            part = Part(path, word, owner, words, at)
            part.derives, derives = derives, []
            yield part


def arms(words):
    """Each match of a body: its line, and the words of each arm's pattern and answer."""
    for at, (word, line) in enumerate(words):
        if word != "match":
            continue
        opened = find(words, at, "{")
        out, i, end = [], opened + 1, inside(words, opened)
        while i < end:
            arrow = find(words, i, ("=>",))
            if arrow >= end:
                break
            stop = arrow + 1
            while stop < end and words[stop][0] != ",":
                stop = inside(words, stop) + 1 if words[stop][0] in OPEN else stop + 1
                if words[arrow + 1][0] == "{":
                    break
            out.append(([w for w, _ in words[i:arrow] if w != ","], [w for w, _ in words[arrow + 1:stop]]))
            i = stop + (stop < end and words[stop][0] == ",")
        yield line, out


class Reading:
    def __init__(self, texts):
        self.texts = texts
        self.parts = [p for path, t in s.sources(texts).items() for p in parts(path, t)]
        self.functions = [p for p in self.parts if p.sort == "fn"]
        self.types = [p for p in self.parts if p.sort != "fn"]
        self.enums = {p.name for p in self.types if p.sort == "enum"}
        self.own = {p.name for p in self.types}
        self.places = []

    def put(self, point, kind, part, line, what):
        self.places.append(s.Place(point, KINDS[point][kind], part.path, line, f"{part.full()}: {what}", part.full()))

    def all(self):
        for ask in (opened, numbers, bools, runs, loops, newtypes, equality, cases, facts, side_by_side, slices, switches):
            ask(self)
        proofs(self)
        return self.places


def opened(r):
    """1: what is done with values that could be an Option or a Result."""
    for f in r.functions:
        words = [w for w, _ in f.body]
        for i, w in enumerate(words):
            if w == "let" and words[i + 2:i + 3] == ["::"] and words[i + 1] in r.enums:
                r.put(1, 0, f, f.body[i][1], f"let {''.join(words[i + 1:i + 4])}")
            if w.isupper() and len(w) > 3 and words[i - 1] in ("return", "=>", "=="):
                r.put(1, 2, f, f.body[i][1], w)
        for line, table in arms(f.body):
            if len(table) == 2 and table[0][0][0] in r.enums and any(len(p) > 3 for p, _ in table):
                r.put(1, 1, f, line, " | ".join("".join(p[:3]) for p, _ in table))


def numbers(r):
    for f in r.functions:
        words = [w for w, _ in f.body]
        of = [t for t in f.types() + [f.owner] if t in r.enums]
        if f.answer() in NUMBERS and of:
            r.put(1, 3, f, f.line, f"{', '.join(of)} -> {f.answer()}")
        compared = Counter(words[i - 1] for i in range(1, len(words) - 1)
                           if words[i] in ("==", "!=", "<", "<=") and re.match(r"\d|b'", words[i + 1]) and words[i - 1] != ")")
        for name, n in compared.items():
            if n > 1:
                r.put(1, 5, f, f.line, f"{name}, {n} times")


def bools(r):
    for p in r.parts:
        words = [w for w, _ in (p.body if p.sort != "fn" else p.head)]
        last = words.index("->") if "->" in words else len(words)
        if "bool" in words[:last]:
            r.put(1, 4, p, p.line, "bool")


def runs(r):
    """2: runs of 36 words of one shape in two functions; a field's or method's name is part of the shape."""
    found = defaultdict(set)
    keep = set("let match if else return self mut while for in as true false".split())
    for n, f in enumerate(r.functions):
        words = [w for w, _ in f.body]
        shape = [w if w in keep or not re.match(r"\w", w) or words[i - 1:i] == ["."] else "T" if w[0].isupper() else "v"
                 for i, w in enumerate(words)]
        for i in range(len(shape) - 35):
            found[tuple(shape[i:i + 36])].add(n)
    pairs = {pair for group in found.values() if len(group) > 1 for pair in itertools.permutations(sorted(group), 2)}
    for a, b in sorted(pairs):
        f, g = r.functions[a], r.functions[b]
        r.put(2, 0, f, f.line, f"as in {g.path.split('/')[1]}.{g.full()}")


def loops(r):
    """3: every loop that isn't over the elements of something."""
    for f in r.functions:
        words = [w for w, _ in f.body]
        for i, w in enumerate(words):
            if w in ("while", "loop"):
                r.put(3, 0, f, f.body[i][1], " ".join(words[i:find(f.body, i, "{")]))
            if w == "for" and "." in words[i:i + 6] and re.search(r"\. \.", " ".join(words[i:find(f.body, i, "{")])):
                r.put(3, 1, f, f.body[i][1], " ".join(words[i:find(f.body, i, "{")]))


def newtypes(r):
    """4: a `.0` in a line that compares; three casts or more in a function."""
    for f in r.functions:
        by_line = defaultdict(list)
        for w, line in f.body:
            by_line[line].append(w)
        for line, words in by_line.items():
            if " . 0" in " ".join(words) and {"==", "!=", "<", "<=", ">", ">="} & set(words):
                r.put(4, 0, f, line, " ".join(words))
        if [w for w, _ in f.body].count("as") > 2:
            r.put(4, 4, f, f.line, f"{[w for w, _ in f.body].count('as')} casts")


def equality(r):
    for t in r.types:
        if "PartialEq" not in t.derives:
            r.put(4, 1, t, t.line, " ".join(w for w in t.derives if w.isidentifier() and w != "derive"))


def cases(r):
    for f in r.functions:
        given = f.types() or [f.owner]
        by_cases = f.body and f.body[0][0] in ("match", "if")
        if len(given) == 1 and by_cases and f.answer() not in ("", given[0]) and "bool" != f.answer():
            if given[0] in r.own | NUMBERS | {"bool"} and (f.owner in ("", given[0]) or not f.types()):
                r.put(4, 2, f, f.line, f"{given[0]} -> {f.answer()}")
        for line, table in arms(f.body):
            answer, n = Counter(" ".join(a) for _, a in table).most_common(1)[0] if table else ("", 0)
            if n > 2:
                r.put(4, 3, f, line, f"{n} times {answer[:50]}")


def facts(r):
    """5: the first word of each fact, and types (not names) that stand side by side."""
    heads = defaultdict(set)
    for n, f in enumerate(r.functions):
        for clause in f.requires:
            text = " ".join(w for w, _ in clause)
            for fact in re.split(r" × ", text):
                words = re.findall(r"[\w.]+|[<≤≡]", fact)
                head = words[0] if words[0][0].isupper() else " ".join(words[-2:])
                heads[head].add(n)
    for head, users in heads.items():
        for n in users if len(users) > 2 else []:
            r.put(5, 0, r.functions[n], r.functions[n].line, head)


def side_by_side(r):
    pairs, alone = defaultdict(set), Counter()
    for n, f in enumerate(r.functions):
        kinds = sorted({t for t in f.types() if t in r.own} | ({f.owner} if f.owner and "self" in [w for w, _ in f.head] else set()))
        alone.update(kinds)
        for pair in itertools.combinations(kinds, 2):
            pairs[pair].add(n)
    for pair, users in pairs.items():
        for n in users if len(users) > 2 and 2 * len(users) >= min(alone[t] for t in pair) else []:
            r.put(5, 1, r.functions[n], r.functions[n].line, ", ".join(pair))


def slices(r):
    """6: slices beside numbers, arrays, and what is indexed by a value."""
    for f in r.functions:
        kinds = f.types()
        if any(t.startswith("[ u8") for t in kinds) and "usize" in kinds:
            r.put(6, 0, f, f.line, ", ".join(kinds))
        words = [w for w, _ in f.body]
        indexed = Counter()
        for i, w in enumerate(words):
            if w == "[" and i and re.match(r"\w|\]", words[i - 1]) and words[i - 1] not in ("in", "return"):
                index = words[i + 1:inside(f.body, i)]
                if any(x.isidentifier() for x in index) and index[0] != "." and index.count(".") < 2:
                    indexed[words[i - 1] + "[" + "".join(index) + "]"] += 1
            if w == "[" and words[i - 1] == "=" and ";" in words[i:inside(f.body, i)]:
                r.put(6, 1, f, f.body[i][1], f"{words[i - 2]} = [..; {''.join(words[find(f.body, i, ';') + 1:inside(f.body, i)])}]")
        for what, n in indexed.items():
            r.put(6, 2, f, f.line, f"{what}, {n} times" if n > 1 else what)
    for t in r.types:
        for i, (w, line) in enumerate(t.body):
            if w == "[":
                r.put(6, 1, t, line, "".join(x for x, _ in t.body[i - 2:inside(t.body, i) + 1]))


def switches(r):
    """7: what an arm or an if hands on to."""
    for f in r.functions:
        for line, table in arms(f.body):
            called = set()
            for _, answer in table:
                called |= {answer[i] for i in range(len(answer) - 1) if answer[i + 1] == "(" and answer[i][0].islower()}
            if len(called) > 2 and len(table) > 2:
                r.put(7, 0, f, line, ", ".join(sorted(called))[:90])
        words = [w for w, _ in f.body]
        returned = {words[i + 1] for i in range(len(words) - 2) if words[i] == "return" and words[i + 2] == "("}
        if len(returned) > 2 and words.count("if") > 2:
            r.put(7, 1, f, f.line, ", ".join(sorted(returned)))


def proofs(r):
    """8: goals by their statements; lemmas by the `use` lines and lists that name them."""
    named = Counter()
    for text in r.texts.values():
        for line in re.findall(r"^\s*(?:pub )?(?:ghost )?use ([^\n]*)|using\(([^)]*)\)", text, re.M):
            named.update(re.findall(r"[^\s.,:{}()]+", " ".join(line)))
    for path, text in r.texts.items():
        if "/proofs/" not in path:
            continue
        for i, line in enumerate(text.split("\n"), 1):
            m = re.match(r"\s*(?:pub |abbrev )*([^\s:(){}]+) :(?: |$)(.*)", line)
            if m and path.endswith("/Invariants.antt"):
                continue
            if m and m.group(2).startswith("goal."):
                r.places.append(s.Place(8, KINDS[8][0], path, i, m.group(1), m.group(1)))
            elif m and line.startswith(("pub ", "abbrev ", m.group(1))) and not named[m.group(1)]:
                rest = [x for x in text.split("\n") if not x.lstrip().startswith((m.group(1) + " ", "--"))]
                if not re.search(rf"(?<![\w-]){re.escape(m.group(1))}(?![\w-])", "\n".join(x for x in rest if x != line)):
                    r.places.append(s.Place(8, KINDS[8][1], path, i, m.group(1), m.group(1)))


def beside(texts, read):
    """What only this way finds, by file and function."""
    spec = importlib.util.spec_from_file_location("places", s.TOP / "tools/design/count-places.py")
    other = importlib.util.module_from_spec(spec)
    spec.loader.exec_module(other)
    found = other.Count(texts).all()
    known = {(p.point, p.path, p.item) for p in found}
    enums = {p.item for p in found if p.point == 1}
    read = [p for p in read if p.point != 1 or not enums & set(re.findall(r"\w+", p.what))]
    for point, title in s.POINTS.items():
        rest = sorted({(p.path, p.line, p.kind, p.what) for p in read if p.point == point and (point, p.path, p.item) not in known})
        print(f"{point}. {title}: {len(rest)} by reading alone")
        for path, line, kind, what in rest:
            print(f"         {s.short(path)}:{line}  {what}  ({kind})")


def main():
    commit, given = s.arguments(__doc__)
    texts = s.files(commit)
    read = Reading(texts).all()
    s.report(texts, read, KINDS, "--list" in given)
    if "--beside" in given:
        beside(texts, read)


if __name__ == "__main__":
    main()
