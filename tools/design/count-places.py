#!/usr/bin/env python3
"""Counts the places of the design pass, point by point, in crates/*/src and crates/*/proofs.

usage: tools/design/count-places.py [COMMIT] [--list]

Without COMMIT the working tree is counted. With --list each place follows its count, as `crate/src/file.rt:line  what`,
and the comment that stands beside it. Each kind is known by its shape: no place is named here.
count-by-reading.py counts the same in another way.
"""
import difflib
import itertools
import re
import sys
from collections import Counter, defaultdict

sys.dont_write_bytecode = True
import declarations as d
import sources as s

NUMBERS = r"(?:[ui](?:8|16|32|64|128|size))"
NONE_NAMES = r"(None|Nothing|Nobody|Unknown|Malformed|Short|Absent|Missing|Unmade)"
ERROR = r"\b\w*(Refusal|Error)\b"
KIND_NAMES = r"(code|kind|number|refusal|flavour|word|reply)"

KINDS = {
    1: ["an enum of two variants, one without payload (Option)", "an enum with a refusal beside other variants (Result)",
        "an enum with a variant for none beside three or more", "an enum of two variants with a payload each",
        "a struct with a flag beside what it tells of", "a constant that stands for none", "a function that uses such a constant",
        "a function that answers 0 for none", "a function that answers numbers for an enum's variants",
        "a number for a kind, code or refusal, as parameter or field", "a chain of comparisons of one value with literals"],
    2: ["functions that are one but for names and numbers", "functions that are nearly one", "types that are one but for names"],
    3: ["an index counted up", "a place in a text moved on", "a count down"],
    4: ["a newtype's numbers compared", "an enum's variants listed to yes and no", "one answer in three or more arms",
        "a conversion by a match", "a conversion of bool by if", "the lesser of two by hand",
        "a type that derives no equality", "a printed line by hand"],
    5: ["a fact in three or more `requires`", "parameters that travel together in three or more signatures"],
    6: ["a slice with a position or a length beside it", "a struct of an array and its length", "arrays of one length beside each other",
        "a list searched by hand", "an array indexed by another's number", "a buffer on the stack",
        "arrays of one length in several structs"],
    7: ["a match that calls a function in each arm", "a chain of ifs that calls a function each", "a match that calls one method of each payload"],
    8: ["a file", "a goal answered by hand", "a lemma that no text cites (the search may still use it)", "a lemma's statement that repeats",
        "an answer that repeats in three or more", "a tactic's own list of words and lemmas"],
}


class Count:
    def __init__(self, texts):
        self.texts = texts
        self.sources = [d.Source(p, t) for p, t in s.sources(texts).items()]
        self.places = []

    def put(self, point, kind, source, at, what, item=""):
        self.places.append(s.Place(point, KINDS[point][kind], source.path, source.line(at), what, item))

    def functions(self):
        for source in self.sources:
            for function in source.functions:
                yield source, function

    def all(self):
        for number in sorted(POINTS):
            for count in POINTS[number]:
                count(self)
        return self.places


def full(function):
    return f"{function.owner}::{function.name}" if function.owner else function.name


# 1. Own enums, flags, sentinels, numbers.

def own_enums(c):
    for source in c.sources:
        for e in source.enums:
            bare = [v for v in e.variants if not v.payload]
            errors = [v for v in e.variants if re.search(ERROR, v.payload)]
            two = len(e.variants) == 2
            shown = e.name + " { " + ", ".join(v.name + v.payload for v in e.variants)[:90] + " }"
            if two and len(bare) == 1 and not errors:
                c.put(1, 0, source, e.at, shown, e.name)
            elif errors:
                c.put(1, 1, source, e.at, shown, e.name)
            elif any(re.fullmatch(NONE_NAMES, v.name) for v in bare):
                c.put(1, 2, source, e.at, shown, e.name)
            elif two and not bare:
                c.put(1, 3, source, e.at, shown, e.name)


def flags(c):
    for source in c.sources:
        for t in source.structs:
            bools = [n for n, k in t.fields if k == "bool"]
            if bools and len(t.fields) > 1:
                c.put(1, 4, source, t.at, f"{t.name}: {', '.join(bools)} beside {', '.join(n for n, _ in t.fields if n not in bools)}", t.name)


def sentinels(c):
    names = set()
    for source in c.sources:
        for k in source.consts:
            if re.match(r"(NO_|NONE$|NOTHING|NOBODY|UNKNOWN|MISSING|TOO_)", k.name):
                names.add(k.name)
                c.put(1, 5, source, k.at, f"{k.name}: {k.type} = {k.value}", k.name)
    for source, f in c.functions():
        for name in sorted(names & set(re.findall(r"\b[A-Z][A-Z_]+\b", f.body))):
            c.put(1, 6, source, f.at, f"{full(f)}: {name}", full(f))


def zeros_for_none(c):
    for source, f in c.functions():
        if not re.fullmatch(NUMBERS, f.answer):
            continue
        by_match = any(any(a.body == "0" for a in m.arms) and any(not a.body[:1].isdigit() for a in m.arms)
                       for m in d.matches(f))
        by_if = re.search(r"return [a-z][^;]*;\s*\}\s*0\s*$", f.body)
        if by_match or by_if:
            c.put(1, 7, source, f.at, f"{full(f)} -> {f.answer}", full(f))


def numbers_for_kinds(c):
    literal = r"(\w+(::\w+)*\()?(0x)?\d\w*\b.*"
    for source, f in c.functions():
        for m in d.matches(f):
            if len(m.arms) > 1 and all(re.fullmatch(literal, a.body) for a in m.arms) and "::" in m.arms[0].pattern:
                c.put(1, 8, source, m.at, f"{full(f)}: {len(m.arms)} numbers", full(f))
        for name, kind in f.params:
            if re.fullmatch(KIND_NAMES, name) and re.fullmatch(NUMBERS, kind):
                c.put(1, 9, source, f.at, f"{full(f)}({name}: {kind})", full(f))
    for source in c.sources:
        for t in source.structs:
            for name, kind in t.fields:
                if re.fullmatch(KIND_NAMES, name) and re.fullmatch(NUMBERS, kind):
                    c.put(1, 9, source, t.at, f"{t.name}.{name}: {kind}", t.name)
        for e in source.enums:
            for v in e.variants:
                for name, kind in d.pairs(v.payload.strip("{ }")):
                    if re.fullmatch(KIND_NAMES, name) and re.fullmatch(NUMBERS, kind):
                        c.put(1, 9, source, e.at, f"{e.name}::{v.name}.{name}: {kind}", e.name)


def chains_of_comparisons(c):
    for source, f in c.functions():
        names = Counter(re.findall(r"\b(\w+) (?:==|!=|<|<=) (?:0x)?\d", f.body))
        for name, n in names.items():
            if n > 2:
                c.put(1, 10, source, f.at, f"{full(f)}: {name}, {n} times", full(f))


# 2. Twins.

KEEP = set("let match if else return self mut fn pub while for in as true false Self".split())
WORD = re.compile(r"[A-Za-z_]\w*|\d\w*|[^\s\w]+?")


def tokens(text):
    """The words of a text; what a pattern passes over isn't told."""
    text = re.sub(r"\w+: _\b,?|\.\.(?=\s*\})|(?<=[({,\s])_(?=[,)\s])", "", text)
    return WORD.findall(re.sub(r",(\s*[)}\]])", r"\1", text))


def canonical(words):
    """Each name and number replaced by when it first stood."""
    seen = {}
    return tuple(w if w in KEEP or not re.match(r"\w", w) else seen.setdefault(w, f"#{len(seen)}") for w in words)


def shape(words):
    return [w if w in KEEP or not re.match(r"\w", w) else "N" if w[0].isdigit() else "T" if w[0].isupper() else "v" for w in words]


def function_words(f):
    head = ",".join(f"{n}:{k}" for n, k in f.params)
    return tokens(f"({head}) -> {f.answer} {{ {f.body} }}")


def twins(c):
    groups, sized = defaultdict(list), []
    for source, f in c.functions():
        words = function_words(f)
        if len(words) >= 30:
            groups[canonical(words)].append((source, f))
            sized.append((source, f, words))
    one = {}
    for n, group in enumerate(g for g in groups.values() if len(g) > 1):
        for source, f in group:
            one[(source.path, f.at)] = n
            others = ", ".join(f"{a.path.split('/')[1]}.{full(b)}" for a, b in group if b is not f)
            c.put(2, 0, source, f.at, f"{full(f)} = {others}", full(f))
    for (a, f, x), (b, g, y) in itertools.combinations(sized, 2):
        same = one.get((a.path, f.at), -1) == one.get((b.path, g.at), -2)
        if not same and near(x, y):
            c.put(2, 1, a, f.at, f"{full(f)} ~ {b.path.split('/')[1]}.{full(g)}", full(f))
            c.put(2, 1, b, g.at, f"{full(g)} ~ {a.path.split('/')[1]}.{full(f)}", full(g))


def without_patterns(words):
    """The words of a function without those before each `=>`, so that tables of one enum aren't alike for that alone."""
    out = []
    for word, after in zip(words, words[1:] + [""]):
        if word == "=" and after == ">":
            if out[-1:] == ["}"]:
                out = out[:len(out) - out[::-1].index("{")]
            while out and out[-1] not in (",", "{", "}"):
                out.pop()
        out.append(word)
    return out


def near(x, y):
    """Of one shape but for a twentieth, or a tenth where two words in three are the same."""
    if min(len(x), len(y)) < 40 or not 0.8 < len(x) / len(y) < 1.25:
        return False
    x, y = without_patterns(x), without_patterns(y)
    match = difflib.SequenceMatcher(None, shape(x), shape(y), autojunk=False)
    names = min(len({w for w in words if w[0].isalpha()} - KEEP) for words in (x, y))
    if names < 8 or match.quick_ratio() < 0.9 or match.ratio() < 0.9:
        return False
    same = difflib.SequenceMatcher(None, x, y, autojunk=False).ratio()
    return same > 0.7 or (match.ratio() > 0.95 and same > 0.6)


def type_twins(c):
    found = []
    for source in c.sources:
        for t in source.enums:
            text = ",".join(v.name + v.payload for v in t.variants)
            found.append((source, t, tokens("enum " + text)))
        for t in source.structs:
            if len(t.fields) > 1 and not t.tuple:
                found.append((source, t, tokens("struct " + ",".join(f"{n}:{k}" for n, k in t.fields))))
    for (a, t, x), (b, o, y) in itertools.combinations(found, 2):
        p, q = parts(x), parts(y)
        if canonical(x) == canonical(y) and 3 * len(p & q) >= len(p | q):
            c.put(2, 2, a, t.at, f"{t.name} = {o.name}", t.name)
            c.put(2, 2, b, o.at, f"{o.name} = {t.name}", o.name)


def parts(words):
    """The words that the names are put together of."""
    names = [w for w in words if re.match(r"[A-Za-z]", w) and w not in KEEP | {"enum", "struct"}]
    return {part.lower() for w in names for part in re.findall(r"[A-Z]?[a-z0-9]+", w)}


# 3. Loops by hand.

def hand_loops(c):
    for source, f in c.functions():
        for condition, body, at in d.loops(f):
            ups = re.findall(r"\b(\w+) \+= 1;", body)
            moved = re.findall(r"\b(\w+) = (\w+)", body)
            named = [n for n in ups if re.search(rf"\b{n}\b", condition)]
            shown = f"{full(f)}: while {' '.join(condition.split())}"
            if named:
                c.put(3, 0, source, at, shown, full(f))
            elif re.search(r"-= 1;", body):
                c.put(3, 2, source, at, shown, full(f))
            elif any(re.search(rf"\b{n}\b", condition) for n, _ in moved):
                c.put(3, 1, source, at, shown, full(f))


# 4. Equality, order, copying, conversion, printing.

def compared_numbers(c):
    for source, f in c.functions():
        for m in re.finditer(r"\.0\s*(?:as \w+\s*)?(?:==|!=|<=?|>=?)(?!<)|(?<!=)(?:==|!=|<=?|>=?) \w+(?:\.\w+)*\.0\b", f.body):
            line = source.line(f.body_at + m.start())
            c.put(4, 0, source, f.body_at + m.start(), f"{full(f)}: {source.text.split(chr(10))[line - 1].strip()}", full(f))


def listed_answers(c):
    for source, f in c.functions():
        for m in d.matches(f):
            bools = [a for a in m.arms if a.body in ("true", "false")]
            if len(bools) > 1 and "::" in m.arms[0].pattern:
                c.put(4, 1, source, m.at, f"{full(f)}: {len(bools)} of {len(m.arms)} arms", full(f))
            body, n = Counter(a.body for a in m.arms).most_common(1)[0] if m.arms else ("", 0)
            if n > 2 and body not in ("true", "false"):
                c.put(4, 2, source, m.at, f"{full(f)}: {n} times {body[:50]}", full(f))


def conversions(c):
    for source, f in c.functions():
        params = [k for _, k in f.params]
        whole = re.fullmatch(r"\s*match (self|\w+) \{.*\}\s*", f.body, re.S)
        if len(params) == 1 and whole and f.answer not in ("bool", "Self", params[0], f.owner):
            c.put(4, 3, source, f.at, f"{full(f)}: {f.owner or params[0]} -> {f.answer}", full(f))
        if params == ["bool"] and re.match(r"\s*if \w+ \{", f.body):
            c.put(4, 4, source, f.at, f"{full(f)}: bool -> {f.answer}", full(f))
        if re.fullmatch(r"\s*if (\w+) <=? (\w+) \{\s*return \1;\s*\}\s*\2\s*", f.body):
            c.put(4, 5, source, f.at, full(f), full(f))


def plain_types(c):
    for source in c.sources:
        for t in source.enums + source.structs:
            if "PartialEq" not in t.derives:
                c.put(4, 6, source, t.at, f"{t.name}: derives {', '.join(t.derives) or 'nothing'}", t.name)
        for m in re.finditer(r"write_all\(b\"|\bprint!", source.text):
            c.put(4, 7, source, m.start(), source.text[m.start():].split("\n")[0][:60])


# 5. Facts, and parameters together.

def facts(c):
    found = defaultdict(list)
    for source, f in c.functions():
        types = {n: (f.owner if k == "Self" else re.sub(r"&(mut )?", "", k)) for n, k in f.params}
        for clause in f.requires:
            for part in d.split(clause, "×", angles=False):
                part = part[1:-1] if part.startswith("(") and d.closing(part, 0) == len(part) - 1 else part
                fact = re.sub(r"[a-z_]\w*", lambda m: f"‹{types[m.group()]}›" if m.group() in types else m.group(), part)
                fact = re.sub(r".*≤ length (‹\[u8\]›\.old)", r"room in \1", " ".join(fact.split()))
                found[fact].append((source, f))
    for fact, places in found.items():
        if len({(a.path, f.at) for a, f in places}) > 2:
            for source, f in places:
                c.put(5, 0, source, f.at, f"{fact}: {full(f)}", full(f))


def together(c):
    """The largest groups of parameters in three or more signatures, one of which seldom stands without the others."""
    sets = [(source, f, frozenset(p for p in f.params if p[0] != "self")) for source, f in c.functions()]
    alone = Counter(p for _, _, own in sets for p in own)
    groups = {a & b for (_, _, a), (_, _, b) in itertools.combinations(sets, 2) if len(a & b) > 1}
    support = {g: sum(1 for _, _, own in sets if g <= own) for g in groups}
    groups = {g for g, n in support.items() if n > 2 and n >= 0.75 * min(alone[p] for p in g)}
    for source, f, own in sets:
        inside = [g for g in groups if g <= own]
        for g in (g for g in inside if not any(g < h for h in inside)):
            names = ", ".join(f"{n}: {k}" for n, k in f.params if (n, k) in g)
            c.put(5, 1, source, f.at, f"({names}) {full(f)}", full(f))


# 6. Buffers, parallel arrays, searches, arenas.

def buffers(c):
    for source, f in c.functions():
        kinds = [k for _, k in f.params]
        if any("[u8]" in k for k in kinds) and "usize" in kinds:
            c.put(6, 0, source, f.at, f"{full(f)}({', '.join(n + ': ' + k for n, k in f.params)})"[:110], full(f))
        for m in re.finditer(r"let (?:mut )?(\w+) = \[0u8; ([^\]]+)\]", f.body):
            c.put(6, 5, source, f.body_at + m.start(), f"{full(f)}: {m.group(1)}, {m.group(2)} bytes", full(f))


def arrays(c):
    for source in c.sources:
        for t in source.structs:
            sizes = [(n, m.group(1)) for n, k in t.fields if (m := re.fullmatch(r"\[.*; (\w+)\]", k))]
            if sizes and any(n in ("len", "length", "count", "n") and k != "u32" for n, k in t.fields):
                c.put(6, 1, source, t.at, f"{t.name}: {sizes[0][0]}", t.name)
            beside(c, source, t.at, t.name, sizes)
    for source, f in c.functions():
        local = re.findall(r"let mut (\w+) = \[[^;\]]+; ([A-Z]\w+)\]", f.body)
        local += [(n, "Array") for n in re.findall(r"let mut (\w+) = fresh\.\w+s;", f.body)]
        beside(c, source, f.at, full(f), local)


def across(c):
    """Arrays of one length in several structs, indexed by one number; a list with its own length isn't one of them."""
    found = defaultdict(list)
    for source in c.sources:
        for t in source.structs:
            for n, k in t.fields:
                m = re.fullmatch(r"\[.*; (\w+)\]", k)
                if m and not any(name == "len" for name, _ in t.fields):
                    found[m.group(1)].append((source, t, n))
    for size, group in found.items():
        for source, t, n in group if len({t.name for _, t, _ in group}) > 1 else []:
            c.put(6, 6, source, t.at, f"{t.name}.{n} by {size}", t.name)


def beside(c, source, at, name, sizes):
    for size, group in itertools.groupby(sorted(sizes, key=lambda x: x[1]), key=lambda x: x[1]):
        names = [n for n, _ in group]
        if len(names) > 1:
            c.put(6, 2, source, at, f"{name}: {', '.join(names)} by {size}", name)


def searches(c):
    for source, f in c.functions():
        for condition, body, at in d.loops(f):
            if re.search(r"\[\w+\]|\(\w*at\w*\)", body) and re.search(r"\breturn\b|times", body):
                c.put(6, 3, source, at, f"{full(f)}: while {' '.join(condition.split())}", full(f))
        for m in re.finditer(r"\b([\w.]+)\[(\w+)\.0 as usize\]", f.body):
            c.put(6, 4, source, f.body_at + m.start(), f"{full(f)}: {m.group()}", full(f))


# 7. Switches.

CALL = re.compile(r"\b([a-z]\w*(?:::[a-z]\w*|\.[a-z]\w*)*)\(")


def switches(c):
    for source, f in c.functions():
        for m in d.matches(f):
            calls = [CALL.findall(a.body) for a in m.arms]
            called = {x[-1] if x[-1].count(".") else x[0] for x in calls if x}
            payload = [x[-1].split(".", 1) for a, x in zip(m.arms, calls) if x and re.search(rf"\b{x[-1].split('.')[0]}\b", a.pattern)]
            methods = Counter(x[1] for x in payload if len(x) > 1)
            if len(called) > 2 and sum(map(bool, calls)) > 2:
                c.put(7, 0, source, m.at, f"{full(f)}: {', '.join(sorted(called))[:90]}", full(f))
            elif methods and max(methods.values()) > 1:
                c.put(7, 2, source, m.at, f"{full(f)}: .{methods.most_common(1)[0][0]}()", full(f))
        ifs = re.findall(r"if [^{]*\{\s*(?:return )?([a-z]\w*)\(", f.body)
        if len(set(ifs)) > 2:
            c.put(7, 1, source, f.at, f"{full(f)}: {', '.join(ifs)}", full(f))


# 8. Proofs.

ANTT = re.compile(r"[^\s(){}\[\],;.:λ→×≡⟨⟩]+")
HEAD = re.compile(r"^(\s*)((?:pub |abbrev |unfoldable )*)([^\s:(){}]+) :(?= |$)(.*)")


def blocks(text):
    """The declarations of a proof file: name, whether it's public, its line, its statement and its body."""
    lines, out = text.split("\n"), []
    for i, line in enumerate(lines):
        m = HEAD.match(line)
        if not m or len(m.group(1)) > 2 or m.group(3) in ("--", "where", "let", "data", "record"):
            continue
        end = i + 1
        while end < len(lines) and (lines[end].startswith(m.group(1) + " ") or lines[end].startswith(
                (m.group(1) + m.group(3) + " ", m.group(1) + "unfolding "))):
            end += 1
        rest = [m.group(4)] + lines[i + 1:end]
        cut = next((k for k, x in enumerate(rest[1:], 1) if x.strip().startswith((m.group(3) + " ", "unfolding "))), len(rest))
        out.append((m.group(3), "pub" in m.group(2), i + 1, "\n".join(rest[:cut]), "\n".join(rest[cut:]), end))
    return out


def in_record(text, line):
    """Does the line stand in a record's fields?"""
    lines = text.split("\n")[:line]
    head = next((x for x in reversed(lines[:-1]) if x and not x.startswith((" ", "--"))), "")
    return lines[-1].startswith("  ") and head.removeprefix("pub ").startswith(("record", "data"))


def renamed(statement):
    """A statement with its bound names told by when they first stood."""
    seen = {}
    bound = {n for group in re.findall(r"[({]([^(){}:]+) :", statement) for n in group.split()}
    return " ".join(seen.setdefault(w, f"#{len(seen)}") if w in bound else w for w in re.findall(r"[^\s(){}]+|[(){}]", statement))


def proofs(c):
    proof = {p: t for p, t in c.texts.items() if "/proofs/" in p and p.endswith(".antt")}
    used = {p: Counter(w for line in t.split("\n") if not re.match(r"\s*(use|pub use|--)\b", line)
                       for w in ANTT.findall(line.replace("::", "."))) for p, t in c.texts.items()}
    total = sum(used.values(), Counter())
    statements, bodies = defaultdict(list), defaultdict(list)
    for path, text in proof.items():
        c.places.append(s.Place(8, KINDS[8][0], path, 1, f"{len(text.splitlines())} lines", ""))
        for name, public, line, statement, body, _ in blocks(text):
            place = (path, line, name)
            if re.match(r"\s*goal\.", statement):
                kind = path.endswith("/Answers.antt")
                if kind:
                    c.places.append(s.Place(8, KINDS[8][1], path, line, name, name))
                    bodies[" ".join(body.split("=", 1)[-1].split())].append(place)
                continue
            if path.endswith("/Invariants.antt") or in_record(text, line):
                continue
            own = Counter(w for x in (statement, body) for w in ANTT.findall(x))[name]
            if (total if public else used[path])[name] - own - 1 <= 0:
                c.places.append(s.Place(8, KINDS[8][2], path, line, name, name))
            if not line or not text.split("\n")[line - 1].startswith(" "):
                statements[renamed(statement)].append(place)
    repeated(c, statements, bodies)


def repeated(c, statements, bodies):
    for group in statements.values():
        for path, line, name in group if len(group) > 1 else []:
            others = ", ".join(f"{p.split('/')[1]}.{n}" for p, _, n in group if (p, n) != (path, name))
            c.places.append(s.Place(8, KINDS[8][3], path, line, f"{name} = {others[:90]}", name))
    for body, group in bodies.items():
        for path, line, name in group if len(group) > 2 and body else []:
            c.places.append(s.Place(8, KINDS[8][4], path, line, f"{name} = {body[:60]}", name))
    for source in c.sources:
        for m in re.finditer(r"#!?\[tactic\(auto, (using|unfolding)", source.code):
            c.put(8, 5, source, m.start(), source.text[m.start():].split("\n")[0][:90])


POINTS = {
    1: [own_enums, flags, sentinels, zeros_for_none, numbers_for_kinds, chains_of_comparisons],
    2: [twins, type_twins], 3: [hand_loops],
    4: [compared_numbers, listed_answers, conversions, plain_types],
    5: [facts, together], 6: [buffers, arrays, across, searches], 7: [switches], 8: [proofs],
}


def main():
    commit, flags_given = s.arguments(__doc__)
    texts = s.files(commit)
    s.report(texts, Count(texts).all(), KINDS, "--list" in flags_given)


if __name__ == "__main__":
    main()
