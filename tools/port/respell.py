#!/usr/bin/env python3
"""Respells the repository's own definitions and lemmas: camelCase and kebab-case -> snake_case, a prime -> an apostrophe.

usage: respell.py [--dry]      (at the top of the repository, once, after port.py and its commit)

Touches crates/*/specs/**.antt, crates/*/proofs/**.antt, the clauses and `ghost use` lines of crates/*/src/**.rt,
and the texts of crates/*/must-fail/*.edit (which are also brought from the older syntax to this one).
Strings, functions, fields, variants and constants of src/, stdin, stdout stay.
Prints COLLISION, TAKEN, WORD and EDIT lines: what to look at by hand. Writes respelled.tsv, older and newer name, beside this file.
A second run changes nothing.
"""
import collections
import glob
import os
import re
import sys
import subprocess

KIT_FOLDER = os.path.dirname(subprocess.run(["rt", "doc"], capture_output=True, text=True).stdout.strip())

DRY = "--dry" in sys.argv
NAME = r'[^\s(){}.;,@"«»]+'
TOKEN = re.compile(NAME)
SIG = re.compile(
    rf"(?m)^( *)(?:(?:abbrev|unfoldable|pub|record|data|axiom) +)*({NAME})(?: \{{[^{{}}\n]*\}})*(?: \([^()\n]*(?:\([^()\n]*\)[^()\n]*)*\))* :(?= |$)"
)
USE = re.compile(r"(?ms)^(?:pub )?use ([^\s{]+?)\.\{([^}]*)\}")

# Old name -> new name where plain respelling would meet another name of the repository. A definition that contracts cite keeps the
# plain spelling, a lemma beside it gets `_lem`, a constructor a word that says which one it is. The map is one to one.
OVERRIDES = {
    # constructors of data types of specs/
    "fresh-array": "fresh_as_array",
    "fresh-zero": "fresh_as_zero",
    "waits-on": "waits_on_still",
    "is-picked": "is_picked_first",
    "goes_on": "goes_on_here",
    # lemmas spelled in snake case already, beside a definition in camel case
    "first_step": "first_step_lem",
    "put_step": "put_step_lem",
    "take_step": "take_step_lem",
    "made_array": "made_array_lem",
    "one_more": "one_more_lem",
}
# Words that are tactics or reserved, and plain words of the kit: a definition may not have them.
RESERVED = set(
    "data record deriving module where use mod pub package open as unfoldable abbrev axiom unfold unfolding ruleset mutual infix infixl infixr elim let in do Type coe fcoe tcoe hcom com search omega grind simp rw cc subst assumption ground result".split()
)


def code(text):
    return re.sub(r"(?m)(^|(?<=\s))--.*", "", text)


def snake(n):
    n = re.sub(r"(?<=[a-z0-9'])[A-Z]", lambda m: "_" + m[0].lower(), n)
    # a type's name stays a type's name: `Kept-by` -> `KeptBy`
    if n[:1].isupper():
        return re.sub(r"-(.)", lambda m: m[1].upper(), n).replace("′", "'")
    return n.replace("-", "_").replace("′", "'")


def antt_files():
    """Definitions, lemmas and walks. The names of goals, in today's Invariants.antt and Answers.antt, are the checker's."""
    files = glob.glob("crates/*/specs/**/*.antt", recursive=True) + glob.glob("crates/*/proofs/**/*.antt", recursive=True)
    return sorted(f for f in files if os.path.basename(f) not in ("Invariants.antt", "Answers.antt"))


def is_walk(f):
    return f.endswith("/Proof.antt") or f.endswith("/Proof.antt.old")


def worth(n):
    return (
        bool(re.search(r"[A-Za-z0-9'_]-[A-Za-z0-9]", n))
        or bool(re.match(r"[a-z][^-]*[A-Z]", n))
        or "′" in n
    )


def kit_words():
    t = open(KIT_FOLDER + "/rattle/std/specs/Prelude.antt").read()
    words = set()
    for m in re.finditer(r"(?ms)use [^\s{]+\.\{([^}]*)\}", t):
        words |= set(TOKEN.findall(m[1]))
    return words


def main():
    files = antt_files()
    text = {f: open(f).read() for f in files}
    declared = collections.defaultdict(set)
    external = {}
    for f in files:
        c = code(text[f])
        external[f] = set()
        for m in USE.finditer(c):
            if not m[1].startswith("Rattle.") or re.match(r"Rattle\.(std|core)\b", m[1]):
                external[f] |= set(TOKEN.findall(m[2]))
        if is_walk(f):
            continue
        for m in SIG.finditer(c):
            declared[m[2]].add(f)
        # where-clauses and lets that are not at a line's start
        for m in re.finditer(rf"\blet ({NAME}) (?::|=)", c):
            if worth(m[1]):
                declared[m[1]].add(f)
        # data constructors and definitions by cases without a signature line that SIG sees
        for m in re.finditer(rf"(?m)^ *(?:pub )?({NAME})(?: {NAME})* =", c):
            if worth(m[1]) and m[1] not in external[f]:
                declared[m[1]].add(f)
    table = {}
    for n in declared:
        if n in OVERRIDES:
            # only beside the name that it would meet: so a second run changes nothing
            if "-" in n or any(snake(o) == n for o in declared if o != n):
                table[n] = OVERRIDES[n]
        elif worth(n):
            table[n] = snake(n)
    # one to one
    into = collections.defaultdict(set)
    for n in declared:
        into[table.get(n, n)].add(n)
    for new, olds in sorted(into.items()):
        if len(olds) < 2:
            continue
        # the definition keeps the plain spelling: snake already, or camel case; lemmas (kebab) get `_lem`
        plain = [o for o in olds if "-" not in o]
        lems = [o for o in olds if "-" in o]
        if len(plain) == 1 and len(lems) == 1:
            table[lems[0]] = new + "_lem"
            print(f"COLLISION resolved: {plain[0]} -> {new}, {lems[0]} -> {new}_lem")
        else:
            print(f"COLLISION: {sorted(olds)} all become {new}: {[sorted(declared[o])[:2] for o in olds]}")
    values = collections.Counter(table.values())
    for v, k in values.items():
        if k > 1 or (v in declared and v not in table):
            print(f"COLLISION left: {v}: {[o for o in table if table[o] == v]} {sorted(declared.get(v, []))[:2]}")
    words = kit_words()
    for o, v in sorted(table.items()):
        if v in RESERVED:
            print(f"WORD: {o} -> {v} is reserved")
    for n in sorted(declared):
        v = table.get(n, n)
        if v in words and any("/specs/" in f for f in declared[n]):
            print(f"WORD: {n} -> {v} is a word of the kit's Prelude: {sorted(f for f in declared[n] if '/specs/' in f)[:3]}")

    # source names
    fields, params = set(), set()
    for f in glob.glob("crates/*/src/**/*.rt", recursive=True):
        t = open(f).read()
        for m in re.finditer(r"(?m)^\s*(?:pub )?(\w+): ", t):
            fields.add(m[1])
    for o, v in sorted(table.items()):
        if v in fields and any("/specs/" in f for f in declared[o]):
            print(f"TAKEN: {o} -> {v} is also a field or parameter of src/: {sorted(declared[o])[:2]}")

    changed = 0

    def turn(c, f, walk=False, only=None):
        ext = external.get(f, set())

        def put(m):
            w = m[0]
            if w not in table or w in ext or (only is not None and w not in only):
                return w
            if walk:
                before = m.string[max(0, m.start() - 200) : m.start()]
                head = re.search(r"([^\s(){};,]*)\.$", before)
                after = m.string[m.end() : m.end() + 12]
                if head and re.match(r"(c|tie|w|v|l)(\.|$)", head[1]):
                    return w
                if head and re.match(r"\.(ensures|result|given|taken|left|true|false|new|branch)\b", after):
                    return w
            return table[w]

        return TOKEN.sub(put, c)

    # .antt: comments keep their words but for those in backticks
    for f in files:
        out = []
        seen = set(TOKEN.findall(code(text[f])))
        for o in sorted(seen & set(table)):
            if table[o] in seen and table[o] not in table and o not in external[f] and not is_walk(f):
                print(f"TAKEN: {f}: {o} -> {table[o]}, which the file has already")
        for line in text[f].split("\n"):
            m = re.match(r"(.*?)((?:^|(?<=\s))--.*)$", line)
            c, k = (m[1], m[2]) if m else (line, "")
            parts = re.split(r'("(?:[^"\\]|\\.)*")', c)
            c = "".join(p if p.startswith('"') else turn(p, f, is_walk(f)) for p in parts)
            k = re.sub(r"`([^`]*)`", lambda q: "`" + turn(q[1], f) + "`", k)
            out.append(c + k)
        new = "\n".join(out)
        if new != text[f]:
            changed += 1
            if not DRY:
                open(f, "w").write(new)

    # .rt: clauses and ghost use lines
    def clauses(t):
        spans = [(m.start(), m.end()) for m in re.finditer(r"(?m)^\s*(?:pub )?ghost use [^;]*;", t)]
        for m in re.finditer(r"\b(?:requires|ensures|ghost|invariant)\b\*?(?:\s+\w+)?:?\s*\{", t):
            i, d = m.end(), 1
            while i < len(t) and d:
                d += {"{": 1, "}": -1}.get(t[i], 0)
                i += 1
            spans.append((m.end(), i))
        return sorted(spans)

    for f in sorted(glob.glob("crates/*/src/**/*.rt", recursive=True)):
        t = open(f).read()
        out, at = [], 0
        for a, b in clauses(t):
            if a < at:
                continue
            out += [t[at:a], turn(t[a:b], f)]
            at = b
        new = "".join(out) + t[at:]
        new = re.sub(r"(?m)^(\s*///?.*)$", lambda m: re.sub(r"`([^`]*)`", lambda q: "`" + turn(q[1], f) + "`", m[1]), new)
        # a parameter that hides a word of its clauses
        for m in re.finditer(r"\bfn (\w+)[^{;]*?\(([^)]*)\)", new):
            ps = set(re.findall(r"(\w+):", m[2]))
            rest = new[m.end() : m.end() + 1500].split("\n    {\n")[0].split("\n{\n")[0]
            for a, b in clauses(rest):
                for w in set(TOKEN.findall(rest[a:b])) & ps & set(table.values()):
                    print(f"TAKEN: {f}: parameter {w} of {m[1]} hides the word {w} of its clause")
        if new != t:
            changed += 1
            if not DRY:
                open(f, "w").write(new)

    # must-fail edits
    print(f"respell: {len(table)} names, {changed} files")
    edits(table, turn)
    if table and not DRY:
        with open(os.path.join(os.path.dirname(os.path.realpath(__file__)), "respelled.tsv"), "w") as o:
            for a in sorted(table):
                o.write(f"{a}\t{table[a]}\n")


# Words of the older kit that stand in edits.
KIT = {
    "getD": "get_or",
    "_≡_": "◌≡◌",
    "leb": "leb",
    "the-variants": "TheVariants",
    "vec-len": "vec_len",
}


def tight(s):
    """The older `x .f`, `(x .f)`, `f a b .g` as `x.f`, `x.f`, `(f a b).g`."""
    toks = re.findall(r"\s+|\.[^\s(){};,.]+(?=[\s(){};,.]|$)|[(){};,]|[^\s(){};,]+", s)
    pos = 0
    STOP = set("= : → × ≡ < ≤ ∷ ++ + - * / % ≢ ⊎ → ← && || then else in if ; , λ".split())

    def atom(i):
        t = toks[i]
        if t == "(":
            inner, j, items = group(i + 1)
            single = len(items) == 1 and not re.search(r"\s", inner)
            return (inner if single and "." in inner else "(" + inner + ")"), j
        return t, i + 1

    def group(i):
        out, spine, nargs = "", None, 0
        items = []

        def flush():
            nonlocal out, spine, nargs
            if spine is not None:
                out += spine
                items.append(spine)
            spine, nargs = None, 0

        space = ""
        while i < len(toks):
            t = toks[i]
            if t == ")":
                flush()
                return out + ("" if space == "" else ""), i + 1, items
            if t.isspace():
                space = t
                i += 1
                continue
            if t in STOP or t in "{};,":
                flush()
                out += space + t
                items.append(t)
                space = ""
                i += 1
                continue
            if re.fullmatch(r"\.[^\s.]+", t) and spine is not None:
                spine = spine + t if nargs == 0 else "(" + spine + ")" + t
                nargs = 0
                space = ""
                i += 1
                continue
            a, i = atom(i)
            if spine is None:
                out += space
                spine, nargs = a, 0
            else:
                spine += space + a
                nargs += 1
            space = ""
        flush()
        return out, i, items

    lead = re.match(r"\s*", s)[0]
    body, i, _ = group(0)
    while i < len(toks):  # an unbalanced )
        more, j, _ = group(i)
        body += ")" + more
        i = j
    if s.rstrip().endswith(")") and body.count("(") > body.count(")"):
        body += ")"
    return lead + body.lstrip()


def edits(table, turn):
    bad = 0
    for e in sorted(glob.glob("crates/*/must-fail/*.edit")):
        crate = e.split("/must-fail")[0]
        lines = open(e).read().split("\n")
        cur, now, pend = None, {}, None
        out = []
        said = []
        for l in lines:
            if l.startswith("file: "):
                cur = l[6:].strip()
                p = os.path.join(crate, cur)
                now.setdefault(cur, open(p).read() if os.path.exists(p) else "")
                out.append(l)
            elif l.startswith("old: "):
                o = l[5:]
                tries = [o]
                if cur.endswith(".antt"):
                    k = kit(o)
                    tries += [turn(o, cur), turn(k, cur), turn(tight(k), cur)]
                    tries += [resp(x) for x in list(tries)]
                else:
                    tries += [turn(o, cur)]
                hit = next((x for x in tries if now[cur].count(x) == 1), None)
                if hit is None:
                    said.append(f"old text not found once: {tries[-1]}")
                    hit = tries[-1]
                pend = (o, hit)
                out.append("old: " + hit)
            elif l.startswith("new: "):
                n = l[5:]
                if cur.endswith(".antt"):
                    older = pend[1] != pend[0] or re.search(r"[\w)] \.[a-z0-9]|Rattle·|_≡_", n)
                    k = resp(turn(tight(kit(n)), cur)) if older else turn(n, cur)
                else:
                    k = turn(n, cur) if pend[1] != pend[0] else n
                now[cur] = now[cur].replace(pend[1], k)
                out.append("new: " + k)
            else:
                out.append(l)
        new = "\n".join(out)
        old = "\n".join(lines)
        if new != old:
            print(f"EDIT {e}" + (" STILL BAD" if said else ""))
            for l in out:
                if l[:5] in ("old: ", "new: "):
                    print("     " + l)
            if not DRY:
                open(e, "w").write(new)
        elif said:
            print(f"EDIT {e} STILL BAD")
        for s in said:
            bad += 1
            print("     " + s)
    print(f"respell: {bad} texts of edits left by hand")


RESP = {}


def resp(s):
    if not RESP:
        p = KIT_FOLDER + "/port/notes/2026-11-18-names-are-in-snake-case/snake.tsv"
        for row in open(p):
            r = row.rstrip("\n").split("\t")
            if len(r) >= 2:
                RESP[r[0]] = r[1]
    # names that port.py respelled because a library of the older kit has the same name
    return TOKEN.sub(lambda m: RESP.get(m[0], m[0]) if worth(m[0]) else m[0], s)


def kit(s):
    s = re.sub(r"Rattle·(\w+)\.specs", r"Rattle.\1.specs", s)
    s = re.sub(r"Rattle·(\w+)·specs\.specs", r"Rattle.\1.specs", s)
    s = s.replace("mathlib.Core.Path.{_≡_}", "Rattle.std.specs.Prelude.{◌≡◌}")
    return TOKEN.sub(lambda m: KIT.get(m[0], m[0]), s)


main()
