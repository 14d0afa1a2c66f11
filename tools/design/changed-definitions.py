#!/usr/bin/env python3
"""Lists each definition, record and data of crates/*/specs/*.antt that was changed, moved, renamed, gone or new since a commit, old and new text.

usage: tools/design/changed-definitions.py COMMIT [CRATE..] [--count]

Comments, line ends, imports and the file within a crate say nothing here. Told apart from what changed: what differs by the spelling of the choice
alone (`when b then x else y`, since `if b then x else y`). A name that is gone is found again where another has the same text, in its crate or in
another. What this can't see: whether a changed text means the same.
"""
import collections
import os
import re
import sys

import sources

SPECS = re.compile(r"crates/([^/]+)/specs/.*\.antt")
HEAD = re.compile(r" *(?:(?:abbrev|opaque|unfoldable|pub|record|data|instance) +)*([^\s(){},.=|:]+)(?: +[({][^=]*?)? *:(?= |$)")
ENDS = re.compile(r" *(use|mod|pub use|pub mod|open|module|infix[lr]?|prefix)\b")


def squeeze(text):
    return re.sub(r"\s+", " ", text).strip()


def definitions(raw):
    """Each name with its block's parameters and its text, up to the next head at its depth or less; fields and constructors belong to theirs."""
    found, name, depth, lines, parameters = [], None, 0, [], ""
    for line in [*raw.split("\n"), "mod"]:
        line = re.sub(r"(^|\s)--.*", "", line).rstrip()
        indent = len(line) - len(line.lstrip())
        head = HEAD.match(line)
        head = head if head and head[1] not in ("let", "λ") and (name is None or indent <= depth) else None
        ends = ENDS.match(line)
        if name and (head or ends):
            found.append((name, squeeze(parameters), squeeze(" ".join(lines))))
            name = None
        if ends:
            parameters = re.sub(r"^ *module _ *| *where$", "", line) if line.lstrip().startswith("module") else ""
        elif head:
            parameters = parameters if indent else ""
            name, depth, lines = head[1], indent, [line]
        elif name and line:
            lines.append(line)
    return found


def read(texts):
    """By crate and name: the file, the parameters and the text of each definition of that name."""
    out = collections.OrderedDict()
    for path, raw in sorted(texts.items()):
        place = SPECS.fullmatch(path)
        for name, parameters, text in definitions(raw) if place else []:
            out.setdefault((place[1], name), []).append((os.path.basename(path), parameters, text))
    return out


def spelled(text):
    """The text with the choice in one spelling."""
    return re.sub(r"\bwhen\b", "if", text)


def shape(name, sides):
    """The texts without the name that they have."""
    return tuple(re.sub(r"(?<![\w.])" + re.escape(name) + r"(?![\w.])", "_", spelled(text)) for _, _, text in sides)


def compared(old, new):
    if [side[1:] for side in old] == [side[1:] for side in new]:
        return "same"
    if [(side[1], spelled(side[2])) for side in old] == [(side[1], spelled(side[2])) for side in new]:
        return "choice"
    return "changed"


def rows(old, new):
    """A mark, a key, the key where it is now, and both sides, for each definition."""
    free = collections.defaultdict(list)
    for key, sides in new.items():
        if key not in old:
            free[shape(key[1], sides)].append(key)
    for key, sides in old.items():
        if key in new:
            yield compared(sides, new[key]), key, key, sides, new[key]
            continue
        again = sorted(free[shape(key[1], sides)], key=lambda k: (k[0] != key[0], k[1] != key[1]))
        if again:
            free[shape(key[1], sides)].remove(again[0])
            yield "moved" if again[0][1] == key[1] else "renamed", key, again[0], sides, new[again[0]]
        else:
            yield "gone", key, key, sides, []
    for keys in free.values():
        for key in keys:
            yield "new", key, key, [], new[key]


def show(mark, key, now, old, new):
    print(f"{mark}: {' '.join(key)}" + (f" -> {' '.join(now)}" if now != key else ""))
    if mark in ("changed", "gone", "new"):
        for sign, sides in (("-", old), ("+", new)):
            for file, parameters, text in sides:
                print(f"    {sign} {file}: {parameters + ' ⊢ ' if parameters else ''}{text}")


def main():
    words = [w for w in sys.argv[1:] if not w.startswith("--")]
    if not words or set(sys.argv[1:]) - set(words) - {"--count"}:
        sys.exit(__doc__)
    counts = collections.Counter()
    for mark, key, now, old, new in rows(read(sources.files(words[0])), read(sources.files(None))):
        if len(words) > 1 and key[0] not in words[1:] and now[0] not in words[1:]:
            continue
        counts[mark] += 1
        if mark != "same" and "--count" not in sys.argv:
            show(mark, key, now, old, new)
    print("definitions: " + ", ".join(f"{n} {mark}" for mark, n in sorted(counts.items())))


main()
