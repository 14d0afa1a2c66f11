"""The declarations of a Rattle source, found by their first words and their brackets.

Imported by count-places.py. A place in the text is an offset; `Source.line` turns it into a line.
"""
import re
from collections import namedtuple

CLOSES = {"(": ")", "[": "]", "{": "}"}

Variant = namedtuple("Variant", "name payload at")
Enum = namedtuple("Enum", "name variants derives at")
Struct = namedtuple("Struct", "name fields derives tuple at")
Function = namedtuple("Function", "name owner params answer requires body body_at public doc at")
Const = namedtuple("Const", "name type value at")
Arm = namedtuple("Arm", "pattern body")
Match = namedtuple("Match", "on arms at")


def masked(text):
    """The text with comments, strings and byte literals blanked, each place where it was."""
    def blank(found):
        return re.sub(r"[^\n]", " ", found.group())

    def zero(found):
        return "0".ljust(len(found.group()))

    text = re.sub(r"//[^\n]*|b?\"(\\.|[^\"\\])*\"", blank, text)
    return re.sub(r"b?'(\\.|[^'\\\n])'", zero, text)


def closing(text, at):
    """Where the bracket at `at` is closed."""
    depth = 0
    for i in range(at, len(text)):
        depth += text[i] in "([{"
        depth -= text[i] in ")]}"
        if depth == 0:
            return i
    raise ValueError("a bracket is not closed")


def after_generics(text, at):
    """Where a `<..>` at `at` ends, if one stands there; an arrow inside closes nothing."""
    depth = 0
    while text[at] == "<" or depth:
        depth += text[at] == "<"
        depth -= text[at] == ">" and text[at - 1] != "-"
        at += 1
    return at


def split(text, separator=",", angles=True):
    """The parts of a text between separators that stand in no bracket; `<` is one in types, and none in facts."""
    parts, depth, last = [], 0, 0
    for i, letter in enumerate(text):
        depth += letter in "([{" or (letter == "<" and angles)
        depth -= letter in ")]}" or (letter == ">" and angles and text[i - 1] not in "-=")
        if depth == 0 and letter == separator:
            parts.append(text[last:i])
            last = i + 1
    parts.append(text[last:])
    return [p.strip() for p in parts if p.strip()]


def pairs(text):
    """The names and types of parameters or fields."""
    out = []
    for part in split(text):
        name, colon, kind = part.partition(":")
        words = [w for w in re.findall(r"[\w']+", name) if w not in ("mut", "pub", "ghost")]
        if colon and words:
            out.append((words[-1], " ".join(kind.split())))
        elif "self" in words:
            out.append(("self", "Self"))
    return out


class Source:
    def __init__(self, path, text):
        self.path, self.text, self.code = path, text, masked(text)
        self.impls = [(m.start(), closing(self.code, m.end() - 1), m.group(1))
                      for m in re.finditer(r"^impl\b[^{]*?(\w+)(?:<[^{]*>)?\s*\{", self.code, re.M)]
        self.enums = list(self.find_enums())
        self.structs = list(self.find_structs())
        self.functions = list(self.find_functions())
        self.consts = [Const(m.group(1), m.group(2).strip(), self.text[m.start(3):m.end(3)], m.start())
                       for m in re.finditer(r"\bconst (\w+): ([^=;]+)= ([^;]+);", self.code)]

    def line(self, at):
        return self.text.count("\n", 0, at) + 1

    def above(self, at):
        """The documentation and attributes above an item."""
        lines = self.text[:self.text.rfind("\n", 0, at) + 1].split("\n")[:-1]
        kept = []
        while lines and lines[-1].strip().startswith(("//", "#[")):
            kept.insert(0, lines.pop().strip())
        return "\n".join(kept)

    def derives(self, at):
        found = re.search(r"derive\(([^)]*)\)", self.above(at))
        return [w.strip() for w in found.group(1).split(",")] if found else []

    def find_enums(self):
        for m in re.finditer(r"\benum (\w+)[^{;]*\{", self.code):
            inside = self.code[m.end():closing(self.code, m.end() - 1)]
            variants = []
            for part in split(re.sub(r"#\[[^\]]*\]", "", inside)):
                name = re.match(r"\w*", part).group()
                variants.append(Variant(name, " ".join(part[len(name):].split()), m.start()))
            yield Enum(m.group(1), variants, self.derives(m.start()), m.start())

    def find_structs(self):
        for m in re.finditer(r"\bstruct (\w+)(?:<[^({]*>)?\s*([({])", self.code):
            inside = self.code[m.end():closing(self.code, m.end() - 1)]
            is_tuple = m.group(2) == "("
            fields = [(str(i), p.removeprefix("pub ")) for i, p in enumerate(split(inside))] if is_tuple else pairs(inside)
            yield Struct(m.group(1), fields, self.derives(m.start()), is_tuple, m.start())

    def find_functions(self):
        for m in re.finditer(r"\bfn (\w+)", self.code):
            opened = self.code.index("(", after_generics(self.code, m.end()))
            closed = closing(self.code, opened)
            at, requires = closed + 1, []
            head = re.compile(r"\s*(?:where [^{;]*)?(requires|ensures|decreases)\s*\w*\s*\{")
            answer = re.match(r"\s*->\s*((?:(?!\b(?:requires|ensures|where)\b)[^{;])*)", self.code[at:])
            at += answer.end() if answer else 0
            while clause := head.match(self.code, at):
                end = closing(self.code, clause.end() - 1)
                if clause.group(1) == "requires":
                    requires.append(self.code[clause.end():end].strip())
                at = end + 1
            brace = re.compile(r"\s*\{").match(self.code, at)
            if not brace:
                continue
            end = closing(self.code, brace.end() - 1)
            owner = next((name for a, b, name in self.impls if a < m.start() < b), "")
            public = "pub " in self.code[self.code.rfind("\n", 0, m.start()) + 1:m.start()]
            yield Function(m.group(1), owner, pairs(self.code[opened + 1:closed]),
                           " ".join(answer.group(1).split()) if answer else "", requires,
                           self.code[brace.end():end], brace.end(), public, self.above(m.start()), m.start())


def block_end(text, at):
    """Where the condition before a block ends: its first brace that stands in no bracket."""
    depth = 0
    for i in range(at, len(text)):
        if text[i] == "{" and depth == 0:
            return i
        depth += text[i] in "(["
        depth -= text[i] in ")]"
    return len(text)


def arms(inside):
    out, at = [], 0
    while True:
        arrow = re.compile(r"=>").search(inside, at)
        if not arrow:
            return out
        pattern = " ".join(inside[at:arrow.start()].split()).lstrip(", ")
        begin = arrow.end() + len(inside[arrow.end():]) - len(inside[arrow.end():].lstrip())
        if inside[begin] == "{":
            at = closing(inside, begin) + 1
            out.append(Arm(pattern, " ".join(inside[begin + 1:at - 1].split())))
            continue
        depth, i = 0, begin
        while i < len(inside) and not (inside[i] == "," and depth == 0):
            depth += inside[i] in "([{"
            depth -= inside[i] in ")]}"
            i += 1
        out.append(Arm(pattern, " ".join(inside[begin:i].split())))
        at = i + 1


def matches(function):
    """The matches of a function, inner ones too."""
    body = function.body
    for m in re.finditer(r"\bmatch\b", body):
        opened = block_end(body, m.end())
        inside = body[opened + 1:closing(body, opened)]
        yield Match(body[m.end():opened].strip(), arms(inside), function.body_at + m.start())


def loops(function):
    """The `while` loops of a function: the condition, the body, and the place."""
    body = function.body
    for m in re.finditer(r"\bwhile\b", body):
        opened = block_end(body, m.end())
        yield body[m.end():opened].strip(), body[opened + 1:closing(body, opened)], function.body_at + m.start()
