"""What both counts of the design pass share: the files of a commit or of the working tree, and the report.

Imported by count-places.py and count-by-reading.py; it finds nothing by itself.
"""
import io
import pathlib
import subprocess
import sys
import tarfile
from collections import namedtuple

# One place: the point, its kind, the file, the line, what stands there, and the function or type that it is in.
Place = namedtuple("Place", "point kind path line what item")

TOP = pathlib.Path(__file__).resolve().parents[2]

POINTS = {
    1: "own enums, flags, sentinels, numbers for kinds",
    2: "twins",
    3: "loops by hand",
    4: "equality, order, copying, conversion, printing by hand",
    5: "facts in three or more contracts, parameters together",
    6: "buffers and positions, parallel arrays, searches, arenas",
    7: "switches on which step to run",
    8: "proofs",
}


def git(*words):
    return subprocess.run(["git", *words], cwd=TOP, check=True, capture_output=True).stdout


def of_commit(commit):
    """The files of crates/ at a commit, by path."""
    archive = tarfile.open(fileobj=io.BytesIO(git("archive", commit, "crates")))
    for member in archive.getmembers():
        if member.isfile() and member.name.endswith((".rt", ".antt")):
            yield member.name, archive.extractfile(member).read().decode()


def of_tree():
    """The files of crates/ in the working tree, by path; what is built in out/ isn't read."""
    for path in sorted((TOP / "crates").rglob("*")):
        name = path.relative_to(TOP).as_posix()
        if path.suffix in (".rt", ".antt") and "/out/" not in name:
            yield name, path.read_text()


def files(commit):
    return dict(of_commit(commit) if commit else of_tree())


def sources(texts):
    return {p: t for p, t in sorted(texts.items()) if p.endswith(".rt") and "/src/" in p}


def short(path):
    return path.removeprefix("crates/")


def reason(texts, place):
    """The plain comment beside a place: at the end of its line, or in the block of comments and attributes above."""
    lines = texts.get(place.path, "").split("\n")
    at = place.line - 1
    if at >= len(lines):
        return ""
    found = []
    if "// " in lines[at] and not lines[at].strip().startswith("///"):
        found.append(lines[at].split("// ", 1)[1])
    while at > 0 and lines[at - 1].strip().startswith(("//", "#[", "#!")):
        at -= 1
        text = lines[at].strip()
        if text.startswith("// "):
            found.insert(0, text[3:])
    return " ".join(found)


def arguments(usage):
    words = sys.argv[1:]
    flags = {w for w in words if w.startswith("--")}
    commits = [w for w in words if not w.startswith("--")]
    if len(commits) > 1 or flags - {"--list", "--beside"}:
        sys.exit(usage)
    return (commits[0] if commits else None), flags


def report(texts, places, kinds, listed):
    """One row for each point, one for each of its kinds; with `listed` each place under it."""
    for point, title in POINTS.items():
        of_point = [p for p in places if p.point == point]
        print(f"{point}. {title}: {len({(p.path, p.line, p.kind) for p in of_point})}")
        for kind in kinds[point]:
            rows = sorted({p for p in of_point if p.kind == kind}, key=lambda p: (p.path, p.line, p.what))
            lines = len({(p.path, p.line) for p in rows})
            kept = sum(1 for p in rows if reason(texts, p))
            print(f"   {lines:4}  {kind}" + (f"; {kept} with a comment beside" if kept else ""))
            for place in rows if listed else []:
                why = reason(texts, place)
                print(f"         {short(place.path)}:{place.line}  {place.what}" + (f"  // {why}" if why else ""))
