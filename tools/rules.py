#!/usr/bin/env python3
"""Looks that each place that docs/RULES.md names is there, and that the page has each rule.

    rules.py

A rule is a row of a table with seven columns: its name, what it says, its source, and where it
stands: definition, code, law, worked row. A caveat is such a row too, with the rules that it is
beside in place of a source. A place is a file below crates/ and a name in it. The comments of a
definition's file have to name the source that the page gives.

A comment that names a public source marks the definition that it stands above or in, or else, at
the head of a file, the file. Each marked definition has to be the definition of a rule or of a
caveat, or to stand in a table of two columns, with the rules that it is a part of or a reason why
it is of no rule. Each marked file has to hold the definition of a rule or of a caveat, or to stand
in such a table, with the rules that it says again or a reason. The caveats are those of
docs/REFERENCE.md. Prints what is wrong; the status is 1 then.
"""

import os
import re
import sys

ROOT = os.path.dirname(os.path.dirname(os.path.abspath(__file__)))
PAGE = os.path.join(ROOT, "docs", "RULES.md")
REFERENCE = os.path.join(ROOT, "docs", "REFERENCE.md")
CRATES = os.path.join(ROOT, "crates")

SOURCES = re.compile(
    r"datasheet|\bspecification\b|picotool|PICOBOOT interface|\bRFC \d|\b(?:XML|SVG) \d|"
    r"\bLinking Format\b", re.IGNORECASE)
NAME = re.compile(r"`[a-z][a-z0-9-]*`$")
CAVEAT = re.compile(r"`caveat ([a-z0-9-]+)`$")
FILE = re.compile(r"`(\w+/specs/\w+\.antt)`")
DEFINITIONS = re.compile(rf"{FILE.pattern}: (`[\w-]+`(?:, `[\w-]+`)*)$")
HEAD = re.compile(r"(?:\w+ )?pub (?:record |data )?(?!(?:use|mod)\b)([\w-]+)")
SENTENCE = re.compile(r"[A-Z].*[^.]\.$")

# A place: which files it may name, and how the name stands there.
PLACES = {
    "definition": (
        r"`(\w+/specs/\w+\.antt)`: `([\w-]+)`$", r"^(?:\w+ )?pub (?:record |data )?{}(?![\w-])"),
    "code": (r"`(\w+/src/\w+\.rt)`: `(\w+)`$", r"^\s*(?:[\w()]+ )*fn {}\b"),
    "law": (r"`(\w+/src/laws/\w+\.rt)`: `(\w+)`$", r"^pub fn {}\b"),
}

# A part of a source, and what the comments of the definition's file have to have.
CHAPTER = re.compile(r'datasheet (\d+(?:\.\d+)?)(?:, "([^"]+)")?$')
OWN = re.compile(r"(?:own|own where it is open|[a-z ]+ (?:is|are) own)$")
OTHERS = {"UF2 specification", "picotool"}


def text_of(path):
    with open(path, encoding="utf-8") as file:
        return file.read()


def owned_comments(path):
    """Each comment of a file, with the definition that it stands above or in, or else None."""
    owner, comment = None, []
    for line in text_of(path).splitlines():
        if line.strip().startswith("--"):
            comment += line.strip()[2:].split()
            continue
        head = HEAD.match(line)
        owner = head[1] if head else owner
        if comment:
            yield owner, " ".join(comment)
        comment = []


def comments_of(path):
    """The comments of a file of definitions, as one line."""
    return " ".join(comment for _, comment in owned_comments(path))


def rows_of(page):
    """The cells of each row of a table but its head."""
    for line in page.splitlines():
        if line.startswith("| `"):
            yield [it.strip() for it in line.strip().strip("|").split("|")]


def place_fault(what, cell):
    """What is wrong with a place."""
    form, pattern = PLACES[what]
    place = re.match(form, cell)
    if not place:
        return f"has no place of its {what}: {cell}"
    path = os.path.join(CRATES, place[1])
    if not os.path.isfile(path):
        return f"names a file that is not there: {place[1]}"
    if not re.search(pattern.format(re.escape(place[2])), text_of(path), re.MULTILINE):
        return f"names what is not in {place[1]}: {place[2]}"
    return None


def source_fault(part, comments):
    """What is wrong with a part of a source, by the comments of the definition's file."""
    chapter = CHAPTER.match(part)
    if chapter:
        number = re.escape(chapter[1])
        here = re.search(rf"\b(?:chapters?|section) (?:\d+ \(\w+\) and )?{number}\b", comments)
        if not here or "Datasheet" not in comments or (chapter[2] or "") not in comments:
            return f"has a source that its definition's file does not name: {part}"
    elif part in OTHERS:
        if part not in comments:
            return f"has a source that its definition's file does not name: {part}"
    elif not OWN.match(part):
        return f"has an unknown source: {part}"
    return None


def places_faults(says, definition, code, law, row):
    if not SENTENCE.match(says):
        yield "says no sentence"
    yield place_fault("definition", definition)
    yield place_fault("code", code)
    if law:
        yield place_fault("law", law)
    if row and not os.path.isdir(os.path.join(ROOT, "rows", row.strip("`"))):
        yield f"names a row that is not there: {row}"


def rule_faults(cells):
    """What is wrong with the row of a rule."""
    _, says, source, definition, *places = cells
    yield from places_faults(says, definition, *places)
    file = FILE.match(definition)
    path = os.path.join(CRATES, file[1]) if file else ""
    if os.path.isfile(path):
        yield from (source_fault(it, comments_of(path)) for it in source.split("; "))


def names_faults(cell, names):
    """Which of the rules that a cell lists is none."""
    unknown = (it for it in cell.split(", ") if it not in names)
    yield from (f"names a rule that is not there: {it}" for it in unknown)


def caveat_faults(cells, names):
    """What is wrong with the row of a caveat."""
    _, says, rules, *places = cells
    yield from names_faults(rules, names)
    yield from places_faults(says, *places)


def is_marked(path, name=None):
    """Whether a comment names a public source: any of the file, or that of a definition."""
    owned = (comment for owner, comment in owned_comments(path) if name in (None, owner))
    return any(SOURCES.search(it) for it in owned)


def told_faults(cell, names):
    """What is wrong with a cell that has rules, or a reason why there is none."""
    if cell.startswith("`"):
        yield from names_faults(cell, names)
    elif not SENTENCE.match(cell):
        yield "has neither rules nor a reason"


def part_faults(file, definitions):
    """What is wrong with the definitions of a file that the page lists."""
    path = os.path.join(CRATES, file)
    if not os.path.isfile(path):
        return ["is no file of definitions"]
    return [f"names a definition that no public source marks: {it}"
            for it in definitions if not is_marked(path, it)]


def other_faults(cells, names):
    """What is wrong with a row of two cells: definitions or a file, and rules or a reason."""
    parts, file = DEFINITIONS.match(cells[0]), FILE.fullmatch(cells[0])
    if parts:
        yield from part_faults(parts[1], names_in(parts[2]))
    elif not file or not os.path.isfile(os.path.join(CRATES, file[1])):
        yield "is no file of definitions"
    elif not is_marked(os.path.join(CRATES, file[1])):
        yield "names no public source, so that it need not be listed"
    yield from told_faults(cells[1], names)


def names_in(cell):
    return re.findall(r"`([\w-]+)`", cell)


def files():
    """The files of definitions, below crates/."""
    for at, _, names in os.walk(CRATES):
        paths = (os.path.relpath(os.path.join(at, it), CRATES) for it in names)
        yield from (it for it in paths if re.match(r"\w+/specs/\w+\.antt$", it))


def sourced():
    """What a public source marks: a file and a definition in it, or None for the whole file."""
    for path in files():
        for owner, comment in owned_comments(os.path.join(CRATES, path)):
            if SOURCES.search(comment):
                yield path, owner


def listed(rows):
    """What the page lists: a file and a definition in it, or None for the whole file."""
    for cells in rows:
        parts, file = DEFINITIONS.match(cells[0]), FILE.fullmatch(cells[0])
        place = re.match(PLACES["definition"][0], cells[3]) if len(cells) == 7 else None
        if place:
            yield from ((place[1], place[2]), (place[1], None))
        if parts:
            yield from ((parts[1], it) for it in names_in(parts[2]))
        if file:
            yield file[1], None


def source_faults(rows):
    """What a public source marks, and the page does not list."""
    for path, owner in sorted(set(sourced()) - set(listed(rows)), key=str):
        yield f"{owner} of {path} has a public source, and is not on the page" if owner else (
            f"{path} names a public source, and is not on the page")


def row_faults(cells, names):
    if len(cells) == 2:
        return other_faults(cells, names)
    if len(cells) != 7:
        return [f"has {len(cells)} cells"]
    if CAVEAT.match(cells[0]):
        return caveat_faults(cells, names)
    if NAME.match(cells[0]):
        return rule_faults(cells)
    return ["is no name of a rule"]


def list_faults(rows):
    """What is twice, what is missing, and what there is not."""
    firsts = [it[0] for it in rows]
    yield from (f"{it} stands twice" for it in sorted(set(firsts)) if firsts.count(it) > 1)
    caveats = {it[1] for it in map(CAVEAT.match, firsts) if it}
    printed = set(re.findall(r"(?m)^\| `caveat ([a-z0-9-]+)", text_of(REFERENCE)))
    yield from (f"caveat {it} is not on the page" for it in sorted(printed - caveats))
    yield from (f"caveat {it} is not in docs/REFERENCE.md" for it in sorted(caveats - printed))
    yield from source_faults(rows)


def main():
    rows = list(rows_of(text_of(PAGE)))
    names = {it[0] for it in rows if len(it) == 7 and NAME.match(it[0])}
    caveats = {it[0] for it in rows if len(it) == 7 and CAVEAT.match(it[0])}
    told = names | caveats
    wrong = [f"{cells[0]} {it}" for cells in rows for it in row_faults(cells, told) if it]
    wrong += list_faults(rows)
    for it in wrong:
        print(f"docs/RULES.md: {it}")
    if not wrong:
        count = sum(1 for it in set(sourced()) if it[1])
        print(f"docs/RULES.md: {len(names)} rules, each with its places, "
              f"and {count} definitions with a source, 0 wrong")
    return 1 if wrong else 0


if __name__ == "__main__":
    sys.exit(main())
