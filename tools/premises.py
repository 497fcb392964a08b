#!/usr/bin/env python3
"""Lists the premises of laws that no worked example meets.

    premises.py

Run it at the top of the repository. A definition of specs/ that stands only before an arrow, in
clauses and in other definitions, is a premise; and a premise that nothing meets makes a law say
nothing. So each should stand as a conclusion in some example: a law of a module `examples` whose
`ensures` is the premise on concrete values. This script reads texts and knows no types: a line is a
place to look at, and no verdict. The last line counts what was looked at.
"""

import pathlib
import re

ARROWS = ("→",)
OPEN, CLOSE = "({[", ")}]"


def read(path):
    return path.read_text(encoding="utf-8")


def names_of(text):
    """The names of records and of definitions whose value is a type, in a file of specs/."""
    records = re.findall(r"(?m)^pub record (\w+)", text)
    signatures = re.findall(r"(?ms)^abbrev pub (\w+) :(.*?)(?=^\S)", text)
    types = [name for name, kind in signatures if re.search(r"Type 0\s*$", kind.strip())]
    return [it for it in records + types if it[0].isupper()]


def without_comments(text, mark):
    return re.sub(rf"(?m){mark}.*$", "", text)


def clauses(text):
    """The `ensures` of a file of code."""
    for match in re.finditer(r"ensures(?: \w+)? \{", text):
        depth, at = 1, match.end()
        while depth and at < len(text):
            depth += {"{": 1, "}": -1}.get(text[at], 0)
            at += 1
        yield text[match.end():at - 1]


def is_premise_at(text, end):
    """Whether an arrow follows a place of a text before its parenthesis closes."""
    depth = 0
    for at in range(end, len(text)):
        if text[at] in OPEN:
            depth += 1
        elif text[at] in CLOSE:
            depth -= 1
            if depth < 0:
                return False
        elif depth == 0 and text[at] in ARROWS:
            return True
    return False


def uses(name, texts):
    """Whether a name stands before an arrow in some text, and whether it stands elsewhere."""
    before = elsewhere = False
    for text in texts:
        for match in re.finditer(rf"(?<![\w.-]){name}(?![\w-])", text):
            if is_premise_at(text, match.end()):
                before = True
            else:
                elsewhere = True
    return before, elsewhere


def is_example(path):
    return "examples" in path.parts or path.name == "examples.rt"


def main():
    crates = pathlib.Path("crates")
    specs = {path: read(path) for path in crates.glob("*/specs/*.antt")}
    laws, examples = [], []
    for path in crates.glob("*/src/**/*.rt"):
        found = list(clauses(without_comments(read(path), "//")))
        (examples if is_example(path) else laws).extend(found)
    count = listed = 0
    for path, text in sorted(specs.items()):
        for name in names_of(text):
            before, elsewhere = uses(name, laws)
            if not before or elsewhere:
                continue
            count += 1
            if not uses(name, examples)[1]:
                listed += 1
                print(f"{path}: {name} stands only before an arrow, and no example has it")
    print(f"{count} premises, {listed} without an example")


main()
