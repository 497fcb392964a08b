#!/usr/bin/env python3
"""Looks whether each page is there, and is no longer than it may be.

    pages.py

Run it at the top of the repository. A front page that grows is not read; so the pages have sizes,
in bytes, and each crate has a page of its own. Links from one page to another have to lead to a file,
and to a heading where they name one.
"""

import os
import re
import sys

MOST = {
    "README.md": 10_000,
    "docs/ARCHITECTURE.md": 10_000,
    "docs/PROVED.md": 10_000,
    "docs/DECISIONS.md": 12_000,
    "docs/GLOSSARY.md": 10_000,
    "docs/WORKING.md": 21_000,
}
OTHERS = ("GUIDE", "TUTORIAL", "REFERENCE", "PROMISE", "FAQ", "MODEL", "FAULTS", "CHIP", "RULES")
LEAST_PAGE, MOST_PAGE = 150, 5_000


def crates():
    with open("crates.txt", encoding="utf-8") as file:
        return re.findall(r"(?m)^(\w+)(?: staticlib)?:", file.read())


def read(path):
    with open(path, encoding="utf-8") as file:
        return file.read()


def size_of(path):
    return os.path.getsize(path) if os.path.exists(path) else None


def lengths():
    """What is wrong with the pages' lengths."""
    for path, most in MOST.items():
        size = size_of(path)
        if size is None or size > most:
            yield f"{path} has {size} bytes, at most {most} are wanted"
    for name in OTHERS:
        if size_of(f"docs/{name}.md") is None:
            yield f"docs/{name}.md is not there"
    for crate in crates():
        size = size_of(f"crates/{crate}/README.md")
        if size is None or not LEAST_PAGE <= size <= MOST_PAGE:
            yield f"crates/{crate}/README.md has {size} bytes, {LEAST_PAGE} to {MOST_PAGE} are wanted"


def pages():
    yield "README.md"
    for folder in ("docs", "bench", "real/board"):
        yield from (f"{folder}/{it}" for it in sorted(os.listdir(folder)) if it.endswith(".md"))


def anchors(page):
    """The names of a page's headings, as links have them."""
    for heading in re.findall(r"(?m)^#+ (.+)$", read(page)):
        yield re.sub(r"[^\w\- ]", "", heading.lower()).replace(" ", "-")


def links():
    """The links that lead to no file, or to no heading of one."""
    for page in pages():
        for target, anchor in re.findall(r"\]\(([^)#]*)(?:#([^)]*))?\)", read(page)):
            path = os.path.join(os.path.dirname(page), target) if target else page
            if "://" in target:
                continue
            if not os.path.exists(path):
                yield f"{page} leads to {target}, which is not there"
            elif anchor and anchor not in anchors(path):
                yield f"{page} leads to {target}#{anchor}, and there is no such heading"


def main():
    wrong = [*lengths(), *links()]
    print("\n".join(wrong), end="\n" if wrong else "")
    print(f"{len(list(pages())) + len(crates())} pages, {len(wrong)} wrong")
    sys.exit(1 if wrong else 0)


main()
