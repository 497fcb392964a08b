#!/usr/bin/env python3
"""Looks that crates.txt keeps to the layers of docs/ARCHITECTURE.md.

    layers.py

Each crate is in one layer: by its name, or by a family's name, which ends with `_`; its own name
counts first. It stands only on crates of its own layer or of lower ones. Prints what is wrong; the
status is 1 then.
"""

import os
import re
import sys

ROOT = os.path.dirname(os.path.dirname(os.path.abspath(__file__)))
ROW = re.compile(r"\| ([A-Z][a-z]+) \| ([^|]+) \| [^|]+ \|$")


def table():
    """The layers, lowest first: the name of each, with the names that its row has."""
    with open(os.path.join(ROOT, "docs", "ARCHITECTURE.md"), encoding="utf-8") as page:
        part = page.read().split("## Layers\n")[1].split("\n## ")[0]
    rows = [ROW.match(line) for line in part.split("\n")]
    return [(row[1], re.findall(r"`(\w+)`", row[2])) for row in rows if row and row[1] != "Layer"]


def crates():
    """The crates of crates.txt, with the names that each stands on."""
    with open(os.path.join(ROOT, "crates.txt"), encoding="utf-8") as lines:
        pairs = [line.split(":") for line in lines if ":" in line and not line.startswith("#")]
    return {name: stands_on.split() for name, stands_on in pairs}


def layers_of(crate, layers):
    """The numbers of the layers that name the crate, or otherwise its family."""
    own = [i for i, (_, names) in enumerate(layers) if crate in names]
    family = [i for i, (_, names) in enumerate(layers) if any(n.endswith("_") and crate.startswith(n) for n in names)]
    return own or family


def main():
    layers, known = table(), crates()
    found = {crate: layers_of(crate, layers) for crate in known}
    wrong = [f"{crate} is in {len(at)} layers" for crate, at in found.items() if len(at) != 1]
    for crate, below in known.items():
        for other in below:
            if other in known and found[crate] and found[other] and found[other][0] > found[crate][0]:
                wrong.append(f"{crate} stands on {other}, which is in a higher layer")
    for line in wrong:
        print(line)
    print(f"{len(known)} crates in {len(layers)} layers, {len(wrong)} wrong")
    return 1 if wrong else 0


if __name__ == "__main__":
    sys.exit(main())
