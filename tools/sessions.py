#!/usr/bin/env python3
"""Runs the sessions of a document, and compares every line that it shows.

    sessions.py [--needing TOOL] PROGRAM DOCUMENT..

A session stands in a block that is indented by four spaces. A line of it that begins with `$ ` is a
command, the lines behind that begin with `> ` belong to the command, and the lines up to the next
command are what it prints, standard error included. The commands of a document run in one bash, in
a new folder, in which the program is called `dugnatsew`, with the files of `make examples` in
`examples/`; each has to end with status 0, so that another status is shown by `; echo $?`. The last
line is `N commands as shown, M not`, and the status is 0 where M is 0.

A line `<!-- needs TOOL -->` says that the commands up to the next heading of its section's level
need that tool. They run for themselves, where it is installed, and are skipped where it is not, which
is said at the end. With `--needing TOOL` the commands that need it are the only ones that run.
"""

import os
import re
import shutil
import subprocess
import sys
import tempfile

HERE = os.path.dirname(os.path.abspath(__file__))
INDENT = " " * 4
NAME = "dugnatsew"
MISSING = set()  # the tools that a part needs, and that are not there


class Command:
    """A command of a document: its line number, its text, and the lines that it has to print."""

    def __init__(self, number, text):
        self.number = number
        self.lines = [text]
        self.wanted = []

    def text(self):
        return "\n".join(self.lines)


def parts_of(lines):
    """The parts of a document, each with the tool that it needs, or None, and its numbered lines."""
    plain, parts, level, depth = [], [], 0, None
    for number, line in enumerate(lines, 1):
        heading = re.match(r"(#+) ", line)
        if heading:
            level = len(heading.group(1))
            depth = None if depth is None or level <= depth else depth
        needs = re.match(r"<!-- needs (\S+) -->$", line)
        if needs:
            depth = level
            parts.append((needs.group(1), []))
        (plain if depth is None else parts[-1][1]).append((number, line))
    return [(None, plain), *parts]


def blocks(lines):
    """The indented blocks of numbered lines, each without its indent."""
    block, blank = [], []
    for number, line in lines:
        if line.startswith(INDENT):
            block += [(it, "") for it in blank] + [(number, line[len(INDENT):])]
            blank = []
        elif not line.strip():
            blank += [number] if block else []
        else:
            yield block
            block, blank = [], []
    yield block


def commands_of(block):
    found = []
    for number, line in block:
        if line.startswith("$ "):
            found.append(Command(number, line[2:]))
        elif found and not found[-1].wanted and re.match(r">( |$)", line):
            found[-1].lines.append(line[2:])
        elif found:
            found[-1].wanted.append(line)
    return found


def script_of(commands, folder):
    """A script that runs each command for itself, and keeps its output and its status."""
    parts = []
    for at, command in enumerate(commands):
        kept = os.path.join(folder, str(at))
        parts += ["{", command.text(), f"}} > '{kept}' 2>&1 < /dev/null"]
        parts += [f"echo $? > '{kept}.status'"]
    return "\n".join(parts) + "\n"


def read(path):
    try:
        with open(path, encoding="utf-8", errors="replace") as file:
            return file.read()
    except OSError:
        return ""


def run(commands, program, folder):
    """Runs the commands; the list of what each printed, by lines, and its status as a text."""
    for part in ("bin", "kept", "work"):
        os.mkdir(os.path.join(folder, part))
    os.symlink(os.path.abspath(program), os.path.join(folder, "bin", NAME))
    examples = os.path.join(folder, "work", "examples")
    subprocess.run([sys.executable, os.path.join(HERE, "examples.py"), program, examples], check=True)
    kept = os.path.join(folder, "kept")
    path = os.path.join(folder, "bin") + os.pathsep + os.environ["PATH"]
    subprocess.run(
        ["bash", "-c", script_of(commands, kept)],
        cwd=os.path.join(folder, "work"),
        env={"PATH": path, "HOME": folder, "LC_ALL": "C"},
        check=False,
    )
    shown = []
    for at in range(len(commands)):
        file = os.path.join(kept, str(at))
        shown.append((read(file).splitlines(), read(f"{file}.status").strip() or "none"))
    return shown


def difference(command, lines, status):
    """What differs for a command, or None."""
    for at in range(max(len(lines), len(command.wanted))):
        got = lines[at] if at < len(lines) else "(no line)"
        wanted = command.wanted[at] if at < len(command.wanted) else "(no line)"
        if got != wanted:
            return f"line {at + 1} of its output\n  got    {got}\n  shown  {wanted}"
    return f"its status is {status}" if status != "0" else None


def compare(document, lines, program):
    """The number of commands in lines of a document that ran as shown, and of those that did not."""
    commands = [it for block in blocks(lines) for it in commands_of(block)]
    with tempfile.TemporaryDirectory() as folder:
        shown = run(commands, program, folder)
    wrong = 0
    for command, (got, status) in zip(commands, shown):
        why = difference(command, got, status)
        if why:
            wrong += 1
            print(f"{document}:{command.number}: {command.lines[0]}\n  {why}")
    return len(commands) - wrong, wrong


def check(document, program, needing):
    """The same of a document, or where a tool is named of the parts that need it."""
    with open(document, encoding="utf-8") as file:
        lines = file.read().split("\n")
    right = wrong = 0
    for tool, part in parts_of(lines):
        if needing and tool != needing:
            continue
        if tool and not shutil.which(tool):
            MISSING.add(tool)
            continue
        good, bad = compare(document, part, program)
        right, wrong = right + good, wrong + bad
    return right, wrong


def main():
    words = sys.argv[1:]
    needing = None
    if words[:1] == ["--needing"] and len(words) > 1:
        needing, words = words[1], words[2:]
    if len(words) < 2:
        sys.exit(__doc__)
    right = wrong = 0
    for document in words[1:]:
        good, bad = check(document, words[0], needing)
        right, wrong = right + good, wrong + bad
    if MISSING:
        print(f"Not there, so not tried: {', '.join(sorted(MISSING))}")
    print(f"{right} commands as shown, {wrong} not")
    sys.exit(0 if right and not wrong else 1)


main()
